//! Each call over slices that the host lends, for hosts that keep their own memory.
//!
//! Nothing is kept between calls. Every function is safe for every input: tables of any length and contents, any
//! numbers. A table that is too short is refused with STATE, working room that is too short with SETTING; a table may
//! be longer than the cells, and what lies beyond them is kept.
//!
//! **The dirty mark** is the host's to keep: [`set`] and [`update`] take it; [`set`], [`rebuild`] and [`update`] answer
//! what it is afterwards. What it does not tell is said at [`Grid::is_dirty`](crate::Grid::is_dirty).
//!
//! ```
//! use barnsling::{lent, Point, Refusal};
//!
//! # fn main() -> Result<(), Refusal> {
//! // a grid of 3 by 1 in arrays of the host
//! let (mut blocked, mut neighbours, mut forced, mut rank) = ([0; 3], [0; 3], [0; 3], [0; 3]);
//! let mut parent = [0; 3];
//! lent::new(lent::CellsMut {
//!     width: 3,
//!     height: 1,
//!     blocked: &mut blocked,
//!     neighbours: &mut neighbours,
//!     forced: &mut forced,
//!     parent: &mut parent,
//!     rank: &mut rank,
//! })?;
//! let links = lent::LinksMut { width: 3, height: 1, blocked: &blocked, parent: &mut parent, rank: &mut rank };
//! let mut dirty = lent::rebuild(links, true)?;
//! let links = lent::Links { width: 3, height: 1, parent: &parent, rank: &rank };
//! assert!(!dirty && lent::reachable(links, Point::new(0, 0), Point::new(2, 0))?);
//!
//! // the gate in the middle shuts: the tables are dirty now
//! let cells = lent::CellsMut {
//!     width: 3,
//!     height: 1,
//!     blocked: &mut blocked,
//!     neighbours: &mut neighbours,
//!     forced: &mut forced,
//!     parent: &mut parent,
//!     rank: &mut rank,
//! };
//! dirty = lent::set(cells, true, dirty, Point::new(1, 0), true)?;
//! assert!(dirty);
//!
//! // a rank that cannot be: STATE
//! rank[1] = 201;
//! let links = lent::Links { width: 3, height: 1, parent: &parent, rank: &rank };
//! assert_eq!(lent::reachable(links, Point::new(0, 0), Point::new(2, 0)), Err(Refusal::State));
//! # Ok(())
//! # }
//! ```

mod calls;
mod memory;
mod ways;

pub use calls::{
    blocked_at, component, forced_at, neighbours_at, neighbours_reachable, neighbours_unreachable,
    new, pruned_at, reachable, rebuild, set, unreachable, update,
};
pub use memory::{Cells, CellsMut, Links, LinksMut, Room};
pub use ways::{
    check_route, multiple_goals, route_text, single_goal, waypoints_to_path, Found, TEXT_ROOM,
};

/// The version of the archive's declarations that this crate is written for, `BARNSLING_VERSION` of the C header.
///
/// ```
/// use barnsling::lent;
/// assert_eq!(lent::version(), lent::VERSION);
/// ```
pub const VERSION: u32 = 4;

/// The version of the archive that is linked.
///
/// It rises whenever a declaration, the form of an answer or the number of a refusal changes. [`new`],
/// [`Grid::new`](crate::Grid::new) and [`Grid::from_tables`](crate::Grid::from_tables) panic where it is not [`VERSION`];
/// no other call looks.
///
/// ```
/// assert!(barnsling::lent::version() >= 4);
/// ```
pub fn version() -> u32 {
    crate::raw::version()
}
