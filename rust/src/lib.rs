//! Barnsling for Rust hosts: can this cart get there, and which way?
//!
//! Every call of the archive `libboundary.a`, which this crate links, is proved to end, with no fault, on every input, and
//! to answer what the written rules say. The crate itself lends it memory and names its answers; it is tested, not proved.
//!
//! **The rule:** once the tables have been built ([`Grid::rebuild`]), a no between two different free cells is always
//! true, as long as the diagonal setting is the one that the tables were built with. A yes may be hopeful after a gate has
//! shut, until the tables are built again ([`Grid::update`]).
//!
//! **Orders that may be repeated** go through [`Grid::gate`]. The bare edit, [`Grid::set`], joins the two sides of a cell that
//! is blocked already when it is told to block it; then a yes can be false though the grid is not dirty, and only
//! [`Grid::rebuild`] takes it back.
//!
//! ```
//! use barnsling::{Grid, Point, Refusal, Rooms};
//!
//! # fn main() -> Result<(), Box<dyn std::error::Error>> {
//! // A floor of 5 by 3; a wall with one gate.
//! let (west, door, east) = (Point::new(0, 1), Point::new(2, 1), Point::new(4, 1));
//! let mut floor = Grid::new(5, 3)?;
//! floor.set(Point::new(2, 0), true)?;
//! floor.set(Point::new(2, 2), true)?;
//! floor.rebuild()?;
//! assert!(floor.reachable(west, east)?);
//!
//! let mut rooms = Rooms::new();
//! let route = floor.single_goal(&mut rooms, west, east)?;
//! assert_eq!(route.waypoints.last(), Some(&east));
//! assert!(floor.check_route(&route.waypoints)?.clear);
//!
//! // The gate shuts. The yes is hopeful now; the search finds out.
//! floor.gate(door, true)?;
//! assert!(floor.is_dirty() && floor.reachable(west, east)?);
//! let no = floor.single_goal(&mut rooms, west, east).unwrap_err();
//! assert_eq!(no.refusal, Refusal::Exhausted);
//!
//! // After an update the no is true, and the gate's opening is seen at once.
//! floor.update()?;
//! assert!(!floor.reachable(west, east)?);
//! floor.gate(door, false)?;
//! assert!(floor.reachable(west, east)?);
//! # Ok(())
//! # }
//! ```
//!
//! A [`Grid`] owns its tables, [`Rooms`] the working room of searches. A host that keeps its own memory uses [`lent`],
//! which has each call over slices. The crate needs `alloc` and no more of the standard library.
//!
//! What the calls take of the stack is said in include/barnsling.h (STACK): most take little, [`route_text`] several hundred kB.
//!
//! No argument makes a call panic. The three calls that make a grid ([`Grid::new`], [`Grid::from_tables`], [`lent::new`]) panic
//! if the archive that was linked is of another version than the crate.
#![no_std]
#![deny(missing_docs)]
#![deny(unsafe_code)]

extern crate alloc;

mod grid;
mod ground;
pub mod lent;
mod point;
#[doc(hidden)]
pub mod raw;
mod refusal;
mod search;
mod settings;
mod tables;
mod walks;

pub use grid::Grid;
pub use ground::{direction, distance, forced_mask, pruned_mask, scaled_distance, Heading};
pub use point::Point;
pub use refusal::Refusal;
pub use search::{Rooms, Route, SearchError};
pub use settings::{Limits, Settings};
pub use tables::Tables;
pub use walks::{route_text, waypoints_to_path, Check};

/// The README's example is compiled as a test.
#[cfg(doctest)]
#[doc = include_str!("../README.md")]
struct Readme;

/// The longest side of a grid.
///
/// ```
/// use barnsling::{Grid, Refusal, MOST_SIDE};
/// assert!(Grid::new(MOST_SIDE, MOST_SIDE).is_ok());
/// assert_eq!(Grid::new(MOST_SIDE + 1, 1), Err(Refusal::Size));
/// ```
pub const MOST_SIDE: usize = 64;

/// The most goals of a search.
///
/// ```
/// use barnsling::{Grid, Point, Refusal, Rooms, MOST_GOALS};
/// let floor = Grid::new(2, 1).unwrap();
/// let goals = [Point::new(0, 0); MOST_GOALS + 1];
/// let mut rooms = Rooms::new();
/// assert!(floor.multiple_goals(&mut rooms, goals[0], &goals[1..]).is_ok());
/// assert_eq!(floor.multiple_goals(&mut rooms, goals[0], &goals).unwrap_err().refusal, Refusal::Goals);
/// ```
pub const MOST_GOALS: usize = 64;
