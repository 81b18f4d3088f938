//! New tables, edits and questions.
use super::{Cells, CellsMut, Links, LinksMut};
use crate::raw::{
    self,
    answers::{plain, same_version, value, yes},
};
use crate::{Point, Refusal};

/// A new grid: all cells free, each its own component, not dirty. Refuses SIZE, then STATE where a table is too short.
///
/// Panics where the archive is of another version than the crate: see [`version`](super::version).
///
/// ```
/// use barnsling::{lent, Refusal, Tables};
/// let mut t = Tables::room(3, 1);
/// assert_eq!(lent::new(t.cells_mut()), Ok(()));
/// assert_eq!(t.parent, [0, 1, 2]);
/// t.width = 4;
/// assert_eq!(lent::new(t.cells_mut()), Err(Refusal::State));
/// t.width = 65;
/// assert_eq!(lent::new(t.cells_mut()), Err(Refusal::Size));
/// ```
#[track_caller]
pub fn new(t: CellsMut<'_>) -> Result<(), Refusal> {
    same_version(raw::version());
    plain(raw::new(t)).map(|_| ())
}

/// Blocks or frees a cell; answers the dirty mark afterwards. Refuses STATE, then POINT.
///
/// A free cell that becomes blocked sets the mark; every other edit leaves it as it was passed, and joins the cell with its
/// free neighbours: see [`Grid::set`](crate::Grid::set) for what that means where a blocked cell is blocked again, and ask
/// [`blocked_at`] first. An entry of a table is stored only where its value changes, and then whole.
///
/// ```
/// use barnsling::{lent, Point, Refusal, Tables};
/// let mut t = Tables::room(3, 1);
/// lent::new(t.cells_mut())?;
/// assert_eq!(lent::set(t.cells_mut(), true, false, Point::new(1, 0), true), Ok(true));
/// assert_eq!(t.blocked, [0, 1, 0]);
/// let outside = Point::new(3, 0);
/// assert_eq!(lent::set(t.cells_mut(), true, true, outside, true), Err(Refusal::BadPoint(outside)));
/// # Ok::<(), Refusal>(())
/// ```
#[inline]
pub fn set(
    t: CellsMut<'_>,
    diagonal: bool,
    dirty: bool,
    at: Point,
    block: bool,
) -> Result<bool, Refusal> {
    yes(raw::set(t, diagonal, dirty, at, block), at, at)
}

/// The components anew from the blocked cells alone; answers the dirty mark afterwards, off. Refuses STATE.
///
/// ```
/// use barnsling::{lent, Tables};
/// let mut t = Tables::room(2, 1);
/// lent::new(t.cells_mut())?;
/// assert_eq!(lent::rebuild(t.links_mut(), true), Ok(false));
/// assert_eq!(t.parent, [0, 0]);
/// # Ok::<(), barnsling::Refusal>(())
/// ```
#[inline]
pub fn rebuild(t: LinksMut<'_>, diagonal: bool) -> Result<bool, Refusal> {
    plain(raw::rebuild(t, diagonal)).map(|v| v != 0)
}

/// [`rebuild`] where dirty; answers the dirty mark afterwards, off. Refuses STATE.
///
/// ```
/// use barnsling::{lent, Tables};
/// let mut t = Tables::room(2, 1);
/// lent::new(t.cells_mut())?;
/// assert_eq!(lent::update(t.links_mut(), true, false), Ok(false));
/// assert_eq!(t.parent, [0, 1]);
/// assert_eq!(lent::update(t.links_mut(), true, true), Ok(false));
/// assert_eq!(t.parent, [0, 0]);
/// # Ok::<(), barnsling::Refusal>(())
/// ```
#[inline]
pub fn update(t: LinksMut<'_>, diagonal: bool, dirty: bool) -> Result<bool, Refusal> {
    plain(raw::update(t, diagonal, dirty)).map(|v| v != 0)
}

/// The component of a cell. Refuses STATE, then POINT.
///
/// ```
/// use barnsling::{lent, Point, Tables};
/// let mut t = Tables::room(2, 1);
/// lent::new(t.cells_mut())?;
/// assert_eq!(lent::component(t.links(), Point::new(1, 0)), Ok(1));
/// # Ok::<(), barnsling::Refusal>(())
/// ```
#[inline]
pub fn component(t: Links<'_>, at: Point) -> Result<usize, Refusal> {
    value(raw::component(t, at), at, at).map(|c| c as usize)
}

/// Whether two points share a component: no where one is outside. Refuses STATE, then POINT.
///
/// ```
/// use barnsling::{lent, Point, Refusal, Tables};
/// let mut t = Tables::room(2, 1);
/// lent::new(t.cells_mut())?;
/// lent::rebuild(t.links_mut(), true)?;
/// let (here, far) = (Point::new(0, 0), Point::new(2000, 0));
/// assert_eq!(lent::reachable(t.links(), here, Point::new(1, 0)), Ok(true));
/// assert_eq!(lent::reachable(t.links(), here, Point::new(2, 0)), Ok(false));
/// assert_eq!(lent::reachable(t.links(), here, far), Err(Refusal::BadPoint(far)));
/// # Ok::<(), Refusal>(())
/// ```
#[inline]
pub fn reachable(t: Links<'_>, start: Point, goal: Point) -> Result<bool, Refusal> {
    yes(raw::reachable(t, start, goal), start, goal)
}

/// Whether they do not: yes where one is outside. Refuses STATE, then POINT.
///
/// ```
/// use barnsling::{lent, Point, Tables};
/// let mut t = Tables::room(2, 1);
/// lent::new(t.cells_mut())?;
/// assert_eq!(lent::unreachable(t.links(), Point::new(0, 0), Point::new(1, 0)), Ok(true));
/// # Ok::<(), barnsling::Refusal>(())
/// ```
#[inline]
pub fn unreachable(t: Links<'_>, start: Point, goal: Point) -> Result<bool, Refusal> {
    yes(raw::unreachable(t, start, goal), start, goal)
}

/// Whether some inside neighbour of the goal shares the start's component: yes where one is outside. Refuses STATE, then POINT.
///
/// ```
/// use barnsling::{lent, Point, Tables};
/// let mut t = Tables::room(2, 1);
/// lent::new(t.cells_mut())?;
/// assert_eq!(lent::neighbours_reachable(t.links(), true, Point::new(0, 0), Point::new(1, 0)), Ok(true));
/// # Ok::<(), barnsling::Refusal>(())
/// ```
#[inline]
pub fn neighbours_reachable(
    t: Links<'_>,
    diagonal: bool,
    start: Point,
    goal: Point,
) -> Result<bool, Refusal> {
    let answer = raw::neighbours_reachable(t, diagonal, start, goal);
    yes(answer, start, goal)
}

/// Whether none does: yes, too, where one is outside. Refuses STATE, then POINT.
///
/// ```
/// use barnsling::{lent, Point, Tables};
/// let mut t = Tables::room(2, 1);
/// lent::new(t.cells_mut())?;
/// assert_eq!(lent::neighbours_unreachable(t.links(), true, Point::new(0, 0), Point::new(1, 0)), Ok(false));
/// # Ok::<(), barnsling::Refusal>(())
/// ```
#[inline]
pub fn neighbours_unreachable(
    t: Links<'_>,
    diagonal: bool,
    start: Point,
    goal: Point,
) -> Result<bool, Refusal> {
    let answer = raw::neighbours_unreachable(t, diagonal, start, goal);
    yes(answer, start, goal)
}

/// Whether a cell is blocked. Refuses STATE, then POINT.
///
/// ```
/// use barnsling::{lent, Point, Refusal, Tables};
/// let mut t = Tables::room(2, 1);
/// lent::new(t.cells_mut())?;
/// lent::set(t.cells_mut(), true, false, Point::new(1, 0), true)?;
/// assert_eq!(lent::blocked_at(t.cells(), Point::new(0, 0)), Ok(false));
/// assert_eq!(lent::blocked_at(t.cells(), Point::new(1, 0)), Ok(true));
/// let outside = Point::new(2, 0);
/// assert_eq!(lent::blocked_at(t.cells(), outside), Err(Refusal::BadPoint(outside)));
/// # Ok::<(), Refusal>(())
/// ```
#[inline]
pub fn blocked_at(t: Cells<'_>, at: Point) -> Result<bool, Refusal> {
    yes(raw::blocked_at(t, at), at, at)
}

/// The neighbour mask of a cell. Refuses STATE, then POINT.
///
/// ```
/// use barnsling::{lent, Grid, Point, Refusal};
/// let floor = Grid::new(2, 1)?;
/// let outside = Point::new(2, 0);
/// assert_eq!(lent::neighbours_at(floor.tables().cells(), Point::new(0, 0)), Ok(4));
/// assert_eq!(lent::neighbours_at(floor.tables().cells(), outside), Err(Refusal::BadPoint(outside)));
/// # Ok::<(), Refusal>(())
/// ```
#[inline]
pub fn neighbours_at(t: Cells<'_>, at: Point) -> Result<u8, Refusal> {
    value(raw::neighbours_at(t, at), at, at).map(|m| m as u8)
}

/// The forced mask of a cell. Refuses STATE, then POINT.
///
/// ```
/// use barnsling::{lent, Grid, Point};
/// let floor = Grid::new(1, 1)?;
/// assert_eq!(lent::forced_at(floor.tables().cells(), Point::new(0, 0)), Ok(255));
/// # Ok::<(), barnsling::Refusal>(())
/// ```
#[inline]
pub fn forced_at(t: Cells<'_>, at: Point) -> Result<u8, Refusal> {
    value(raw::forced_at(t, at), at, at).map(|m| m as u8)
}

/// The pruned mask of a cell for travel in a direction, read modulo 8. Refuses STATE, then POINT.
///
/// ```
/// use barnsling::{lent, Grid, Point};
/// let floor = Grid::new(3, 3)?;
/// assert_eq!(lent::pruned_at(floor.tables().cells(), true, Point::new(1, 1), 1), Ok(7));
/// # Ok::<(), barnsling::Refusal>(())
/// ```
#[inline]
pub fn pruned_at(t: Cells<'_>, diagonal: bool, at: Point, direction: u8) -> Result<u8, Refusal> {
    value(raw::pruned_at(t, diagonal, at, direction), at, at).map(|m| m as u8)
}
