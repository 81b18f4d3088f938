//! Paths, route checks, map texts, and the masks of a grid's cells.
use crate::raw::{numbers, numbers_mut};
use crate::{lent, Grid, Point, Refusal, Route};
use alloc::string::String;
use alloc::vec;
use alloc::vec::Vec;

/// Every point on the way along a waypoint list, written to the front of a room; the rest of it is kept. How many there are.
///
/// The grid is not looked at. Refuses LIST, POINT, ROOM; then nothing is written.
///
/// ```
/// use barnsling::{waypoints_to_path, Point, Refusal};
/// let list = [Point::new(0, 0), Point::new(3, 1)];
/// let mut room = [Point::default(); 9];
/// let n = waypoints_to_path(&list, &mut room)?;
/// assert_eq!(room[..n], [Point::new(0, 0), Point::new(1, 1), Point::new(2, 1), Point::new(3, 1)]);
/// assert_eq!(waypoints_to_path(&list, &mut room[..3]), Err(Refusal::Room));
/// assert_eq!(waypoints_to_path(&[], &mut room), Err(Refusal::List));
/// # Ok::<(), Refusal>(())
/// ```
pub fn waypoints_to_path(list: &[Point], room: &mut [Point]) -> Result<usize, Refusal> {
    lent::waypoints_to_path(numbers(list), numbers_mut(room))
}

/// What the program `route` prints for a map text. Refuses MAP with the line, where `route` prints `result=12` and the line.
///
/// It keeps a grid and working room on the stack, several hundred kB (STACK in include/barnsling.h).
///
/// ```
/// use barnsling::{route_text, Refusal};
/// let text = "width=3\nheight=1\ndiagonal=1\nstart=0,0\ngoal=2,0\nrow=.#.\n";
/// assert_eq!(route_text(text.as_bytes())?, "result=4\npops=0\nwaypoints=0\nclear=0\n");
/// assert_eq!(route_text(b"width=3\nheight=0\n"), Err(Refusal::Map(2)));
/// # Ok::<(), Refusal>(())
/// ```
pub fn route_text(text: &[u8]) -> Result<String, Refusal> {
    let mut printed = vec![0; lent::TEXT_ROOM];
    let n = lent::route_text(text, &mut printed)?;
    printed.truncate(n);
    // letters, digits and signs of ASCII alone
    let printed = String::from_utf8_lossy(&printed).into_owned();
    let line = printed.strip_prefix("result=12\nline=");
    match line.and_then(|n| n.trim_end().parse().ok()) {
        Some(line) => Err(Refusal::Map(line)),
        None => Ok(printed),
    }
}

impl Route {
    /// Every point on the way, from the start to the goal: [`waypoints_to_path`] with room made as needed.
    ///
    /// ```
    /// use barnsling::{Grid, Point, Rooms};
    /// let mut floor = Grid::new(9, 9)?;
    /// floor.rebuild()?;
    /// let route = floor.single_goal(&mut Rooms::new(), Point::new(0, 0), Point::new(8, 8))?;
    /// let path = route.path()?;
    /// assert_eq!(path.len(), 9);
    /// assert_eq!(path[4], Point::new(4, 4));
    /// # Ok::<(), barnsling::Refusal>(())
    /// ```
    pub fn path(&self) -> Result<Vec<Point>, Refusal> {
        let mut room = vec![Point::default(); 256];
        loop {
            match waypoints_to_path(&self.waypoints, &mut room) {
                Ok(n) => {
                    room.truncate(n);
                    return Ok(room);
                }
                Err(Refusal::Room) => room.resize(2 * room.len(), Point::default()),
                Err(r) => return Err(r),
            }
        }
    }
}

/// What a route check says of the way along a waypoint list.
///
/// ```
/// use barnsling::{Check, Grid, Point};
/// let floor = Grid::new(3, 2)?;
/// let list = [Point::new(0, 0), Point::new(1, 1), Point::new(3, 0)];
/// let check: Check = floor.check_route(&list)?;
/// assert!(!check.clear);
/// let leg = check.first_bent.unwrap();
/// assert_eq!((list[leg - 1], list[leg]), (Point::new(1, 1), Point::new(3, 0)));
/// # Ok::<(), barnsling::Refusal>(())
/// ```
#[derive(Clone, Copy, Debug, PartialEq, Eq)]
#[non_exhaustive]
pub struct Check {
    /// Whether every cell of the path after the first point is inside the grid and free.
    pub clear: bool,
    /// The first leg whose two points are not in line, from 1: leg k goes from `list[k - 1]` to `list[k]`.
    pub first_bent: Option<usize>,
}

/// Routes checked, and the masks of a cell; bit d of a mask stands for direction d.
impl Grid {
    /// Whether the way along a waypoint list is clear now, and its first bent leg. Refuses STATE, LIST, POINT.
    ///
    /// Clear: every cell of its path ([`waypoints_to_path`]) after the first point is inside the grid and free. The first point may be
    /// blocked or outside; it is looked at only if the way comes back to it. The check needs no room, and walks no further than the
    /// first cell that is not free.
    ///
    /// Bent: the two points of a leg are not in line ([`direction`](crate::direction)). The first such leg is named whether or not the
    /// way is clear. A leg between equal points counts, and is not bent.
    ///
    /// Checking [`Route::path`] says the same of `clear` as checking [`Route::waypoints`], and names no leg.
    ///
    /// ```
    /// use barnsling::{Grid, Point, Rooms};
    /// let mut floor = Grid::new(9, 1)?;
    /// floor.rebuild()?;
    /// let route = floor.multiple_goals(&mut Rooms::new(), Point::new(0, 0), &[Point::new(8, 0)])?;
    /// let check = floor.check_route(&route.waypoints)?;
    /// assert_eq!((check.clear, check.first_bent), (true, None));
    /// floor.set(Point::new(4, 0), true)?;
    /// assert!(!floor.check_route(&route.waypoints)?.clear);
    /// let check = floor.check_route(&[Point::new(0, 0), Point::new(8, 0), Point::new(8, 0), Point::new(6, 1)])?;
    /// assert_eq!((check.clear, check.first_bent), (false, Some(3)));
    /// # Ok::<(), barnsling::Refusal>(())
    /// ```
    pub fn check_route(&self, list: &[Point]) -> Result<Check, Refusal> {
        lent::check_route(self.tables.cells(), numbers(list))
    }

    /// Which neighbours of a cell are inside and free. Refuses STATE, then POINT.
    ///
    /// ```
    /// use barnsling::{Grid, Point};
    /// assert_eq!(Grid::new(3, 3)?.neighbour_mask(Point::new(1, 1)), Ok(255));
    /// # Ok::<(), barnsling::Refusal>(())
    /// ```
    pub fn neighbour_mask(&self, at: Point) -> Result<u8, Refusal> {
        lent::neighbours_at(self.tables.cells(), at)
    }

    /// A cell's forced directions. Refuses STATE, then POINT.
    ///
    /// ```
    /// use barnsling::{Grid, Point};
    /// assert_eq!(Grid::new(3, 3)?.forced_mask(Point::new(1, 1)), Ok(0));
    /// # Ok::<(), barnsling::Refusal>(())
    /// ```
    pub fn forced_mask(&self, at: Point) -> Result<u8, Refusal> {
        lent::forced_at(self.tables.cells(), at)
    }

    /// The directions that a search follows from a cell, having come to it in a direction (read modulo 8). Refuses STATE, then POINT.
    ///
    /// ```
    /// use barnsling::{Grid, Point};
    /// assert_eq!(Grid::new(3, 3)?.pruned_mask(Point::new(1, 1), 1), Ok(7));
    /// # Ok::<(), barnsling::Refusal>(())
    /// ```
    pub fn pruned_mask(&self, at: Point, direction: u8) -> Result<u8, Refusal> {
        lent::pruned_at(self.tables.cells(), self.settings.diagonal, at, direction)
    }
}
