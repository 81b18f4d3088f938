//! Searches: which way a cart goes.
use crate::lent::{self, Found, Room};
use crate::raw::{numbers, numbers_mut};
use crate::{Grid, Point, Refusal, MOST_SIDE};
use alloc::vec;
use alloc::vec::Vec;
use core::fmt;

/// A way that was found.
///
/// ```
/// use barnsling::{Grid, Point, Rooms, Route};
/// let mut floor = Grid::new(3, 1).unwrap();
/// floor.rebuild().unwrap();
/// let route: Route = floor.single_goal(&mut Rooms::new(), Point::new(0, 0), Point::new(2, 0)).unwrap();
/// assert_eq!(route.waypoints, [Point::new(0, 0), Point::new(1, 0), Point::new(2, 0)]);
/// assert_eq!((route.pops, route.cost), (3, 140));
/// ```
#[derive(Clone, Debug, PartialEq, Eq)]
#[non_exhaustive]
pub struct Route {
    /// The pops of the search.
    pub pops: u32,
    /// The search's own count for the way; a walk along it may cost more.
    pub cost: u64,
    /// The points at which the way may turn, from the start to the goal.
    pub waypoints: Vec<Point>,
}

/// Why there is no route, and how long the search took to find out. What it prints has the refusal in it, so it names no
/// source.
///
/// ```
/// use barnsling::{Grid, Point, Refusal, Rooms};
/// let floor = Grid::new(2, 1).unwrap();
/// let no = floor.single_goal(&mut Rooms::new(), Point::new(0, 0), Point::new(1, 0)).unwrap_err();
/// assert_eq!((no.refusal, no.pops), (Refusal::NoRoute, 0));
/// assert_eq!(no.to_string(), "NO_ROUTE (4): the tables say that there is no way, after 0 pops");
/// ```
#[derive(Clone, Copy, Debug, PartialEq, Eq)]
#[non_exhaustive]
pub struct SearchError {
    /// Why.
    pub refusal: Refusal,
    /// The pops of the search, 0 if it was refused before.
    pub pops: u32,
}

impl fmt::Display for SearchError {
    fn fmt(&self, f: &mut fmt::Formatter<'_>) -> fmt::Result {
        write!(f, "{}, after {} pops", self.refusal, self.pops)
    }
}

impl core::error::Error for SearchError {}

impl From<SearchError> for Refusal {
    fn from(e: SearchError) -> Refusal {
        e.refusal
    }
}

/// Working room of searches, and the room for their waypoints. Make it once and use it for every search of a thread.
///
/// ```
/// use barnsling::{Grid, Point, Rooms};
/// let mut floor = Grid::new(3, 3).unwrap();
/// floor.rebuild().unwrap();
/// let mut rooms = Rooms::new();
/// for y in 0..3 {
///     assert!(floor.single_goal(&mut rooms, Point::new(0, 0), Point::new(2, y)).is_ok());
/// }
/// ```
#[derive(Clone, Debug)]
pub struct Rooms {
    number: Vec<u32>,
    place: Vec<u32>,
    parent: Vec<u32>,
    cost: Vec<u64>,
    keys: Vec<u64>,
    idx: Vec<u32>,
    out: Vec<Point>,
}

/// The most that a search can need: a place for each cell and one for a start outside, and the largest fringe limit.
const MOST_CELLS: usize = MOST_SIDE * MOST_SIDE;
const MOST_FRINGE: usize = 8_192;

impl Rooms {
    /// Enough for every search: about 213 kB.
    ///
    /// ```
    /// assert_eq!(barnsling::Rooms::new().lend().out.len(), 8194);
    /// ```
    pub fn new() -> Rooms {
        Rooms::sized(MOST_CELLS, MOST_FRINGE, MOST_CELLS + 1)
    }

    /// Enough for grids of so many cells, a fringe limit, and so many waypoints. A search refuses SETTING where the working
    /// room is too short, and ROOM where the waypoints do not fit.
    ///
    /// More than any search can use is cut to that: 4,096 cells, a fringe limit of 8,192, 4,097 waypoints.
    ///
    /// ```
    /// use barnsling::{Grid, Point, Refusal, Rooms};
    /// let mut floor = Grid::new(3, 1).unwrap();
    /// floor.rebuild().unwrap();
    /// let (a, b) = (Point::new(0, 0), Point::new(2, 0));
    /// let mut rooms = Rooms::sized(3, 16, 2);
    /// assert_eq!(floor.single_goal(&mut rooms, a, b).unwrap_err().refusal, Refusal::Setting);
    /// floor.settings_mut().limits.fringe = 16;
    /// assert_eq!(floor.single_goal(&mut rooms, a, b).unwrap_err().refusal, Refusal::Room);
    /// assert!(floor.single_goal(&mut Rooms::sized(3, 16, 3), a, b).is_ok());
    /// let mut most = Rooms::sized(usize::MAX, usize::MAX, usize::MAX);
    /// assert_eq!((most.lend().cost.len(), most.lend().keys.len(), most.lend().out.len()), (4097, 8192, 8194));
    /// ```
    pub fn sized(cells: usize, fringe: usize, waypoints: usize) -> Rooms {
        let places = cells.min(MOST_CELLS) + 1;
        let fringe = fringe.min(MOST_FRINGE);
        let waypoints = waypoints.min(MOST_CELLS + 1);
        Rooms {
            number: vec![0; places],
            place: vec![0; places],
            parent: vec![0; places],
            cost: vec![0; places],
            keys: vec![0; fringe],
            idx: vec![0; fringe],
            out: vec![Point::default(); waypoints],
        }
    }

    /// The rooms, lent to a call of [`lent`].
    ///
    /// ```
    /// assert_eq!(barnsling::Rooms::sized(4, 16, 3).lend().keys.len(), 16);
    /// ```
    pub fn lend(&mut self) -> Room<'_> {
        Room {
            number: &mut self.number,
            place: &mut self.place,
            parent: &mut self.parent,
            cost: &mut self.cost,
            keys: &mut self.keys,
            idx: &mut self.idx,
            out: numbers_mut(&mut self.out),
        }
    }

    /// The route that was found, its waypoints copied out.
    fn route(&self, found: Found) -> Route {
        Route {
            pops: found.pops,
            cost: found.cost,
            waypoints: self.out.iter().take(found.waypoints).copied().collect(),
        }
    }
}

/// [`Rooms::new`].
impl Default for Rooms {
    fn default() -> Rooms {
        Rooms::new()
    }
}

impl Grid {
    /// The way from a start to a goal.
    ///
    /// Refuses STATE, SETTING, POINT (start, then goal), NO_ROUTE where the tables say no, then EXHAUSTED, DEPTH, FRINGE,
    /// POPS or SAME as the search meets them, and ROOM last. A hopeful yes (see [`set`](Grid::set)) may end in EXHAUSTED.
    ///
    /// ```
    /// use barnsling::{Grid, Point, Rooms};
    /// let mut floor = Grid::new(3, 2)?;
    /// floor.set(Point::new(1, 0), true)?;
    /// floor.rebuild()?;
    /// let route = floor.single_goal(&mut Rooms::new(), Point::new(0, 0), Point::new(2, 0))?;
    /// assert_eq!(route.waypoints, [Point::new(0, 0), Point::new(1, 1), Point::new(2, 0)]);
    /// # Ok::<(), barnsling::Refusal>(())
    /// ```
    #[doc(alias = "get_waypoints_single_goal")]
    pub fn single_goal(
        &self,
        rooms: &mut Rooms,
        start: Point,
        goal: Point,
    ) -> Result<Route, SearchError> {
        let found = lent::single_goal(
            self.tables.cells(),
            rooms.lend(),
            &self.settings,
            start,
            goal,
            false,
        )?;
        Ok(rooms.route(found))
    }

    /// The way from a start to a cell beside a goal, which may itself be blocked: to the first that is met whose distance
    /// from the goal is at most 99. Refuses as [`single_goal`](Grid::single_goal) does.
    ///
    /// ```
    /// use barnsling::{Grid, Point, Rooms};
    /// let mut floor = Grid::new(4, 1)?;
    /// floor.set(Point::new(3, 0), true)?;
    /// floor.rebuild()?;
    /// let route = floor.approximate_goal(&mut Rooms::new(), Point::new(0, 0), Point::new(3, 0))?;
    /// assert_eq!(route.waypoints.last(), Some(&Point::new(2, 0)));
    /// # Ok::<(), barnsling::Refusal>(())
    /// ```
    #[doc(alias = "get_waypoints_single_goal")]
    pub fn approximate_goal(
        &self,
        rooms: &mut Rooms,
        start: Point,
        goal: Point,
    ) -> Result<Route, SearchError> {
        let found = lent::single_goal(
            self.tables.cells(),
            rooms.lend(),
            &self.settings,
            start,
            goal,
            true,
        )?;
        Ok(rooms.route(found))
    }

    /// The way from a start to the one of several goals that the search meets first. The components are not asked, so
    /// a start outside the grid may search.
    ///
    /// Refuses STATE, SETTING, GOALS, POINT (start, then goals in order), then as [`single_goal`](Grid::single_goal) does, but never NO_ROUTE.
    ///
    /// ```
    /// use barnsling::{Grid, Point, Rooms};
    /// let floor = Grid::new(9, 1)?;
    /// let goals = [Point::new(8, 0), Point::new(2, 0)];
    /// let route = floor.multiple_goals(&mut Rooms::new(), Point::new(4, 0), &goals)?;
    /// assert_eq!(route.waypoints.last(), Some(&Point::new(2, 0)));
    /// # Ok::<(), barnsling::Refusal>(())
    /// ```
    #[doc(alias = "get_waypoints_multiple_goals")]
    pub fn multiple_goals(
        &self,
        rooms: &mut Rooms,
        start: Point,
        goals: &[Point],
    ) -> Result<Route, SearchError> {
        let found = lent::multiple_goals(
            self.tables.cells(),
            rooms.lend(),
            &self.settings,
            start,
            numbers(goals),
        )?;
        Ok(rooms.route(found))
    }
}
