//! Searches, paths, route checks and map texts.
use super::{Cells, Room};
use crate::raw::{
    self,
    answers::{checked, found, listed, plain},
};
use crate::{Check, Point, Refusal, SearchError, Settings};

/// What a search found: the first `2 * waypoints` numbers of the room's `out` are the waypoints, x and y in turn.
///
/// ```
/// use barnsling::{lent, Grid, Point, Rooms, Settings};
/// let mut floor = Grid::new(2, 1)?;
/// floor.rebuild()?;
/// let (mut rooms, a, b) = (Rooms::new(), Point::new(0, 0), Point::new(1, 0));
/// let found = lent::single_goal(floor.tables().cells(), rooms.lend(), &Settings::default(), a, b, false)?;
/// assert_eq!((found.pops, found.cost, found.waypoints), (2, 70, 2));
/// # Ok::<(), barnsling::Refusal>(())
/// ```
#[derive(Clone, Copy, Debug, PartialEq, Eq)]
#[non_exhaustive]
pub struct Found {
    /// The pops of the search.
    pub pops: u32,
    /// The cost at the goal's pop; a walk along the way may cost more.
    pub cost: u64,
    /// How many points were written.
    pub waypoints: usize,
}

/// The waypoints from a start to a goal, or approximately to it, in `room.out`.
/// Refuses STATE, SETTING, POINT, NO_ROUTE, then EXHAUSTED, DEPTH, FRINGE, POPS or SAME as met, ROOM last; a refusal writes no output.
///
/// ```
/// use barnsling::{lent, Point, Refusal, Rooms, Settings, Tables};
/// let mut t = Tables::room(2, 1);
/// lent::new(t.cells_mut())?;
/// let (mut rooms, settings) = (Rooms::new(), Settings::default());
/// let (a, b) = (Point::new(0, 0), Point::new(1, 0));
/// // nothing is joined yet
/// let no = lent::single_goal(t.cells(), rooms.lend(), &settings, a, b, false).unwrap_err();
/// assert_eq!((no.refusal, no.pops), (Refusal::NoRoute, 0));
/// lent::rebuild(t.links_mut(), true)?;
/// let found = lent::single_goal(t.cells(), rooms.lend(), &settings, a, b, false)?;
/// assert_eq!((found.pops, found.waypoints), (2, 2));
/// assert_eq!(rooms.lend().out[..4], [0, 0, 1, 0]);
/// # Ok::<(), Refusal>(())
/// ```
#[inline]
pub fn single_goal(
    t: Cells<'_>,
    room: Room<'_>,
    settings: &Settings,
    start: Point,
    goal: Point,
    approximate: bool,
) -> Result<Found, SearchError> {
    found(raw::single_goal(
        t,
        room,
        settings,
        start,
        goal,
        approximate,
    ))
}

/// The waypoints from a start to one of several goals, given as x and y in turn, in `room.out`.
/// Refuses STATE, SETTING, GOALS, POINT, then as [`single_goal`] does, but never NO_ROUTE.
///
/// ```
/// use barnsling::{lent, Point, Refusal, Rooms, Settings, Tables};
/// let mut t = Tables::room(2, 1);
/// lent::new(t.cells_mut())?;
/// let (mut rooms, settings) = (Rooms::new(), Settings::default());
/// let found = lent::multiple_goals(t.cells(), rooms.lend(), &settings, Point::new(0, 0), &[9, 9, 1, 0])?;
/// assert_eq!(found.waypoints, 2);
/// let odd = lent::multiple_goals(t.cells(), rooms.lend(), &settings, Point::new(0, 0), &[9, 9, 1]);
/// assert_eq!(odd.unwrap_err().refusal, Refusal::Goals);
/// # Ok::<(), Refusal>(())
/// ```
#[inline]
pub fn multiple_goals(
    t: Cells<'_>,
    room: Room<'_>,
    settings: &Settings,
    start: Point,
    goals: &[i32],
) -> Result<Found, SearchError> {
    found(raw::multiple_goals(t, room, settings, start, goals))
}

/// The path along a waypoint list, both as x and y in turn: how many points were written; the rest of the room is kept.
/// Refuses LIST, POINT, ROOM.
///
/// ```
/// use barnsling::{lent, Refusal};
/// let mut out = [-1; 8];
/// assert_eq!(lent::waypoints_to_path(&[0, 0, 2, 1], &mut out), Ok(3));
/// assert_eq!(out, [0, 0, 1, 1, 2, 1, -1, -1]);
/// assert_eq!(lent::waypoints_to_path(&[0, 0, 2], &mut out), Err(Refusal::List));
/// ```
#[inline]
pub fn waypoints_to_path(list: &[i32], out: &mut [i32]) -> Result<usize, Refusal> {
    listed(raw::waypoints_to_path(list, out))
}

/// Whether the way along a waypoint list, x and y in turn, is clear now, every cell of its path after the first point inside and
/// free; and its first bent leg, whether or not it is clear. Refuses STATE, LIST, POINT.
///
/// ```
/// use barnsling::{lent, Grid, Point};
/// let mut floor = Grid::new(3, 1)?;
/// assert!(lent::check_route(floor.tables().cells(), &[0, 0, 2, 0])?.clear);
/// assert!(!lent::check_route(floor.tables().cells(), &[0, 0, 3, 0])?.clear);
/// floor.set(Point::new(1, 0), true)?;
/// let check = lent::check_route(floor.tables().cells(), &[0, 0, 2, 0, 3, 2])?;
/// assert_eq!((check.clear, check.first_bent), (false, Some(2)));
/// # Ok::<(), barnsling::Refusal>(())
/// ```
#[inline]
pub fn check_route(t: Cells<'_>, list: &[i32]) -> Result<Check, Refusal> {
    checked(raw::check_route(t, list))
}

/// The bytes of room that [`route_text`] wants.
///
/// ```
/// use barnsling::{lent, Refusal};
/// assert_eq!(lent::route_text(b"", &mut vec![0; lent::TEXT_ROOM - 1]), Err(Refusal::Room));
/// assert!(lent::route_text(b"", &mut vec![0; lent::TEXT_ROOM]).is_ok());
/// ```
pub const TEXT_ROOM: usize = 82_100;

/// What `route` prints of a map text: how many bytes were written. Refuses ROOM where there is less room than [`TEXT_ROOM`].
///
/// A text that breaks its form is no refusal here: what is printed of it is `result=12` and the line. It keeps a grid and
/// working room on the stack, several hundred kB (STACK in include/barnsling.h).
///
/// ```
/// use barnsling::{lent, Refusal};
/// let mut out = vec![0; lent::TEXT_ROOM];
/// let n = lent::route_text(b"width=65\n", &mut out)?;
/// assert_eq!(&out[..n], b"result=12\nline=1\n");
/// # Ok::<(), Refusal>(())
/// ```
#[inline]
pub fn route_text(text: &[u8], out: &mut [u8]) -> Result<usize, Refusal> {
    plain(raw::route_text(text, out)).map(|n| n as usize)
}
