//! The archive's functions, each as a safe one that answers what crosses the boundary. The only unsafe code of the crate.
//!
//! [`lent`](crate::lent) and [`Grid`](crate::Grid) are the crate's face, and this is none of it: it may change with any
//! version. It can be reached so that `compare/` sees what the archive answers, number by number.
//!
//! Why the calls are safe: a slice crosses as its own pointer and length, for the time of the call; what is lent to be
//! changed is borrowed by this call alone; and each function is proved to read and write nothing else, for every length,
//! contents and number. The declarations are those of include/barnsling.h.
//!
//! **Answers.** A `u64` is the value, which is below 2^32, or 2^32 times a refusal's number. Where a call takes two points
//! and refuses POINT, 2^32 times 256 more if the first is concerned, 512 more if the second. [`answers`] unpacks them.
#![allow(unsafe_code)]

use crate::lent::{Cells, CellsMut, Links, LinksMut, Room};
use crate::{Point, Settings};

pub mod answers;
mod paths;
pub use paths::{
    blocked_at, check_route, forced_at, neighbours_at, pruned_at, route_text, waypoints_to_path,
    Check, Reply,
};

#[rustfmt::skip]
extern "C" {
    fn barnsling_version() -> u32;
    fn barnsling_forced_mask(neighbours: u8) -> u8;
    fn barnsling_pruned_mask(diagonal: u8, direction: u8, neighbours: u8) -> u8;
    fn barnsling_direction(ax: i32, ay: i32, bx: i32, by: i32) -> u64;
    fn barnsling_distance(diagonal: u8, ax: i32, ay: i32, bx: i32, by: i32) -> u64;
    fn barnsling_scaled_distance(factor: f32, diagonal: u8, ax: i32, ay: i32, bx: i32, by: i32) -> u64;
    fn barnsling_new(
        blocked: *mut u8, blocked_len: usize, neighbours: *mut u8, neighbours_len: usize, forced: *mut u8, forced_len: usize,
        parent: *mut u16, parent_len: usize, rank: *mut u8, rank_len: usize, width: usize, height: usize,
    ) -> u64;
    fn barnsling_set(
        blocked: *mut u8, blocked_len: usize, neighbours: *mut u8, neighbours_len: usize, forced: *mut u8, forced_len: usize,
        parent: *mut u16, parent_len: usize, rank: *mut u8, rank_len: usize, width: usize, height: usize,
        diagonal: u8, dirty: u8, x: i32, y: i32, block: u8,
    ) -> u64;
    fn barnsling_rebuild(
        blocked: *const u8, blocked_len: usize, parent: *mut u16, parent_len: usize, rank: *mut u8, rank_len: usize,
        width: usize, height: usize, diagonal: u8,
    ) -> u64;
    fn barnsling_update(
        blocked: *const u8, blocked_len: usize, parent: *mut u16, parent_len: usize, rank: *mut u8, rank_len: usize,
        width: usize, height: usize, diagonal: u8, dirty: u8,
    ) -> u64;
    fn barnsling_component(
        parent: *const u16, parent_len: usize, rank: *const u8, rank_len: usize, width: usize, height: usize, x: i32, y: i32,
    ) -> u64;
    fn barnsling_reachable(
        parent: *const u16, parent_len: usize, rank: *const u8, rank_len: usize, width: usize, height: usize,
        sx: i32, sy: i32, gx: i32, gy: i32,
    ) -> u64;
    fn barnsling_unreachable(
        parent: *const u16, parent_len: usize, rank: *const u8, rank_len: usize, width: usize, height: usize,
        sx: i32, sy: i32, gx: i32, gy: i32,
    ) -> u64;
    fn barnsling_neighbours_reachable(
        parent: *const u16, parent_len: usize, rank: *const u8, rank_len: usize, width: usize, height: usize,
        diagonal: u8, sx: i32, sy: i32, gx: i32, gy: i32,
    ) -> u64;
    fn barnsling_neighbours_unreachable(
        parent: *const u16, parent_len: usize, rank: *const u8, rank_len: usize, width: usize, height: usize,
        diagonal: u8, sx: i32, sy: i32, gx: i32, gy: i32,
    ) -> u64;
    fn barnsling_single_goal(
        blocked: *const u8, blocked_len: usize, neighbours: *const u8, neighbours_len: usize, forced: *const u8, forced_len: usize,
        links: *const u16, links_len: usize, ranks: *const u8, ranks_len: usize,
        number: *mut u32, number_len: usize, place: *mut u32, place_len: usize, parent: *mut u32, parent_len: usize,
        cost: *mut u64, cost_len: usize, keys: *mut u64, keys_len: usize, idx: *mut u32, idx_len: usize,
        out: *mut i32, out_len: usize, width: usize, height: usize,
        factor: f32, diagonal: u8, improved: u8, depth: usize, pops: usize, fringe: usize,
        sx: i32, sy: i32, gx: i32, gy: i32, approximate: u8,
    ) -> Answer;
    fn barnsling_multiple_goals(
        blocked: *const u8, blocked_len: usize, neighbours: *const u8, neighbours_len: usize, forced: *const u8, forced_len: usize,
        links: *const u16, links_len: usize, ranks: *const u8, ranks_len: usize, goals: *const i32, goals_len: usize,
        number: *mut u32, number_len: usize, place: *mut u32, place_len: usize, parent: *mut u32, parent_len: usize,
        cost: *mut u64, cost_len: usize, keys: *mut u64, keys_len: usize, idx: *mut u32, idx_len: usize,
        out: *mut i32, out_len: usize, width: usize, height: usize,
        factor: f32, diagonal: u8, improved: u8, depth: usize, pops: usize, fringe: usize,
        sx: i32, sy: i32,
    ) -> Answer;
}

/// What a search answers, as numbers.
#[repr(C)]
#[derive(Clone, Copy, Debug, PartialEq, Eq)]
pub struct Answer {
    /// 0 found, else the refusal's number.
    pub refusal: u64,
    /// The pops of the search, 0 if it was refused before.
    pub pops: u64,
    /// How many points were written; 0 where refused.
    pub waypoints: u64,
    /// The cost at the goal's pop; 0 where refused.
    pub cost: u64,
    /// The point that POINT or SAME carries, else 0.
    pub x: i32,
    /// Its row.
    pub y: i32,
}

/// The numbers of a list of points, x and y in turn.
pub(crate) fn numbers(list: &[Point]) -> &[i32] {
    // SAFETY: a Point is two i32 in order, by repr(C), and nothing else; so twice the length is below usize::MAX, too.
    unsafe { core::slice::from_raw_parts(list.as_ptr().cast(), 2 * list.len()) }
}

/// The same, to be changed.
pub(crate) fn numbers_mut(list: &mut [Point]) -> &mut [i32] {
    // SAFETY: as above, and every i32 may stand in a Point.
    unsafe { core::slice::from_raw_parts_mut(list.as_mut_ptr().cast(), 2 * list.len()) }
}

/// The archive's version.
#[inline]
pub fn version() -> u32 {
    // SAFETY: numbers alone; see the head of this file. So for the next five.
    unsafe { barnsling_version() }
}

/// See [`forced_mask`](crate::forced_mask).
#[inline]
pub fn forced_mask(neighbours: u8) -> u8 {
    unsafe { barnsling_forced_mask(neighbours) }
}

/// See [`pruned_mask`](crate::pruned_mask).
#[inline]
pub fn pruned_mask(diagonal: bool, direction: u8, neighbours: u8) -> u8 {
    unsafe { barnsling_pruned_mask(diagonal as u8, direction, neighbours) }
}

/// See [`direction`](crate::direction): 16 times the steps, 8 more where bent, and the direction. Refuses POINT, SAME.
#[inline]
pub fn direction(a: Point, b: Point) -> u64 {
    unsafe { barnsling_direction(a.x, a.y, b.x, b.y) }
}

/// See [`distance`](crate::distance). Refuses POINT.
#[inline]
pub fn distance(diagonal: bool, a: Point, b: Point) -> u64 {
    unsafe { barnsling_distance(diagonal as u8, a.x, a.y, b.x, b.y) }
}

/// See [`scaled_distance`](crate::scaled_distance). Refuses SETTING, POINT.
#[inline]
pub fn scaled_distance(diagonal: bool, factor: f32, a: Point, b: Point) -> u64 {
    unsafe { barnsling_scaled_distance(factor, diagonal as u8, a.x, a.y, b.x, b.y) }
}

/// A new grid: all cells free, each its own component. Answers 0. Refuses SIZE, then STATE where a table is too short.
#[inline]
pub fn new(t: CellsMut<'_>) -> u64 {
    // SAFETY: see the head of this file. So for all that follow.
    unsafe {
        barnsling_new(
            t.blocked.as_mut_ptr(),
            t.blocked.len(),
            t.neighbours.as_mut_ptr(),
            t.neighbours.len(),
            t.forced.as_mut_ptr(),
            t.forced.len(),
            t.parent.as_mut_ptr(),
            t.parent.len(),
            t.rank.as_mut_ptr(),
            t.rank.len(),
            t.width,
            t.height,
        )
    }
}

/// Blocks or frees a cell; answers the dirty mark afterwards, 0 or 1. Refuses STATE, then POINT.
#[inline]
pub fn set(t: CellsMut<'_>, diagonal: bool, dirty: bool, at: Point, block: bool) -> u64 {
    unsafe {
        barnsling_set(
            t.blocked.as_mut_ptr(),
            t.blocked.len(),
            t.neighbours.as_mut_ptr(),
            t.neighbours.len(),
            t.forced.as_mut_ptr(),
            t.forced.len(),
            t.parent.as_mut_ptr(),
            t.parent.len(),
            t.rank.as_mut_ptr(),
            t.rank.len(),
            t.width,
            t.height,
            diagonal as u8,
            dirty as u8,
            at.x,
            at.y,
            block as u8,
        )
    }
}

/// The components anew from the blocked cells alone; answers 0, the dirty mark afterwards. Refuses STATE.
#[inline]
pub fn rebuild(t: LinksMut<'_>, diagonal: bool) -> u64 {
    unsafe {
        barnsling_rebuild(
            t.blocked.as_ptr(),
            t.blocked.len(),
            t.parent.as_mut_ptr(),
            t.parent.len(),
            t.rank.as_mut_ptr(),
            t.rank.len(),
            t.width,
            t.height,
            diagonal as u8,
        )
    }
}

/// [`rebuild`] where dirty; answers 0, the dirty mark afterwards. Refuses STATE.
#[inline]
pub fn update(t: LinksMut<'_>, diagonal: bool, dirty: bool) -> u64 {
    unsafe {
        barnsling_update(
            t.blocked.as_ptr(),
            t.blocked.len(),
            t.parent.as_mut_ptr(),
            t.parent.len(),
            t.rank.as_mut_ptr(),
            t.rank.len(),
            t.width,
            t.height,
            diagonal as u8,
            dirty as u8,
        )
    }
}

/// The component of a cell. Refuses STATE, then POINT.
#[inline]
pub fn component(t: Links<'_>, at: Point) -> u64 {
    unsafe {
        barnsling_component(
            t.parent.as_ptr(),
            t.parent.len(),
            t.rank.as_ptr(),
            t.rank.len(),
            t.width,
            t.height,
            at.x,
            at.y,
        )
    }
}

/// Whether two points share a component, 0 or 1: no where one is outside. Refuses STATE, then POINT.
#[inline]
pub fn reachable(t: Links<'_>, start: Point, goal: Point) -> u64 {
    unsafe {
        barnsling_reachable(
            t.parent.as_ptr(),
            t.parent.len(),
            t.rank.as_ptr(),
            t.rank.len(),
            t.width,
            t.height,
            start.x,
            start.y,
            goal.x,
            goal.y,
        )
    }
}

/// Whether they do not: yes where one is outside. Refuses STATE, then POINT.
#[inline]
pub fn unreachable(t: Links<'_>, start: Point, goal: Point) -> u64 {
    unsafe {
        barnsling_unreachable(
            t.parent.as_ptr(),
            t.parent.len(),
            t.rank.as_ptr(),
            t.rank.len(),
            t.width,
            t.height,
            start.x,
            start.y,
            goal.x,
            goal.y,
        )
    }
}

/// Whether some inside neighbour of the goal shares the start's component: yes where one is outside. Refuses STATE, then POINT.
#[inline]
pub fn neighbours_reachable(t: Links<'_>, diagonal: bool, start: Point, goal: Point) -> u64 {
    unsafe {
        barnsling_neighbours_reachable(
            t.parent.as_ptr(),
            t.parent.len(),
            t.rank.as_ptr(),
            t.rank.len(),
            t.width,
            t.height,
            diagonal as u8,
            start.x,
            start.y,
            goal.x,
            goal.y,
        )
    }
}

/// Whether none does: yes, too, where one is outside. Refuses STATE, then POINT.
#[inline]
pub fn neighbours_unreachable(t: Links<'_>, diagonal: bool, start: Point, goal: Point) -> u64 {
    unsafe {
        barnsling_neighbours_unreachable(
            t.parent.as_ptr(),
            t.parent.len(),
            t.rank.as_ptr(),
            t.rank.len(),
            t.width,
            t.height,
            diagonal as u8,
            start.x,
            start.y,
            goal.x,
            goal.y,
        )
    }
}

/// The waypoints from a start to a goal, or approximately to it, in `room.out`.
/// Refuses STATE, SETTING, POINT, NO_ROUTE, then EXHAUSTED, DEPTH, FRINGE, POPS or SAME as met, ROOM last; a refusal writes no output.
#[inline]
pub fn single_goal(
    t: Cells<'_>,
    room: Room<'_>,
    settings: &Settings,
    start: Point,
    goal: Point,
    approximate: bool,
) -> Answer {
    unsafe {
        barnsling_single_goal(
            t.blocked.as_ptr(),
            t.blocked.len(),
            t.neighbours.as_ptr(),
            t.neighbours.len(),
            t.forced.as_ptr(),
            t.forced.len(),
            t.parent.as_ptr(),
            t.parent.len(),
            t.rank.as_ptr(),
            t.rank.len(),
            room.number.as_mut_ptr(),
            room.number.len(),
            room.place.as_mut_ptr(),
            room.place.len(),
            room.parent.as_mut_ptr(),
            room.parent.len(),
            room.cost.as_mut_ptr(),
            room.cost.len(),
            room.keys.as_mut_ptr(),
            room.keys.len(),
            room.idx.as_mut_ptr(),
            room.idx.len(),
            room.out.as_mut_ptr(),
            room.out.len(),
            t.width,
            t.height,
            settings.factor,
            settings.diagonal as u8,
            settings.improved as u8,
            settings.limits.depth,
            settings.limits.pops,
            settings.limits.fringe,
            start.x,
            start.y,
            goal.x,
            goal.y,
            approximate as u8,
        )
    }
}

/// The waypoints from a start to one of several goals, given as x and y in turn, in `room.out`.
/// Refuses STATE, SETTING, GOALS, POINT, then as [`single_goal`] does, but never NO_ROUTE.
#[inline]
pub fn multiple_goals(
    t: Cells<'_>,
    room: Room<'_>,
    settings: &Settings,
    start: Point,
    goals: &[i32],
) -> Answer {
    unsafe {
        barnsling_multiple_goals(
            t.blocked.as_ptr(),
            t.blocked.len(),
            t.neighbours.as_ptr(),
            t.neighbours.len(),
            t.forced.as_ptr(),
            t.forced.len(),
            t.parent.as_ptr(),
            t.parent.len(),
            t.rank.as_ptr(),
            t.rank.len(),
            goals.as_ptr(),
            goals.len(),
            room.number.as_mut_ptr(),
            room.number.len(),
            room.place.as_mut_ptr(),
            room.place.len(),
            room.parent.as_mut_ptr(),
            room.parent.len(),
            room.cost.as_mut_ptr(),
            room.cost.len(),
            room.keys.as_mut_ptr(),
            room.keys.len(),
            room.idx.as_mut_ptr(),
            room.idx.len(),
            room.out.as_mut_ptr(),
            room.out.len(),
            t.width,
            t.height,
            settings.factor,
            settings.diagonal as u8,
            settings.improved as u8,
            settings.limits.depth,
            settings.limits.pops,
            settings.limits.fringe,
            start.x,
            start.y,
        )
    }
}
