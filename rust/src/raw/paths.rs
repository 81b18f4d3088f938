//! The calls on waypoint lists and map texts, and those on one cell's entries. As the head of `raw` says.
use crate::lent::Cells;
use crate::Point;

#[rustfmt::skip]
extern "C" {
    fn barnsling_blocked_at(
        blocked: *const u8, blocked_len: usize, parent: *const u16, parent_len: usize, rank: *const u8, rank_len: usize,
        width: usize, height: usize, x: i32, y: i32,
    ) -> u64;
    fn barnsling_neighbours_at(
        neighbours: *const u8, neighbours_len: usize, parent: *const u16, parent_len: usize, rank: *const u8, rank_len: usize,
        width: usize, height: usize, x: i32, y: i32,
    ) -> u64;
    fn barnsling_forced_at(
        forced: *const u8, forced_len: usize, parent: *const u16, parent_len: usize, rank: *const u8, rank_len: usize,
        width: usize, height: usize, x: i32, y: i32,
    ) -> u64;
    fn barnsling_pruned_at(
        neighbours: *const u8, neighbours_len: usize, parent: *const u16, parent_len: usize, rank: *const u8, rank_len: usize,
        width: usize, height: usize, diagonal: u8, x: i32, y: i32, direction: u8,
    ) -> u64;
    fn barnsling_waypoints_to_path(list: *const i32, list_len: usize, out: *mut i32, out_len: usize) -> Reply;
    fn barnsling_check_route(
        blocked: *const u8, blocked_len: usize, parent: *const u16, parent_len: usize, rank: *const u8, rank_len: usize,
        width: usize, height: usize, list: *const i32, list_len: usize,
    ) -> Check;
    fn barnsling_route_text(text: *const u8, text_len: usize, out: *mut u8, out_len: usize) -> u64;
}

/// What the expansion of a list answers, as numbers.
#[repr(C)]
#[derive(Clone, Copy, Debug, PartialEq, Eq)]
pub struct Reply {
    /// 0, or the refusal's number.
    pub refusal: u64,
    /// How many points were written; 0 where refused.
    pub value: u64,
    /// The point that POINT carries, else 0.
    pub x: i32,
    /// Its row.
    pub y: i32,
}

/// What a route check answers, as numbers.
#[repr(C)]
#[derive(Clone, Copy, Debug, PartialEq, Eq)]
pub struct Check {
    /// 0, or the refusal's number.
    pub refusal: u64,
    /// 1 where the way is clear, else 0; 0 where refused.
    pub clear: u64,
    /// The first bent leg, from 1; 0 where none is bent, and where refused.
    pub bent: u64,
    /// The point that POINT carries, else 0.
    pub x: i32,
    /// Its row.
    pub y: i32,
}

/// Whether a cell is blocked, 0 or 1. Refuses STATE, then POINT.
#[inline]
pub fn blocked_at(t: Cells<'_>, at: Point) -> u64 {
    unsafe {
        barnsling_blocked_at(
            t.blocked.as_ptr(),
            t.blocked.len(),
            t.parent.as_ptr(),
            t.parent.len(),
            t.rank.as_ptr(),
            t.rank.len(),
            t.width,
            t.height,
            at.x,
            at.y,
        )
    }
}

/// The neighbour mask of a cell. Refuses STATE, then POINT.
#[inline]
pub fn neighbours_at(t: Cells<'_>, at: Point) -> u64 {
    unsafe {
        barnsling_neighbours_at(
            t.neighbours.as_ptr(),
            t.neighbours.len(),
            t.parent.as_ptr(),
            t.parent.len(),
            t.rank.as_ptr(),
            t.rank.len(),
            t.width,
            t.height,
            at.x,
            at.y,
        )
    }
}

/// The forced mask of a cell. Refuses STATE, then POINT.
#[inline]
pub fn forced_at(t: Cells<'_>, at: Point) -> u64 {
    unsafe {
        barnsling_forced_at(
            t.forced.as_ptr(),
            t.forced.len(),
            t.parent.as_ptr(),
            t.parent.len(),
            t.rank.as_ptr(),
            t.rank.len(),
            t.width,
            t.height,
            at.x,
            at.y,
        )
    }
}

/// The pruned mask of a cell for travel in a direction, read modulo 8. Refuses STATE, then POINT.
#[inline]
pub fn pruned_at(t: Cells<'_>, diagonal: bool, at: Point, direction: u8) -> u64 {
    unsafe {
        barnsling_pruned_at(
            t.neighbours.as_ptr(),
            t.neighbours.len(),
            t.parent.as_ptr(),
            t.parent.len(),
            t.rank.as_ptr(),
            t.rank.len(),
            t.width,
            t.height,
            diagonal as u8,
            at.x,
            at.y,
            direction,
        )
    }
}

/// The path along a waypoint list, x and y in turn: `value` points are written, the rest of the room is kept. Refuses LIST, POINT, ROOM.
#[inline]
pub fn waypoints_to_path(list: &[i32], out: &mut [i32]) -> Reply {
    unsafe { barnsling_waypoints_to_path(list.as_ptr(), list.len(), out.as_mut_ptr(), out.len()) }
}

/// Whether every cell of the path after the first point is inside and free, and the first bent leg. Refuses STATE, LIST, POINT.
#[inline]
pub fn check_route(t: Cells<'_>, list: &[i32]) -> Check {
    unsafe {
        barnsling_check_route(
            t.blocked.as_ptr(),
            t.blocked.len(),
            t.parent.as_ptr(),
            t.parent.len(),
            t.rank.as_ptr(),
            t.rank.len(),
            t.width,
            t.height,
            list.as_ptr(),
            list.len(),
        )
    }
}

/// What `route` prints of a map text: the bytes written. Refuses ROOM where there is less room than [`TEXT_ROOM`](crate::lent::TEXT_ROOM).
#[inline]
pub fn route_text(text: &[u8], out: &mut [u8]) -> u64 {
    unsafe { barnsling_route_text(text.as_ptr(), text.len(), out.as_mut_ptr(), out.len()) }
}
