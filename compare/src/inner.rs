//! The inner calls, which require a legal state and do not test it: the archive of `compare/bench` repeats them after one test.
use crate::lent::{Lent, Rooms};

mod raw {
    #[rustfmt::skip]
    extern "C" {
        pub fn bench_questions(p: *const u16, pn: usize, k: *const u8, kn: usize, asks: *const i32, an: usize, w: usize, h: usize, rounds: usize) -> u64;
        pub fn bench_searches(b: *const u8, bn: usize, e: *const u8, en: usize, f: *const u8, fnn: usize, p: *const u16, pn: usize, k: *const u8, kn: usize,
            number: *mut u32, nn: usize, place: *mut u32, pln: usize, parent: *mut u32, pan: usize, cost: *mut u64, cn: usize, keys: *mut u64, ken: usize, idx: *mut u32, inn: usize, out: *mut i32, on: usize,
            asks: *const i32, an: usize, w: usize, h: usize, diagonal: u8) -> u64;
        pub fn bench_edits(b: *mut u8, bn: usize, e: *mut u8, en: usize, f: *mut u8, fnn: usize, p: *mut u16, pn: usize, k: *mut u8, kn: usize, edits: *const i32, edn: usize, w: usize, h: usize, diagonal: u8, rounds: usize) -> u64;
    }
}

/// The yeses of so many rounds of questions, each sx, sy, gx, gy.
pub fn questions(l: &Lent, asks: &[i32], rounds: usize) -> u64 {
    let n = l.len;
    unsafe {
        raw::bench_questions(
            l.parent.as_ptr(),
            n[3],
            l.rank.as_ptr(),
            n[4],
            asks.as_ptr(),
            asks.len(),
            l.w,
            l.h,
            rounds,
        )
    }
}
/// The waypoints of exact searches, each sx, sy, gx, gy, added up.
pub fn searches(l: &Lent, r: &mut Rooms, diagonal: bool, asks: &[i32]) -> u64 {
    let n = l.len;
    unsafe {
        raw::bench_searches(
            l.blocked.as_ptr(),
            n[0],
            l.neighbours.as_ptr(),
            n[1],
            l.forced.as_ptr(),
            n[2],
            l.parent.as_ptr(),
            n[3],
            l.rank.as_ptr(),
            n[4],
            r.number.as_mut_ptr(),
            r.number.len(),
            r.place.as_mut_ptr(),
            r.place.len(),
            r.parent.as_mut_ptr(),
            r.parent.len(),
            r.cost.as_mut_ptr(),
            r.cost.len(),
            r.keys.as_mut_ptr(),
            r.keys.len(),
            r.idx.as_mut_ptr(),
            r.idx.len(),
            r.out.as_mut_ptr(),
            r.out.len(),
            asks.as_ptr(),
            asks.len(),
            l.w,
            l.h,
            diagonal as u8,
        )
    }
}
/// A new grid, and so many rounds of edits, each x, y, blocked: the dirty mark afterwards.
pub fn edits(l: &mut Lent, diagonal: bool, edits: &[i32], rounds: usize) -> u64 {
    let n = l.len;
    let v = unsafe {
        raw::bench_edits(
            l.blocked.as_mut_ptr(),
            n[0],
            l.neighbours.as_mut_ptr(),
            n[1],
            l.forced.as_mut_ptr(),
            n[2],
            l.parent.as_mut_ptr(),
            n[3],
            l.rank.as_mut_ptr(),
            n[4],
            edits.as_ptr(),
            edits.len(),
            l.w,
            l.h,
            diagonal as u8,
            rounds,
        )
    };
    if v < 2 {
        l.dirty = v == 1;
    }
    v
}
