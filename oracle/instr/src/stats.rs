//! Counters and the three limits of document 01, per thread.
use std::cell::Cell;

#[derive(Clone, Copy, Debug, PartialEq, Eq)]
pub struct Limits {
    pub depth: u32,
    pub pops: u32,
    pub fringe: usize,
}
pub const LARGEST: Limits = Limits {
    depth: 64,
    pops: 65_535,
    fringe: 8_192,
};
pub const NONE: Limits = Limits {
    depth: u32::MAX,
    pops: u32::MAX,
    fringe: usize::MAX,
};
/// A search with more re-expansions than this is given up: `refused` is then GIVEN_UP and says nothing of the Rust.
pub const MOST_REEXPANSIONS: u32 = 1_000_000;
pub const GIVEN_UP: u8 = 255;

#[derive(Clone, Copy, Debug, Default, PartialEq, Eq)]
pub struct Stats {
    pub pops: u32,
    pub skipped: u32,
    pub pushes: u32,
    pub fringe_max: usize,
    pub depth: u32,
    pub depth_max: u32,
    pub reexpansions: u32,
    pub recorded: usize,
    pub goal_cost: i32,
    /// 0, or 6 EXHAUSTED, 7 DEPTH, 8 FRINGE, 9 POPS, or GIVEN_UP
    pub refused: u8,
    /// 0, or why the expansion stopped early: 7 or GIVEN_UP. Its successors made so far are still pushed.
    pub stop: u8,
}
thread_local! {
    static S: Cell<Stats> = Cell::new(Stats::default());
    static L: Cell<Limits> = const { Cell::new(NONE) };
}
pub fn set_limits(l: Limits) {
    L.with(|c| c.set(l))
}
pub fn reset() {
    S.with(|c| c.set(Stats::default()))
}
pub fn get() -> Stats {
    S.with(|c| c.get())
}
fn upd<F: FnOnce(&mut Stats, Limits) -> R, R>(f: F) -> R {
    let l = L.with(|c| c.get());
    S.with(|c| {
        let mut s = c.get();
        let r = f(&mut s, l);
        c.set(s);
        r
    })
}
/// a pop is about to count; false if not allowed any more
pub fn pop() -> bool {
    upd(|s, l| {
        if s.pops >= l.pops {
            s.refused = 9;
            return false;
        }
        s.pops += 1;
        true
    })
}
pub fn skip() {
    upd(|s, _| s.skipped += 1)
}
/// a push onto a fringe of this length; false if not allowed
pub fn push(len: usize) -> bool {
    upd(|s, l| {
        if len >= l.fringe {
            s.refused = 8;
            return false;
        }
        s.pushes += 1;
        s.fringe_max = s.fringe_max.max(len + 1);
        true
    })
}
/// a re-expansion begins; false if too deep
pub fn enter() -> bool {
    upd(|s, l| {
        if s.depth >= l.depth {
            s.stop = 7;
            return false;
        }
        if s.reexpansions >= MOST_REEXPANSIONS {
            s.stop = GIVEN_UP;
            return false;
        }
        s.depth += 1;
        s.depth_max = s.depth_max.max(s.depth);
        s.reexpansions += 1;
        true
    })
}
pub fn leave() {
    upd(|s, _| s.depth -= 1)
}
pub fn stopped() -> bool {
    get().stop != 0
}
/// the successors made before the stop are pushed: the search ends
pub fn refuse_stopped() -> bool {
    upd(|s, _| {
        s.refused = s.stop;
        s.stop != 0
    })
}
pub fn exhausted() {
    upd(|s, _| s.refused = 6)
}
pub fn goal_cost(c: i32) {
    upd(|s, _| s.goal_cost = c)
}
pub fn recorded(n: usize) {
    upd(|s, _| s.recorded = n)
}
