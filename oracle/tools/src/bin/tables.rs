//! tables SEED [ROUNDS]: runs of new, set, update and rebuild, and the Rust's tables after every step, as a list.
//!
//! A block is a step; after the list's kind:
//!   kind and three arguments (u8 each):
//!     0  a new grid: width, height, 0
//!     1  set: x, y, blocked
//!     2  update: 0, 0, 0
//!     3  rebuild: 0, 0, 0
//!     4  diagonals from here on: flag, 0, 0 (kinds 0 and 5 turn them on)
//!     5  a grid with tables that no calls made: width, height, 0
//!   result (u8: 0, or the refusal: 1 SIZE, 2 STATE, 14 POINT with the set's point)
//!   dirty mark (u8), count of cells (u16)
//!   count (u16) of changes, each: table (u8: 0 blocked, 1 neighbours, 2 forced, 3 parent, 4 rank), cell (u16), value (u16).
//!     Kinds 0 and 5 start from blocked 0, neighbours 255, forced 0, parent its own number, rank 0. After kind 5 the
//!     changes are given; after the others they are the Rust's answer: with them the tables are the Rust's.
//!   count (u16) of cell questions, each: point (two i16), component number (u16; 65535: POINT, 65534: STATE), neighbour
//!     mask, forced mask, a direction, the pruned mask for travel that way (u8 each; 0 where refused)
//!   count (u16) of reachability questions, each: start, goal (two i16 each), bits (u8: 1 reachable, 2 unreachable,
//!     4 neighbours_reachable, 8 neighbours_unreachable; 255: STATE; 254: POINT, start; 253: POINT, goal)
//! Cell numbers are y * width + x. SIZE comes with a new grid of 1 by 1; any other refused call changes
//! nothing. An edit of tables that no calls made may leave a rank above 200: from there on every call is refused with STATE.
//! After kind 5 the union-find's inside is that of petgraph's own text, with its fields opened.
use grid_util::grid::ValueGrid;
use grid_util::point::Point;
use tools::judge::{in_range, Both, Tables, SIDE};
use tools::list::{Block, List, TABLES};
use tools::make::{any_tables, illegal_tables};
use tools::Rng;

struct Run {
    both: Both,
    told: Tables,
    /// tables that are not legal, on which every call is refused
    illegal: Option<Tables>,
    /// the blocked table: any byte but 0 is a blocked cell, and an edit writes 0 or 1
    bytes: Vec<u8>,
    out: List,
}

fn raw(w: usize, h: usize, cells: usize) -> Tables {
    Tables {
        w,
        h,
        dirty: false,
        blocked: vec![0; cells],
        neighbours: vec![255; cells],
        forced: vec![0; cells],
        parent: (0..cells).map(|i| i as u16).collect(),
        rank: vec![0; cells],
    }
}
fn columns(t: &Tables) -> [Vec<u16>; 5] {
    let wide = |v: &Vec<u8>| v.iter().map(|b| *b as u16).collect();
    [
        wide(&t.blocked),
        wide(&t.neighbours),
        wide(&t.forced),
        t.parent.clone(),
        wide(&t.rank),
    ]
}
fn step(kind: u8, a: u8, b: u8, c: u8) -> Block {
    let mut block = Block::of(kind);
    block.u8(a).u8(b).u8(c);
    block
}

impl Run {
    /// Writes what a step gave, and asks some questions.
    fn tell(&mut self, mut b: Block, result: u8, whole: bool, r: &mut Rng) {
        let mut now = match &self.illegal {
            Some(t) => t.clone(),
            None => self.both.tables(),
        };
        assert!((0..now.blocked.len()).all(|i| (now.blocked[i] == 0) == (self.bytes[i] == 0)));
        now.blocked = self.bytes.clone();
        // an edit may leave a rank above 200, which every later call refuses
        if !now.legal() {
            self.illegal = Some(now.clone());
        }
        let mut changes = vec![];
        for (k, (old, new)) in columns(&self.told).iter().zip(columns(&now)).enumerate() {
            for (i, v) in new.iter().enumerate() {
                if old[i] != *v {
                    changes.push((k as u8, i as u16, *v));
                }
            }
        }
        b.u8(result)
            .u8(now.dirty as u8)
            .u16(now.blocked.len() as u16);
        b.u16(changes.len() as u16);
        for (k, i, v) in changes {
            b.u8(k).u16(i).u16(v);
        }
        self.told = now;
        self.ask_cells(&mut b, whole, r);
        self.ask_reach(&mut b, r);
        self.out.put(&b);
    }
    fn near(&self, r: &mut Rng) -> Point {
        let (w, h) = (self.told.w.max(1) as i32, self.told.h.max(1) as i32);
        match r.below(24) {
            0 => Point::new(r.range(-2, w + 1), r.range(-2, h + 1)),
            1 => Point::new([-1025, 0, 1024][r.below(3) as usize], 1023),
            _ => Point::new(r.range(0, w - 1), r.range(0, h - 1)),
        }
    }
    fn ask_cells(&self, b: &mut Block, whole: bool, r: &mut Rng) {
        let w = self.told.w as i32;
        let asked: Vec<Point> = if whole {
            (0..self.told.blocked.len() as i32)
                .map(|i| Point::new(i % w, i / w))
                .collect()
        } else {
            (0..2).map(|_| self.near(r)).collect()
        };
        b.u16(asked.len() as u16);
        for p in asked {
            let d = r.range(0, 7);
            b.point(p);
            if self.illegal.is_some() {
                b.u16(65_534).u8(0).u8(0).u8(d as u8).u8(0);
            } else if !self.both.inside(p) {
                b.u16(65_535).u8(0).u8(0).u8(d as u8).u8(0);
            } else {
                let (plain, instr) = (&self.both.plain, &self.both.instr);
                b.u16(self.both.component(p) as u16);
                b.u8(plain.neighbours.get_point(p));
                b.u8(plain.jump_point.get_point(p));
                b.u8(d as u8).u8(instr.instr_pruned(d, &p).0);
            }
        }
    }
    fn ask_reach(&self, b: &mut Block, r: &mut Rng) {
        b.u16(2);
        for _ in 0..2 {
            let s = self.near(r);
            let g = match r.below(4) {
                0 if in_range(s) => s.moore_neighbor(r.range(0, 7)),
                _ => self.near(r),
            };
            b.point(s).point(g);
            b.u8(if self.illegal.is_some() {
                255
            } else if !in_range(s) {
                254
            } else if !in_range(g) {
                253
            } else {
                self.both.questions(s, g)
            });
        }
    }

    /// A set, by document 01's refusals: STATE, POINT.
    fn set(&mut self, x: i32, y: i32, blocked: bool) -> u8 {
        if self.illegal.is_some() {
            2
        } else if !self.both.inside(Point::new(x, y)) {
            14
        } else {
            self.both.set(x, y, blocked);
            self.bytes[(y as usize) * self.told.w + x as usize] = blocked as u8;
            0
        }
    }
    fn steps(&mut self, n: u64, density: u64, r: &mut Rng) {
        let (w, h) = (self.told.w.max(1) as i32, self.told.h.max(1) as i32);
        let mut last = (0, 0, false);
        for i in 0..n {
            let stated = if self.illegal.is_some() { 2 } else { 0 };
            let (b, result) = match r.below(24) {
                0 => {
                    if self.illegal.is_none() {
                        self.both.update();
                    }
                    (step(2, 0, 0, 0), stated)
                }
                1 => {
                    if self.illegal.is_none() {
                        self.both.rebuild();
                    }
                    (step(3, 0, 0, 0), stated)
                }
                2 => {
                    let d = r.pct(50);
                    self.both.diagonal(d);
                    (step(4, d as u8, 0, 0), 0)
                }
                k => {
                    match k {
                        3 => {} // the last edit again
                        4 | 5 => last.2 = !last.2,
                        6 => last = (w + r.range(-1, 3), h + r.range(-1, 3), r.pct(density)),
                        _ => last = (r.range(0, w - 1), r.range(0, h - 1), r.pct(density)),
                    }
                    let (x, y, blocked) = last;
                    let result = self.set(x, y, blocked);
                    (step(1, x as u8, y as u8, blocked as u8), result)
                }
            };
            let whole = i + 1 == n && self.told.blocked.len() <= 1024 && self.illegal.is_none();
            self.tell(b, result, whole, r);
        }
    }
    fn new_grid(&mut self, w: usize, h: usize, r: &mut Rng) {
        let sized = (1..=SIDE).contains(&w) && (1..=SIDE).contains(&h);
        let (kept_w, kept_h) = if sized { (w, h) } else { (1, 1) };
        self.illegal = None;
        self.both = Both::new(kept_w, kept_h);
        self.told = raw(kept_w, kept_h, kept_w * kept_h);
        self.bytes = self.told.blocked.clone();
        self.tell(step(0, w as u8, h as u8, 0), !sized as u8, false, r);
    }
    fn given_grid(&mut self, t: Tables, r: &mut Rng) {
        let (w, h) = (t.w, t.h);
        self.both = Both::of_tables(&t);
        self.told = raw(w, h, t.blocked.len());
        self.bytes = t.blocked.clone();
        self.illegal = if t.legal() { None } else { Some(t) };
        self.tell(step(5, w as u8, h as u8, 0), 0, false, r);
    }
}

fn round(run: &mut Run, r: &mut Rng) {
    for (w, h) in [(0, 1), (1, 0), (65, 1), (1, 65), (0, 0), (255, 255)] {
        run.new_grid(w, h, r);
        run.steps(5, 50, r);
    }
    // longest side, runs, steps to a run
    for (side, runs, steps) in [
        (1, 2, 12),
        (3, 50, 25),
        (8, 35, 60),
        (20, 10, 100),
        (64, 4, 50),
    ] {
        for k in 0..runs {
            let (w, h) = match (side, k) {
                (64, 0) => (64, 64),
                (64, 1) => (64, 1),
                (64, 2) => (1, 64),
                _ => (r.range(1, side) as usize, r.range(1, side) as usize),
            };
            run.new_grid(w, h, r);
            let density = r.range(10, 70) as u64;
            run.steps(steps, density, r);
        }
    }
    for (side, runs, steps) in [(4, 40, 12), (12, 15, 25), (40, 2, 20)] {
        for _ in 0..runs {
            run.given_grid(any_tables(side, r), r);
            run.steps(steps, 40, r);
        }
    }
    for _ in 0..25 {
        let mut t = illegal_tables(5, r);
        t.w = t.w.min(255);
        t.h = t.h.min(255);
        run.given_grid(t, r);
        run.steps(3, 50, r);
    }
}

fn main() {
    let (mut r, rounds) = tools::list::asked("tables");
    let r = &mut r;
    let mut run = Run {
        both: Both::new(1, 1),
        told: raw(1, 1, 1),
        illegal: None,
        bytes: vec![],
        out: List::out(TABLES),
    };
    for _ in 0..rounds {
        round(&mut run, r);
    }
    run.out.end();
}
