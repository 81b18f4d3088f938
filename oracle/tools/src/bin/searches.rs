//! searches SEED [ROUNDS]: grids, and searches on them with the Rust's answers, as a list.
//!
//! Block kinds, a byte after the list's kind:
//!   0  a grid by calls: width, height, diagonals during the calls (u8 each), count of cells (u16); a bit for each cell, row by row, least bit
//!      first, set where the cell is set blocked (in that order, on a new grid); 1 if then rebuilt (u8); count (u16) of later
//!      edits, each x, y, blocked (u8 each)
//!   1  a grid by its tables: width, height (u16 each), dirty mark (u8), count of cells (u16); then for each cell, row by
//!      row: blocked, neighbours, forced (u8 each), parent (u16), rank (u8). A bad side or table is refused with STATE.
//!   2  a search on the last grid:
//!      search (u8: 0 exact, 1 approximate, 2 several goals), diagonals, improved pruning (u8 each), factor's bits (u32),
//!      depth (u32), pops (u32), fringe (u32), room in points (u32), start (two i16), goals (count of numbers u16, each i16);
//!      answer: result (u8, 0 found), the point that POINT carries (two i16, else 0 0), pops (u32),
//!      cost at the goal's pop (u32, 0 unless found), waypoints (count u16, two i16 each)
//! Refusals 2, 3, 5, 10, 14 are document 01's; 4 and 6 the unchanged Rust's; 7, 8, 9 the instrumented one's, which stops
//! where document 01 says. A found route is the unchanged Rust's.
use grid_util::grid::ValueGrid;
use grid_util::point::Point;
use std::collections::BTreeMap;
use tools::judge::{Ask, Both, Tables, APPROXIMATE, EXACT, SEVERAL};
use tools::list::{Block, List, SEARCHES};
use tools::make::{any_tables, gen_map, illegal_tables, KINDS};
use tools::maps::Map;
use tools::stats::{Limits, LARGEST};
use tools::Rng;

/// A map's cells by calls, perhaps rebuilt, perhaps edited afterwards (gates shut and opened, not rebuilt).
fn by_calls(m: &Map, out: &mut List, r: &mut Rng) -> Both {
    let mut both = Both::new(m.w as usize, m.h as usize);
    let mut b = Block::of(0);
    b.u8(m.w as u8).u8(m.h as u8).u8(m.diagonal as u8);
    b.u16(m.blocked.len() as u16);
    both.diagonal(m.diagonal);
    b.bits(&m.blocked);
    for (i, blocked) in m.blocked.iter().enumerate() {
        if *blocked {
            both.set(i as i32 % m.w, i as i32 / m.w, true);
        }
    }
    let rebuilt = !r.pct(8);
    b.u8(rebuilt as u8);
    if rebuilt {
        both.rebuild();
    }
    let edits = if r.pct(40) { r.range(1, 12) } else { 0 };
    b.u16(edits as u16);
    for _ in 0..edits {
        let (x, y, blocked) = (r.range(0, m.w - 1), r.range(0, m.h - 1), r.pct(80));
        both.set(x, y, blocked);
        b.u8(x as u8).u8(y as u8).u8(blocked as u8);
    }
    out.put(&b);
    both
}
fn by_tables(t: &Tables, out: &mut List) -> Both {
    let mut b = Block::of(1);
    b.u16(t.w as u16).u16(t.h as u16).u8(t.dirty as u8);
    b.u16(t.blocked.len() as u16);
    for i in 0..t.blocked.len() {
        b.u8(t.blocked[i]).u8(t.neighbours[i]).u8(t.forced[i]);
        b.u16(t.parent[i]).u8(t.rank[i]);
    }
    out.put(&b);
    Both::of_tables(t)
}

fn any_limits(r: &mut Rng) -> Limits {
    match r.below(40) {
        0..=9 => Limits {
            depth: r.below(4) as u32,
            pops: LARGEST.pops,
            fringe: LARGEST.fringe,
        },
        10..=13 => Limits {
            depth: LARGEST.depth,
            pops: LARGEST.pops,
            fringe: r.range(1, 24) as usize,
        },
        14..=17 => Limits {
            depth: LARGEST.depth,
            pops: r.range(1, 24) as u32,
            fringe: LARGEST.fringe,
        },
        18 => Limits {
            depth: r.below(67) as u32,
            pops: [0, 1, 65_535, 65_536][r.below(4) as usize],
            fringe: [0, 1, 8_192, 8_193][r.below(4) as usize],
        },
        _ => LARGEST,
    }
}
fn any_factor(r: &mut Rng) -> f32 {
    let usual = [0.0, -0.0, 0.5, 1.0, 1.0, 1.0, 1.0, 1.5, 16.0];
    match r.below(80) {
        0 => f32::NAN,
        1 => [
            f32::INFINITY,
            -1.0,
            -f32::from_bits(1),
            f32::from_bits(16f32.to_bits() + 1),
        ][r.below(4) as usize],
        2 => f32::from_bits(r.below(16f32.to_bits() as u64 + 1) as u32),
        _ => usual[r.below(9) as usize],
    }
}
/// A point of a grid of this size, sometimes outside it, now and then out of range.
fn any_point(w: i32, h: i32, r: &mut Rng) -> Point {
    match r.below(60) {
        0 => Point::new(
            [-1025, 1024, 0][r.below(3) as usize],
            [-1025, 1024, 0][r.below(3) as usize],
        ),
        1 => Point::new(
            [-1024, 1023, 0][r.below(3) as usize],
            [-1024, 1023, 0][r.below(3) as usize],
        ),
        2..=4 => Point::new(r.range(-2, w + 1), r.range(-2, h + 1)),
        _ => Point::new(r.range(0, w - 1), r.range(0, h - 1)),
    }
}
/// A point like the above, as a rule a free one; a few tries are made.
fn free_point(both: &Both, w: i32, h: i32, r: &mut Rng) -> Point {
    let mut p = any_point(w, h, r);
    for _ in 0..r.range(0, 8) {
        if both.inside(p) && both.plain.get(p.x, p.y) {
            p = any_point(w, h, r);
        }
    }
    p
}
/// A goal for this start, as a rule one of the same component.
fn any_goal(both: &Both, start: Point, w: i32, h: i32, r: &mut Rng) -> Point {
    match r.below(25) {
        0 => return start,
        1 => return start.moore_neighbor(r.range(0, 7)),
        _ => {}
    }
    let mut p = free_point(both, w, h, r);
    for _ in 0..r.range(0, 6) {
        if both.inside(p) && both.inside(start) && both.plain.unreachable(&start, &p) {
            p = free_point(both, w, h, r);
        }
    }
    p
}
fn any_ask(both: &Both, w: i32, h: i32, r: &mut Rng) -> Ask {
    let kind = [EXACT, EXACT, APPROXIMATE, SEVERAL][r.below(4) as usize];
    let start = free_point(both, w, h, r);
    let count = match r.below(40) {
        _ if kind != SEVERAL => 1,
        0 => 0,
        1 => 64,
        2 => 65,
        _ => r.range(1, 5),
    };
    let goals = (0..count).map(|_| any_goal(both, start, w, h, r)).collect();
    Ask {
        kind,
        diagonal: r.pct(60),
        improved: r.pct(75),
        factor: any_factor(r),
        limits: any_limits(r),
        start,
        goals,
        odd: kind == SEVERAL && r.pct(3),
        room: if r.pct(4) { r.below(6) as usize } else { 4_097 },
    }
}

struct Asker {
    out: List,
    counts: BTreeMap<u8, u32>,
    given_up: u32,
    most_pops: u32,
}
impl Asker {
    fn ask(&mut self, both: &mut Both, a: &Ask) {
        let answer = if let Some(answer) = both.search(a) {
            answer
        } else {
            self.given_up += 1;
            return;
        };
        self.most_pops = self.most_pops.max(answer.pops);
        *self.counts.entry(answer.result).or_default() += 1;
        let mut b = Block::of(2);
        b.u8(a.kind).u8(a.diagonal as u8).u8(a.improved as u8);
        b.u32(a.factor.to_bits())
            .u32(a.limits.depth)
            .u32(a.limits.pops);
        b.u32(a.limits.fringe as u32).u32(a.room as u32);
        let mut numbers: Vec<i32> = a.goals.iter().flat_map(|p| [p.x, p.y]).collect();
        if a.odd {
            numbers.push(0);
        }
        b.point(a.start).numbers(&numbers);
        b.u8(answer.result).point(answer.point).u32(answer.pops);
        b.u32(answer.cost as u32).points(&answer.points);
        self.out.put(&b);
    }
}

fn round(asker: &mut Asker, r: &mut Rng) {
    for i in 0..450 {
        let m = gen_map(KINDS[i % 18], r);
        let mut both = by_calls(&m, &mut asker.out, r);
        let first = Ask {
            kind: EXACT,
            diagonal: m.diagonal,
            improved: true,
            factor: 1.0,
            limits: LARGEST,
            start: m.start,
            goals: vec![m.goal],
            odd: false,
            room: 4_097,
        };
        asker.ask(&mut both, &first);
        for _ in 0..9 {
            let ask = any_ask(&both, m.w, m.h, r);
            asker.ask(&mut both, &ask);
        }
    }
    for side in [2, 3, 4, 5, 6, 8, 10, 12, 16, 24] {
        for _ in 0..25 {
            let t = any_tables(side, r);
            let mut both = by_tables(&t, &mut asker.out);
            for _ in 0..8 {
                let ask = any_ask(&both, t.w as i32, t.h as i32, r);
                asker.ask(&mut both, &ask);
            }
        }
    }
    // an outside goal is never met, and a large factor leads the search to the same cells again and again
    for kind in ["maze", "spiral", "bigrooms", "stripes", "big", "checker"] {
        for _ in 0..4 {
            let m = gen_map(kind, r);
            let mut both = by_calls(&m, &mut asker.out, r);
            let mut ask = any_ask(&both, m.w, m.h, r);
            ask.kind = SEVERAL;
            ask.odd = false;
            ask.factor = 16.0;
            ask.limits = LARGEST;
            ask.start = m.start;
            ask.goals = vec![Point::new(r.range(-1, m.w), -1)];
            asker.ask(&mut both, &ask);
        }
    }
    for _ in 0..40 {
        let t = illegal_tables(6, r);
        let mut both = by_tables(&t, &mut asker.out);
        let ask = any_ask(&both, 6, 6, r);
        asker.ask(&mut both, &ask);
    }
}

fn main() {
    let (mut r, rounds) = tools::list::asked("searches");
    let mut asker = Asker {
        out: List::out(SEARCHES),
        counts: BTreeMap::new(),
        given_up: 0,
        most_pops: 0,
    };
    for _ in 0..rounds {
        round(&mut asker, &mut r);
    }
    asker.out.end();
    eprintln!(
        "results {:?}, given up {}, most pops {}",
        asker.counts, asker.given_up, asker.most_pops
    );
}
