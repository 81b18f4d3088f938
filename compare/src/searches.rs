//! Searches: exact, approximate and several goals; result, pops, cost, waypoints and the untouched rest of the output compared.
//! The working room is lent as large as may be, exactly as needed, or too short.
use crate::lent::{fewer, Lengths, Lent, Rooms, LARGEST_ROOMS};
use crate::Tally;
use barnsling::raw;
use grid_util::grid::ValueGrid;
use grid_util::point::Point;
use tools::judge::{Answer, Ask, Both, APPROXIMATE, EXACT, SEVERAL};
use tools::make::{any_tables, gen_map, illegal_tables, KINDS};
use tools::maps::Map;
use tools::stats::{Limits, LARGEST};
use tools::Rng;

fn any_limits(r: &mut Rng) -> Limits {
    match r.below(40) {
        0..=9 => Limits {
            depth: r.below(4) as u32,
            pops: LARGEST.pops,
            fringe: LARGEST.fringe,
        },
        10..=13 => Limits {
            depth: LARGEST.depth,
            pops: LARGEST.pops,
            fringe: r.range(1, 24) as usize,
        },
        14..=17 => Limits {
            depth: LARGEST.depth,
            pops: r.range(1, 24) as u32,
            fringe: LARGEST.fringe,
        },
        18..=19 => Limits {
            depth: LARGEST.depth,
            pops: LARGEST.pops,
            fringe: r.range(25, 600) as usize,
        },
        20 => Limits {
            depth: r.below(67) as u32,
            pops: [0, 1, 65_535, 65_536][r.below(4) as usize],
            fringe: [0, 1, 8_192, 8_193][r.below(4) as usize],
        },
        _ => LARGEST,
    }
}
fn any_factor(r: &mut Rng) -> f32 {
    let usual = [0.0, -0.0, 0.5, 1.0, 1.0, 1.0, 1.0, 1.5, 16.0];
    match r.below(80) {
        0 => f32::NAN,
        1 => [
            f32::INFINITY,
            -1.0,
            -f32::from_bits(1),
            f32::from_bits(16f32.to_bits() + 1),
        ][r.below(4) as usize],
        2 => f32::from_bits(r.below(16f32.to_bits() as u64 + 1) as u32),
        _ => usual[r.below(9) as usize],
    }
}
/// A point of a grid of this size, sometimes outside it, now and then out of range.
fn any_point(w: i32, h: i32, r: &mut Rng) -> Point {
    match r.below(60) {
        0 => Point::new(
            [-1025, 1024, 0][r.below(3) as usize],
            [-1025, 1024, 0][r.below(3) as usize],
        ),
        1 => Point::new(
            [-1024, 1023, 0][r.below(3) as usize],
            [-1024, 1023, 0][r.below(3) as usize],
        ),
        2..=4 => Point::new(r.range(-2, w + 1), r.range(-2, h + 1)),
        _ => Point::new(r.range(0, w - 1), r.range(0, h - 1)),
    }
}
/// A point like the above, as a rule a free one; a few tries are made.
fn free_point(both: &Both, w: i32, h: i32, r: &mut Rng) -> Point {
    let mut p = any_point(w, h, r);
    for _ in 0..r.range(0, 8) {
        if both.inside(p) && both.plain.get(p.x, p.y) {
            p = any_point(w, h, r);
        }
    }
    p
}
/// A goal for this start, as a rule one of the same component.
fn any_goal(both: &Both, start: Point, w: i32, h: i32, r: &mut Rng) -> Point {
    match r.below(25) {
        0 => return start,
        1 => return start.moore_neighbor(r.range(0, 7)),
        _ => {}
    }
    let mut p = free_point(both, w, h, r);
    for _ in 0..r.range(0, 6) {
        if both.inside(p) && both.inside(start) && both.plain.unreachable(&start, &p) {
            p = free_point(both, w, h, r);
        }
    }
    p
}
fn any_ask(both: &Both, w: i32, h: i32, r: &mut Rng) -> Ask {
    let kind = [EXACT, EXACT, APPROXIMATE, SEVERAL][r.below(4) as usize];
    let start = free_point(both, w, h, r);
    let count = match r.below(40) {
        _ if kind != SEVERAL => 1,
        0 => 0,
        1 => 64,
        2 => 65,
        _ => r.range(1, 5),
    };
    let goals = (0..count).map(|_| any_goal(both, start, w, h, r)).collect();
    Ask {
        kind,
        diagonal: r.pct(60),
        improved: r.pct(75),
        factor: any_factor(r),
        limits: any_limits(r),
        start,
        goals,
        odd: kind == SEVERAL && r.pct(3),
        room: if r.pct(4) { r.below(6) as usize } else { 4_097 },
    }
}

/// A map's cells by calls, perhaps rebuilt, perhaps edited afterwards: in the Rust, and as tables.
fn by_calls(m: &Map, r: &mut Rng) -> (Both, Lent) {
    let mut both = Both::new(m.w as usize, m.h as usize);
    let mut ours = Lent::room(m.w as usize, m.h as usize, r);
    ours.lengthen(r);
    assert_eq!(ours.new_grid(), 0);
    both.diagonal(m.diagonal);
    for (i, blocked) in m.blocked.iter().enumerate() {
        if *blocked {
            let p = Point::new(i as i32 % m.w, i as i32 / m.w);
            both.set(p.x, p.y, true);
            ours.set(m.diagonal, p, true);
        }
    }
    if !r.pct(8) {
        both.rebuild();
        ours.rebuild(m.diagonal);
    }
    let edits = if r.pct(40) { r.range(1, 12) } else { 0 };
    for _ in 0..edits {
        let (p, blocked) = (
            Point::new(r.range(0, m.w - 1), r.range(0, m.h - 1)),
            r.pct(80),
        );
        both.set(p.x, p.y, blocked);
        ours.set(m.diagonal, p, blocked);
    }
    (both, ours)
}

/// What a search needs of each working room: the cells and one more, or the fringe limit.
fn needs(ours: &Lent, a: &Ask) -> [usize; 6] {
    // a grid or a limit that would need more is refused whatever is lent
    let places = (ours.w * ours.h + 1).min(LARGEST_ROOMS[0]);
    let fringe = a.limits.fringe.min(LARGEST_ROOMS[5]);
    [places, places, places, places, fringe, fringe]
}
/// Half the time the largest rooms, else what is needed or some more; of one search in ten one room is too short.
fn any_lengths(needs: [usize; 6], a: &Ask, r: &mut Rng) -> Lengths {
    let mut rooms = LARGEST_ROOMS;
    if r.pct(50) {
        for (length, need) in rooms.iter_mut().zip(needs) {
            let more = r.below((*length - need) as u64 + 1) as usize;
            *length = if r.pct(70) { need } else { need + more };
        }
    }
    let k = r.below(6) as usize;
    if r.pct(10) && needs[k] > 0 {
        rooms[k] = fewer(needs[k], r);
    }
    let out = 2 * a.room + r.below(2) as usize;
    Lengths { rooms, out }
}
/// SETTING, as the judge tells it.
fn too_short() -> Answer {
    Answer {
        result: 3,
        point: Point::new(0, 0),
        pops: 0,
        cost: 0,
        points: vec![],
    }
}
/// The judge's answer as it crosses the boundary.
fn packed(a: &Answer) -> raw::Answer {
    raw::Answer {
        refusal: a.result as u64,
        pops: a.pops as u64,
        waypoints: a.points.len() as u64,
        cost: a.cost as u64,
        x: a.point.x,
        y: a.point.y,
    }
}
fn ask(t: &mut Tally, both: &mut Both, ours: &Lent, rooms: &mut Rooms, a: &Ask, r: &mut Rng) {
    let Some(mut rust) = both.search(a) else {
        return;
    };
    let needs = needs(ours, a);
    let lengths = any_lengths(needs, a, r);
    let short = lengths.rooms.iter().zip(needs).any(|(n, need)| *n < need);
    // STATE comes before SETTING, and all else after it
    if short && rust.result != 2 {
        rust = too_short();
    }
    *t.results.entry(rust.result).or_default() += 1;
    let (got, points) = rooms.search(ours, a, lengths);
    t.hold((packed(&rust), rust.points), (got, points), || {
        format!("{a:?} in {lengths:?} on {:?}", ours.tables())
    });
    t.step();
}

/// Tables that no calls made: a grid, or none.
fn from_tables(legal: bool, r: &mut Rng) -> (Both, Lent) {
    let side = [2, 3, 4, 6, 8, 12, 16, 24][r.below(8) as usize];
    let tables = if legal {
        any_tables(side, r)
    } else {
        illegal_tables(6, r)
    };
    let mut ours = Lent::of_tables(&tables);
    ours.lengthen(r);
    (Both::of_tables(&tables), ours)
}

pub fn searches(t: &mut Tally, r: &mut Rng) {
    let mut rooms = Rooms::new();
    let mut i = 0;
    while t.more() {
        i += 1;
        let (mut both, ours, w, h, count);
        if i % 20 >= 18 {
            let legal = i % 20 == 18;
            (both, ours) = from_tables(legal, r);
            (w, h, count) = if legal {
                (ours.w as i32, ours.h as i32, 20)
            } else {
                (6, 6, 1)
            };
        } else {
            let m = gen_map(KINDS[i % 18], r);
            (both, ours) = by_calls(&m, r);
            (w, h, count) = (m.w, m.h, 30);
            let first = Ask {
                kind: EXACT,
                diagonal: m.diagonal,
                improved: true,
                factor: 1.0,
                limits: LARGEST,
                start: m.start,
                goals: vec![m.goal],
                odd: false,
                room: 4_097,
            };
            ask(t, &mut both, &ours, &mut rooms, &first, r);
        }
        let before = ours.tables();
        for _ in 0..count {
            let a = any_ask(&both, w, h, r);
            ask(t, &mut both, &ours, &mut rooms, &a, r);
        }
        t.hold(&before, &ours.tables(), || format!("written {before:?}"));
        ours.guards_hold();
    }
}
