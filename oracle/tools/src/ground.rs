//! The Rust's masks, directions and distances with document 01's refusals, and points and factors to ask about.
use crate::judge::{course, factor_ok, in_range};
use crate::rng::Rng;
use grid_pathfinding as plain;
use grid_pathfinding_instr as instr;
use grid_util::direction::Direction;
use grid_util::grid::ValueGrid;
use grid_util::point::Point;

/// A refused answer is this and its number, with 256 more where it concerns the first point, 512 more for the second.
pub const REFUSED: u32 = 1 << 31;

pub fn forced(m: u8) -> u8 {
    let mut g = plain::PathingGrid::new(1, 1, false);
    g.neighbours.set(0, 0, m);
    g.set_jumppoints(Point::new(0, 0));
    g.jump_point.get(0, 0)
}
pub fn pruned(diagonal: bool, d: i32, m: u8) -> u8 {
    let mut g = instr::PathingGrid::new(3, 3, false);
    g.allow_diagonal_move = diagonal;
    g.neighbours.set(1, 1, m);
    g.instr_pruned(d, &Point::new(1, 1)).0
}
fn point_refusal(a: Point, b: Point) -> Option<u32> {
    if !in_range(a) {
        Some(REFUSED + 14 + 256)
    } else if !in_range(b) {
        Some(REFUSED + 14 + 512)
    } else {
        None
    }
}
/// 16 times the steps, 8 more where they bend, and the direction, which is the Rust's.
pub fn heading(a: Point, b: Point) -> u32 {
    if let Some(no) = point_refusal(a, b) {
        return no;
    }
    if a == b {
        return REFUSED + 11 + 256;
    }
    let way = course(a, b);
    16 * way.steps + 8 * way.bent as u32 + a.dir_obj(&b).num() as u32
}
pub fn distance(diagonal: bool, a: Point, b: Point) -> u32 {
    if let Some(no) = point_refusal(a, b) {
        return no;
    }
    let mut g = plain::PathingGrid::new(1, 1, false);
    g.allow_diagonal_move = diagonal;
    g.heuristic(&a, &b) as u32
}
pub fn scaled(diagonal: bool, a: Point, b: Point, factor: f32) -> u32 {
    if !factor_ok(factor) {
        return REFUSED + 3;
    }
    let d = distance(diagonal, a, b);
    if d >= REFUSED {
        return d;
    }
    // as the Rust's searches have it
    (d as i32 as f32 * factor) as i32 as u32
}

/// The corners of the range, its middle, one step in and out of it, and far outside.
const EDGES: [i32; 13] = [
    -1024,
    -1023,
    -1,
    0,
    1,
    2,
    1022,
    1023,
    1024,
    -1025,
    65_536,
    i32::MIN,
    i32::MAX,
];
/// A point near the range's corners or anywhere in it; one in twenty is outside.
pub fn any_point(r: &mut Rng) -> Point {
    let mut v = || match r.below(20) {
        0 => EDGES[r.below(13) as usize],
        1..=6 => EDGES[r.below(8) as usize],
        7..=11 => r.range(-64, 127),
        _ => r.range(-1024, 1023),
    };
    Point::new(v(), v())
}
pub const FACTORS: [f32; 7] = [0.0, -0.0, f32::from_bits(1), 0.5, 1.0, 1.5, 16.0];
pub fn refused_factors() -> [f32; 8] {
    [
        f32::NAN,
        -f32::NAN,
        f32::INFINITY,
        f32::NEG_INFINITY,
        -f32::from_bits(1),
        -1.0,
        f32::from_bits(16f32.to_bits() + 1),
        f32::MAX,
    ]
}
/// Any bit pattern of 0..=16, or a plain fraction.
pub fn any_factor(r: &mut Rng) -> f32 {
    match r.below(4) {
        0 => f32::from_bits(r.below(16f32.to_bits() as u64 + 1) as u32),
        1 => r.below(1 << 24) as f32 / (1 << 20) as f32,
        _ => FACTORS[r.below(7) as usize],
    }
}

/// Pairs of points: all pairs of the range's corners, equal points, neighbours, then random ones.
pub fn pairs(n: usize, r: &mut Rng) -> Vec<(Point, Point)> {
    let corner = [-1024, 0, 1023];
    let mut v = vec![];
    for i in 0..81 {
        let c = |k: usize| corner[i / [1, 3, 9, 27][k] % 3];
        v.push((Point::new(c(0), c(1)), Point::new(c(2), c(3))));
    }
    while v.len() < n {
        let a = any_point(r);
        let b = match r.below(10) {
            0 => a,
            1 if in_range(a) => a.moore_neighbor(r.range(0, 7)),
            2 if in_range(a) => Point::new(a.x, r.range(-1024, 1023)),
            3 if in_range(a) => Point::new(r.range(-1024, 1023), a.y),
            _ => any_point(r),
        };
        v.push((a, b));
    }
    v
}

/// Two points in line, from none to as many steps apart as the range has room for; four times in ten the second is one step off.
pub fn lined(r: &mut Rng) -> (Point, Point) {
    let mut coordinate = || match r.below(4) {
        0 => [-1024, 1023][r.below(2) as usize],
        _ => r.range(-1024, 1023),
    };
    let a = Point::new(coordinate(), coordinate());
    let (dx, dy) = Direction::try_from(r.range(0, 7)).unwrap().offset();
    let room = |at: i32, step: i32| match step {
        -1 => at + 1024,
        0 => 2047,
        _ => 1023 - at,
    };
    let longest = room(a.x, dx).min(room(a.y, dy));
    let steps = match r.below(4) {
        0 => longest,
        1 => r.range(0, longest.min(8)),
        _ => r.range(0, longest),
    };
    let b = Point::new(a.x + steps * dx, a.y + steps * dy);
    match r.pct(40) {
        true => (a, b.moore_neighbor(r.range(0, 7))),
        false => (a, b),
    }
}
