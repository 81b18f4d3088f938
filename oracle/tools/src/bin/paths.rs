//! paths SEED [ROUNDS]: waypoint lists and the paths that the Rust makes of them, as a list.
//!
//! A block, after the list's kind and a byte 1:
//!   room in points (u32); count (u16) of numbers, each i16: the waypoints, x and y in turn;
//!   answer: result (u8: 0, or 13 LIST, 14 POINT, 10 ROOM), the point that POINT carries (two i16, else 0 0),
//!   path (count u16, two i16 each)
//! Refusals are document 01's; a path is the unchanged Rust's.
use grid_pathfinding::waypoints_to_path;
use grid_util::point::Point;
use tools::judge::list_refused;
use tools::list::{Block, List, PATHS};
use tools::make::{any_numbers, points_of};
use tools::Rng;

fn path(r: &mut Rng) -> Block {
    let v = any_numbers(9, 24, 24, r);
    let no = list_refused(&v);
    let walked = match no {
        Some(_) => vec![],
        None => waypoints_to_path(points_of(&v)),
    };
    let room = match r.below(8) {
        0 => walked.len().saturating_sub(1),
        1 => walked.len(),
        _ => 16_384,
    };
    let (result, point) = match no {
        Some(no) => no,
        None if walked.len() > room => (10, Point::new(0, 0)),
        None => (0, Point::new(0, 0)),
    };
    let mut b = Block::of(1);
    b.u32(room as u32);
    b.numbers(&v);
    b.u8(result).point(point);
    b.points(if result == 0 { &walked } else { &[] });
    b
}
fn main() {
    let (mut r, rounds) = tools::list::asked("paths");
    let mut out = List::out(PATHS);
    for _ in 0..600 * rounds {
        out.put(&path(&mut r));
    }
    out.end();
}
