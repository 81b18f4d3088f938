//! ground SEED [ROUNDS]: the Rust's masks, directions and distances as a list (see oracle/README.md for blocks).
//!
//! Block kinds, a byte after the list's kind:
//!   1  the forced mask of each neighbour mask 0..255, a byte each
//!   2  the pruned masks with diagonals on, a byte each, at direction * 256 + neighbour mask
//!   3  the same with diagonals off
//!   4  for each direction 0..7: its offset plus one (x, y), the opposite, 1 if diagonal, its cardinals along x and y
//!      (255, 255 for a cardinal: it splits into nothing, by document 01), six bytes
//!   5  for each direction 0..7 and eighths 0..7: turned clockwise, counter-clockwise, two bytes
//!   6  directions between points: a (two i32), b (two i32), answer (u32): 16 * length + 8 * bent + direction, where the length of a
//!      bent one is the larger difference. Any two points, and after the blocks of kind 8 points in line or nearly so
//!   7  distances: a, b, answer with diagonals on, answer with diagonals off (u32 each)
//!   8  scaled distances: a, b, factor's bits (u32), answer with diagonals on, answer with diagonals off
//! An answer is a value below 2^31, or 2^31 + refusal number + 256 * (0 no point, 1 carries a, 2 carries b).
//! Refusals are document 01's (POINT, SETTING, SAME); the Rust panics at SAME and has no other. What is bent, and the length, are
//! document 02's (`tools::judge::course`).
use grid_util::direction::Direction;
use grid_util::point::Point;
use tools::ground::*;
use tools::list::{Block, List, GROUND};
use tools::Rng;

/// points to a block of kinds 6, 7 and 8
const SHARE: usize = 1000;

fn masks(out: &mut List) {
    let mut b = Block::of(1);
    for m in 0..=255 {
        b.u8(forced(m));
    }
    out.put(&b);
    for (kind, diagonal) in [(2, true), (3, false)] {
        let mut b = Block::of(kind);
        for d in 0..8 {
            for m in 0..=255 {
                b.u8(pruned(diagonal, d, m));
            }
        }
        out.put(&b);
    }
}
fn compass(out: &mut List) {
    let at = |d: i32| Direction::try_from(d).unwrap();
    let mut b = Block::of(4);
    for d in (0..8).map(at) {
        let (dx, dy) = d.offset();
        b.u8((dx + 1) as u8).u8((dy + 1) as u8);
        b.u8(d.rotate_cw(4).num() as u8).u8(d.diagonal() as u8);
        if d.diagonal() {
            b.u8(d.x_dir().num() as u8).u8(d.y_dir().num() as u8);
        } else {
            b.u8(255).u8(255);
        }
    }
    out.put(&b);
    let mut b = Block::of(5);
    for d in (0..8).map(at) {
        for eighths in 0..8 {
            b.u8(d.rotate_cw(eighths).num() as u8);
            b.u8(d.rotate_ccw(eighths).num() as u8);
        }
    }
    out.put(&b);
}
fn headings(out: &mut List, asked: &[(Point, Point)]) {
    for share in asked.chunks(SHARE) {
        let mut b = Block::of(6);
        for (p, q) in share {
            b.far_point(*p).far_point(*q).u32(heading(*p, *q));
        }
        out.put(&b);
    }
}
fn round(out: &mut List, r: &mut Rng) {
    headings(out, &pairs(2000, r));
    for share in pairs(2000, r).chunks(SHARE) {
        let mut b = Block::of(7);
        for (p, q) in share {
            b.far_point(*p).far_point(*q);
            b.u32(distance(true, *p, *q)).u32(distance(false, *p, *q));
        }
        out.put(&b);
    }
    let mut asked = vec![];
    for (p, q) in pairs(81, r) {
        for f in FACTORS {
            asked.push((p, q, f));
        }
    }
    for (p, q) in pairs(81, r).into_iter().take(20) {
        for f in refused_factors() {
            asked.push((p, q, f));
        }
    }
    for (p, q) in pairs(3500, r) {
        asked.push((p, q, any_factor(r)));
        if r.pct(5) {
            asked.push((p, q, refused_factors()[r.below(8) as usize]));
        }
    }
    for share in asked.chunks(SHARE) {
        let mut b = Block::of(8);
        for (p, q, f) in share {
            b.far_point(*p).far_point(*q).u32(f.to_bits());
            b.u32(scaled(true, *p, *q, *f))
                .u32(scaled(false, *p, *q, *f));
        }
        out.put(&b);
    }
    let in_line: Vec<_> = (0..2000).map(|_| lined(r)).collect();
    headings(out, &in_line);
}

fn main() {
    let (mut r, rounds) = tools::list::asked("ground");
    let mut out = List::out(GROUND);
    masks(&mut out);
    compass(&mut out);
    for _ in 0..rounds {
        round(&mut out, &mut r);
    }
    out.end();
}
