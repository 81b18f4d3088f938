//! checks SEED [ROUNDS]: route checks, as a list.
//!
//! A block, after the list's kind and a byte 2:
//!   width, height (u8 each), count of cells (u16), a bit for each cell, row by row, least bit first, set where it is blocked; count (u16) of
//!   numbers, each i16: the waypoints, x and y in turn;
//!   answer: result (u8: 0, or 13 LIST, 14 POINT), the point that POINT carries (two i16, else 0 0), 1 if clear (u8),
//!   the first bent leg from 1, 0 for none (u8)
//! The refusals are document 01's; what is clear and what is bent are document 02's (`tools::judge::check`): the Rust has no check.
use tools::judge::check;
use tools::list::{Block, List, CHECKS};
use tools::make::check_numbers;
use tools::Rng;

fn block(r: &mut Rng) -> Block {
    let side = if r.pct(4) { 64 } else { 12 };
    let (w, h) = (r.range(1, side), r.range(1, side));
    let density = [0, 2, 10, 25, 40][r.below(5) as usize];
    let blocked: Vec<bool> = (0..w * h).map(|_| r.pct(density)).collect();
    let v = check_numbers(w, h, &blocked, r);
    let answer = check(w, h, &blocked, &v);
    let mut b = Block::of(2);
    b.u8(w as u8).u8(h as u8).u16(blocked.len() as u16);
    b.bits(&blocked);
    b.numbers(&v);
    b.u8(answer.result).point(answer.point);
    b.u8(answer.clear as u8).u8(answer.bent as u8);
    b
}

fn main() {
    let (mut r, rounds) = tools::list::asked("checks");
    let mut out = List::out(CHECKS);
    for _ in 0..600 * rounds {
        out.put(&block(&mut r));
    }
    out.end();
}
