//! texts SEED COUNT: map texts, whole and damaged, and what document 01 says that `route` prints, as a list.
//!
//! A block, after the list's kind: text's length (u16), the text, and then what is printed, to the block's end.
//! Result, pops and waypoints are the Rust's; the reading of the text and the refusal MAP are document 01's.
use tools::list::{Block, List, TEXTS};
use tools::make::{damage, gen_map, text_case};
use tools::{maps, stats, Rng};

fn main() {
    let a: Vec<u64> = std::env::args()
        .skip(1)
        .map(|s| s.parse().unwrap())
        .collect();
    let (seed, count) = (a[0], a[1]);
    let mut out = List::out(TEXTS);
    let mut r = Rng(seed);
    for i in 0..count {
        // every other text is a damaged small one
        let text = if i % 2 == 0 {
            text_case(seed, i / 2).0
        } else {
            damage(&gen_map("tiny", &mut r), &mut r).0
        };
        let mut b = Block::default();
        b.u16(text.len() as u16).bytes(&text);
        b.bytes(maps::route(&text, stats::LARGEST).out.as_bytes());
        out.put(&b);
    }
    out.end();
}
