//! The map program of document 01 over the oracle. stdin: map text. stdout: what `route` prints.
//! Optional arguments: DEPTH POPS FRINGE limits (default: the largest). ORACLE_STATS=1: counters on stderr.
use std::io::{Read, Write};
fn main() {
    let mut b = Vec::new();
    std::io::stdin().take(8193).read_to_end(&mut b).unwrap();
    let a: Vec<u64> = std::env::args()
        .skip(1)
        .map(|s| s.parse().unwrap())
        .collect();
    let mut l = tools::stats::LARGEST;
    if a.len() == 3 {
        l = tools::stats::Limits {
            depth: a[0] as u32,
            pops: a[1] as u32,
            fringe: a[2] as usize,
        }
    }
    let r = tools::maps::route(&b, l);
    std::io::stdout().write_all(r.out.as_bytes()).unwrap();
    if std::env::var_os("ORACLE_STATS").is_some() {
        eprintln!("{:?}", r.stats)
    }
}
