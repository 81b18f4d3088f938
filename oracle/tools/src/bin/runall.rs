//! runall DIR: runs oracle_route on every DIR/*.map, writes DIR/*.out, prints the distribution.
use std::collections::BTreeMap;
fn main() {
    let dir = std::env::args().nth(1).unwrap();
    let kinds: BTreeMap<String, String> = std::fs::read_to_string(format!("{}/KINDS.txt", dir))
        .unwrap()
        .lines()
        .map(|l| {
            let (a, b) = l.split_once(' ').unwrap();
            (a.to_string(), b.to_string())
        })
        .collect();
    let mut dist: BTreeMap<u32, u32> = BTreeMap::new();
    let mut by_kind: BTreeMap<String, BTreeMap<u32, u32>> = BTreeMap::new();
    let mut best: BTreeMap<&str, (i64, String)> = BTreeMap::new();
    let (mut panics, mut reexp, mut stale, mut unclear, mut slow) = (0, 0u64, 0u64, 0, 0u32);
    for (id, kind) in &kinds {
        let b = std::fs::read(format!("{}/{}.map", dir, id)).unwrap();
        let r = std::panic::catch_unwind(|| tools::maps::route(&b, tools::stats::LARGEST));
        let r = match r {
            Ok(r) => r,
            Err(_) => {
                panics += 1;
                println!("PANIC {} {}", id, kind);
                continue;
            }
        };
        std::fs::write(format!("{}/{}.out", dir, id), &r.out).unwrap();
        *dist.entry(r.result).or_default() += 1;
        let k = if kind.starts_with("malformed") {
            "malformed".into()
        } else {
            kind.clone()
        };
        *by_kind.entry(k).or_default().entry(r.result).or_default() += 1;
        let s = r.stats;
        reexp += s.reexpansions as u64;
        stale += s.skipped as u64;
        if r.result == 0 && !r.out.contains("clear=1") {
            unclear += 1
        }
        if s.skipped > 0 {
            slow += 1
        }
        let side = r.map.as_ref().map(|m| m.w.max(m.h)).unwrap_or(0) as i64;
        for (n, v) in [
            ("pops", s.pops as i64),
            ("depth", s.depth_max as i64),
            ("depth minus longer side", s.depth_max as i64 - side),
            ("fringe", s.fringe_max as i64),
            ("pushes", s.pushes as i64),
            ("skipped", s.skipped as i64),
            ("recorded", s.recorded as i64),
            ("waypoints", r.points.len() as i64),
            ("goal cost", s.goal_cost as i64),
            ("reexpansions", s.reexpansions as i64),
        ] {
            let e = best.entry(n).or_insert((-1000, String::new()));
            if v > e.0 && r.result != 12 {
                *e = (v, format!("{} {}", id, kind))
            }
        }
    }
    println!("results {:?}", dist);
    for (k, d) in by_kind {
        println!("  {:12} {:?}", k, d)
    }
    for (n, (v, id)) in best {
        println!("largest {:24} {:7}  ({})", n, v, id)
    }
    println!(
        "panics {} found-but-not-clear {} re-expansions {} skipped pops {} in {} cases",
        panics, unclear, reexp, stale, slow
    );
}
