//! bench: microseconds per search, set, reachable on 64x64 maps, unchanged library.
use grid_pathfinding::PathingGrid;
use grid_util::grid::ValueGrid;
use grid_util::point::Point;
use std::hint::black_box;
use std::time::Instant;
use tools::Rng;
fn main() {
    for (name, dg) in [
        ("random20", true),
        ("rooms", true),
        ("empty", true),
        ("random20", false),
        ("rooms", false),
        ("empty", false),
    ] {
        let mut r = Rng(5);
        let mut rows: Vec<[f64; 8]> = vec![];
        let mut pops = (0u64, 0u64);
        for _ in 0..9 {
            let b = match name {
                "random20" => (0..4096).map(|_| r.pct(20)).collect(),
                "rooms" => tools::make::rooms(64, 64, &mut r),
                _ => vec![false; 4096],
            };
            let t0 = Instant::now();
            let mut g = PathingGrid::new(64, 64, false);
            g.allow_diagonal_move = dg;
            let new = t0.elapsed().as_nanos() as f64;
            for i in 0..4096usize {
                if b[i] {
                    g.set((i % 64) as i32, (i / 64) as i32, true)
                }
            }
            let t0 = Instant::now();
            g.generate_components();
            let rebuild = t0.elapsed().as_nanos() as f64;
            let free: Vec<Point> = (0..4096i32)
                .filter(|i| !b[*i as usize])
                .map(|i| Point::new(i % 64, i / 64))
                .collect();
            let mut pairs = vec![];
            while pairs.len() < 300 {
                let (s, t) = (
                    free[r.below(free.len() as u64) as usize],
                    free[r.below(free.len() as u64) as usize],
                );
                if g.reachable(&s, &t) {
                    pairs.push((s, t))
                }
            }
            let mut search = f64::MAX; // least of 7 passes: the machine is shared
            for _ in 0..7 {
                let t0 = Instant::now();
                for (s, t) in &pairs {
                    black_box(g.get_waypoints_single_goal(*s, *t, false));
                }
                search = search.min(t0.elapsed().as_nanos() as f64 / pairs.len() as f64)
            }
            // worst of a few far pairs
            let mut worst = 0f64;
            for (s, t) in &pairs {
                let mut b = f64::MAX;
                for _ in 0..5 {
                    let t0 = Instant::now();
                    black_box(g.get_waypoints_single_goal(*s, *t, false));
                    b = b.min(t0.elapsed().as_nanos() as f64)
                }
                worst = worst.max(b)
            }
            let m = tools::maps::Map {
                w: 64,
                h: 64,
                diagonal: dg,
                start: pairs[0].0,
                goal: pairs[0].1,
                blocked: b.clone(),
            };
            let q = tools::maps::instr_grid(&m);
            for (s, t) in &pairs {
                tools::stats::reset();
                q.get_waypoints_single_goal(*s, *t, false);
                pops.0 += tools::stats::get().pops as u64;
                pops.1 += 1
            }
            let ps: Vec<(Point, Point)> = (0..20000)
                .map(|_| {
                    (
                        Point::new(r.range(0, 63), r.range(0, 63)),
                        Point::new(r.range(0, 63), r.range(0, 63)),
                    )
                })
                .collect();
            let (mut reach, mut set) = (f64::MAX, f64::MAX);
            for _ in 0..7 {
                let t0 = Instant::now();
                for (s, t) in &ps {
                    black_box(g.reachable(s, t));
                }
                reach = reach.min(t0.elapsed().as_nanos() as f64 / ps.len() as f64)
            }
            for _ in 0..7 {
                let t0 = Instant::now();
                for (s, _) in &ps {
                    let v = !g.get(s.x, s.y);
                    g.set(s.x, s.y, black_box(v));
                }
                set = set.min(t0.elapsed().as_nanos() as f64 / ps.len() as f64)
            }
            let mut g2 = g.clone();
            let mut upd = f64::MAX;
            for (s, _) in &ps[..200] {
                let t0 = Instant::now();
                g2.components_dirty = true;
                black_box(s);
                g2.update();
                upd = upd.min(t0.elapsed().as_nanos() as f64)
            }
            rows.push([search, worst, set, reach, new, rebuild, upd, 0.0]);
        }
        let med = |i: usize| {
            let mut v: Vec<f64> = rows.iter().map(|x| x[i]).collect();
            v.sort_by(|a, b| a.partial_cmp(b).unwrap());
            v[v.len() / 2] / 1000.0
        };
        println!("{:9} diagonal {}: search {:.2} us (worst of 300: {:.1}), {:.1} pops; set {:.4} us; reachable {:.4} us; new {:.1} us; rebuild {:.1} us (warm {:.1})", name, dg as u8, med(0), med(1), pops.0 as f64 / pops.1 as f64, med(2), med(3), med(4), med(5), med(6));
    }
}
