//! same_test SEED COUNT: the unchanged and the instrumented library give the same waypoints.
use grid_util::grid::ValueGrid;
use grid_util::point::Point;
use tools::make::{gen_map, KINDS};
use tools::maps::{instr_grid, plain_grid};
use tools::{stats, Rng};
fn main() {
    let a: Vec<u64> = std::env::args()
        .skip(1)
        .map(|s| s.parse().unwrap())
        .collect();
    let mut r = Rng(a[0]);
    let (mut found, mut none) = (0, 0);
    for i in 0..a[1] {
        let m = gen_map(KINDS[(i % 18) as usize], &mut r);
        let (mut p, mut q) = (plain_grid(&m), instr_grid(&m));
        // some edits afterwards, without a rebuild, so that tables and components may disagree with the cells
        if r.pct(30) {
            for _ in 0..r.range(1, 10) {
                let (x, y, b) = (r.range(0, m.w - 1), r.range(0, m.h - 1), r.pct(50));
                p.set(x, y, b);
                q.set(x, y, b)
            }
        }
        let f = [0.0f32, -0.0, 0.5, 1.0, 1.0, 1.0, 1.5, 3.0, 16.0][r.below(9) as usize];
        p.heuristic_factor = f;
        q.heuristic_factor = f;
        let ip = !r.pct(20);
        p.improved_pruning = ip;
        q.improved_pruning = ip;
        stats::reset();
        let (x, y);
        match r.below(4) {
            0 => {
                x = p.get_waypoints_single_goal(m.start, m.goal, true);
                y = q.get_waypoints_single_goal(m.start, m.goal, true)
            }
            1 => {
                let goals: Vec<Point> = (0..r.range(1, 8))
                    .map(|_| Point::new(r.range(-1, m.w), r.range(-1, m.h)))
                    .collect();
                let v: Vec<&Point> = goals.iter().collect();
                let (u, w) = (
                    p.get_waypoints_multiple_goals(m.start, v.clone()),
                    q.get_waypoints_multiple_goals(m.start, v),
                );
                assert_eq!(u, w);
                x = u.map(|t| t.1);
                y = w.map(|t| t.1)
            }
            _ => {
                x = p.get_waypoints_single_goal(m.start, m.goal, false);
                y = q.get_waypoints_single_goal(m.start, m.goal, false)
            }
        }
        assert_eq!(x, y, "case {}", i);
        if x.is_some() {
            found += 1
        } else {
            none += 1
        }
    }
    println!(
        "same waypoints in {} cases: {} found, {} none",
        a[1], found, none
    );
}
