//! overflow: the unchanged library on a grid whose mask tables were written directly: endless re-expansion.
use grid_pathfinding::PathingGrid;
use grid_util::grid::ValueGrid;
use grid_util::point::Point;
fn main() {
    let mut g = PathingGrid::new(4, 2, false);
    let n = [28, 106, 124, 112, 223, 112, 162, 193];
    let f = [127, 108, 8, 253, 44, 198, 215, 247];
    for i in 0..8 {
        g.neighbours.set(i % 4, i / 4, n[i as usize]);
        g.jump_point.set(i % 4, i / 4, f[i as usize])
    }
    println!(
        "{:?}",
        g.get_waypoints_multiple_goals(
            Point::new(-1, 2),
            vec![&Point::new(2, 0), &Point::new(2, -1)]
        )
    );
}
