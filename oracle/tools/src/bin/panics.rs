//! panics: the calls of the unchanged library that panic, smallest inputs.
use grid_pathfinding::{waypoints_to_path, PathingGrid};
use grid_util::grid::ValueGrid;
use grid_util::point::Point;
use std::panic::{catch_unwind, AssertUnwindSafe};
fn t(name: &str, f: impl FnOnce() -> String) {
    let r = catch_unwind(AssertUnwindSafe(f));
    match r {
        Ok(s) => println!("returns {:50} {}", name, s),
        Err(e) => println!(
            "PANICS  {:50} {}",
            name,
            e.downcast_ref::<String>()
                .cloned()
                .or(e.downcast_ref::<&str>().map(|s| s.to_string()))
                .unwrap_or_default()
        ),
    }
}
fn main() {
    std::panic::set_hook(Box::new(|_| {}));
    let p = Point::new;
    let g = || {
        let mut g = PathingGrid::new(2, 2, false);
        g.generate_components();
        g
    };
    t("waypoints_to_path([])", || {
        format!("{:?}", waypoints_to_path(vec![]))
    });
    t("waypoints_to_path([(0,0),(0,0)])", || {
        format!("{:?}", waypoints_to_path(vec![p(0, 0), p(0, 0)]))
    });
    t("waypoints_to_path([(0,0),(3,1)])", || {
        format!("{:?}", waypoints_to_path(vec![p(0, 0), p(3, 1)]))
    });
    t("set(-1,0)", || {
        g().set(-1, 0, true);
        "".into()
    });
    t("set(2,0)", || {
        g().set(2, 0, true);
        "".into()
    });
    t("get_component(2,0)", || {
        format!("{:?}", g().get_component(&p(2, 0)))
    });
    t("get_component(0,-1)", || {
        format!("{:?}", g().get_component(&p(0, -1)))
    });
    t("reachable outside", || {
        format!("{:?}", g().reachable(&p(-1, 0), &p(0, 0)))
    });
    t("exact from outside", || {
        format!(
            "{:?}",
            g().get_waypoints_single_goal(p(-1, 0), p(0, 0), false)
        )
    });
    t("exact outside start = goal", || {
        format!(
            "{:?}",
            g().get_waypoints_single_goal(p(-1, 0), p(-1, 0), false)
        )
    });
    t("many from (-1,0) to (1,1)", || {
        format!(
            "{:?}",
            g().get_waypoints_multiple_goals(p(-1, 0), vec![&p(1, 1)])
        )
    });
    t("many from (-5,0) to (1,1)", || {
        format!(
            "{:?}",
            g().get_waypoints_multiple_goals(p(-5, 0), vec![&p(1, 1)])
        )
    });
    t("many from (-5,0) to (-5,0)", || {
        format!(
            "{:?}",
            g().get_waypoints_multiple_goals(p(-5, 0), vec![&p(-5, 0)])
        )
    });
    t("many, no goal", || {
        format!("{:?}", g().get_waypoints_multiple_goals(p(0, 0), vec![]))
    });
    t("new(0,0) rebuild reachable", || {
        let mut g = PathingGrid::new(0, 0, false);
        g.generate_components();
        g.update();
        format!("{}", g.reachable(&p(0, 0), &p(0, 0)))
    });
    t("new(65,1) search", || {
        let mut g = PathingGrid::new(65, 1, false);
        g.generate_components();
        format!(
            "{:?}",
            g.get_waypoints_single_goal(p(0, 0), p(64, 0), false)
                .map(|v| v.len())
        )
    });
    for f in [f32::NAN, f32::INFINITY, -1.0, 1e9, 16.0] {
        t(&format!("factor {}", f), || {
            let mut g = g();
            g.heuristic_factor = f;
            format!("{:?}", g.get_waypoints_single_goal(p(0, 0), p(1, 1), false))
        });
    }
    for f in [f32::NAN, f32::INFINITY, -1.0, 1e9, 16.0] {
        t(&format!("factor {} 3x1", f), || {
            let mut g = PathingGrid::new(3, 1, false);
            g.generate_components();
            g.heuristic_factor = f;
            format!("{:?}", g.get_waypoints_single_goal(p(0, 0), p(2, 0), false))
        });
    }
    t("set(0,0,false) on a new 2x1: joins?", || {
        let mut g = PathingGrid::new(2, 1, false);
        g.set(0, 0, false);
        format!(
            "components {} {} dirty {}",
            g.get_component(&p(0, 0)),
            g.get_component(&p(1, 0)),
            g.components_dirty
        )
    });
    t("set(1,0,false) on a new 2x1", || {
        let mut g = PathingGrid::new(2, 1, false);
        g.set(1, 0, false);
        format!(
            "components {} {}",
            g.get_component(&p(0, 0)),
            g.get_component(&p(1, 0))
        )
    });
}
