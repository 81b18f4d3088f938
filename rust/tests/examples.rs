//! Document 01's examples: the table P1 to P12, and those under "Run".
use barnsling::*;

fn at(x: i32, y: i32) -> Point {
    Point::new(x, y)
}

#[test]
fn forced_masks() {
    for (neighbours, forced) in [(255, 0), (0, 255), (254, 108), (253, 0)] {
        assert_eq!(forced_mask(neighbours), forced);
    }
}

#[test]
fn pruned_masks() {
    for (travel, neighbours, pruned) in [(0, 255, 1), (0, 251, 3), (1, 255, 7), (1, 239, 15)] {
        assert_eq!(pruned_mask(true, travel, neighbours), pruned);
        assert_eq!(pruned_mask(true, travel + 8, neighbours), pruned);
    }
    assert_eq!(pruned_mask(false, 2, 255), 21);
}

#[test]
fn distances() {
    assert_eq!(distance(true, at(0, 0), at(1, 0)), Ok(70));
    assert_eq!(distance(true, at(0, 0), at(3, 3)), Ok(297));
    assert_eq!(distance(true, at(0, 0), at(5, 2)), Ok(408));
    assert_eq!(distance(false, at(0, 0), at(5, 2)), Ok(490));
}

#[test]
fn scaling_99_by_a_half_gives_49() {
    assert_eq!(distance(true, at(0, 0), at(1, 1)), Ok(99));
    assert_eq!(scaled_distance(true, 0.5, at(0, 0), at(1, 1)), Ok(49));
}

#[test]
fn a_new_grid_is_joined_by_a_rebuild() {
    let (mut floor, mut rooms) = (Grid::new(2, 1).unwrap(), Rooms::new());
    let no = floor
        .single_goal(&mut rooms, at(0, 0), at(1, 0))
        .unwrap_err();
    assert_eq!((no.refusal, no.pops), (Refusal::NoRoute, 0));
    floor.rebuild().unwrap();
    let route = floor.single_goal(&mut rooms, at(0, 0), at(1, 0)).unwrap();
    assert_eq!(route.pops, 2);
    assert_eq!(route.waypoints, [at(0, 0), at(1, 0)]);
}

#[test]
fn the_start_may_be_the_goal() {
    let (mut floor, mut rooms) = (Grid::new(3, 3).unwrap(), Rooms::new());
    let here = at(1, 1);
    let route = floor.single_goal(&mut rooms, here, here).unwrap();
    assert_eq!(route.waypoints, [here]);
    let no = floor.approximate_goal(&mut rooms, here, here).unwrap_err();
    assert_eq!(no.refusal, Refusal::NoRoute);
    floor.set(here, true).unwrap();
    let route = floor.single_goal(&mut rooms, here, here).unwrap();
    assert_eq!(route.waypoints, [here]);
}

#[test]
fn blocking_a_blocked_cell_again_joins_its_neighbours() {
    let mut floor = Grid::new(3, 1).unwrap();
    floor.set(at(1, 0), true).unwrap();
    floor.rebuild().unwrap();
    assert_eq!(floor.reachable(at(0, 0), at(2, 0)), Ok(false));
    floor.set(at(1, 0), true).unwrap();
    assert_eq!(floor.component(at(0, 0)), floor.component(at(2, 0)));
    assert!(!floor.is_dirty());
    let no = floor
        .single_goal(&mut Rooms::new(), at(0, 0), at(2, 0))
        .unwrap_err();
    assert_eq!((no.refusal, no.pops), (Refusal::Exhausted, 1));
}

#[test]
fn sides_from_1_to_64() {
    assert!(Grid::new(64, 1).is_ok() && Grid::new(1, 64).is_ok());
    for (w, h) in [
        (65, 1),
        (1, 65),
        (0, 1),
        (1, 0),
        (usize::MAX, usize::MAX),
        (1 << 32, 1 << 32),
    ] {
        assert_eq!(Grid::new(w, h), Err(Refusal::Size));
    }
}

#[test]
fn factor_16_is_accepted() {
    let mut floor = Grid::new(2, 1).unwrap();
    floor.rebuild().unwrap();
    floor.settings_mut().factor = 16.0;
    assert!(floor
        .single_goal(&mut Rooms::new(), at(0, 0), at(1, 0))
        .is_ok());
    assert_eq!(scaled_distance(true, 16.0, at(0, 0), at(1, 0)), Ok(1120));
}
