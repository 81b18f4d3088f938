//! Paths, route checks, map texts and the masks of a cell, with their refusals.
use barnsling::*;

fn at(x: i32, y: i32) -> Point {
    Point::new(x, y)
}
/// Whether the way along a list is clear.
fn clear(floor: &Grid, list: &[Point]) -> Result<bool, Refusal> {
    floor.check_route(list).map(|check| check.clear)
}

#[test]
fn paths() {
    let mut room = [at(-7, -7); 8];
    assert_eq!(waypoints_to_path(&[at(2, 2)], &mut room), Ok(1));
    assert_eq!(room[..2], [at(2, 2), at(-7, -7)]);
    assert_eq!(
        waypoints_to_path(&[at(0, 0), at(1, 3), at(1, 3), at(0, 3)], &mut room),
        Ok(5)
    );
    assert_eq!(
        room[..6],
        [at(0, 0), at(1, 1), at(1, 2), at(1, 3), at(0, 3), at(-7, -7)]
    );
    let before = room;
    assert_eq!(waypoints_to_path(&[], &mut room), Err(Refusal::List));
    assert_eq!(
        waypoints_to_path(&[at(0, 0), at(0, 1024), at(-1025, 0)], &mut room[..0]),
        Err(Refusal::BadPoint(at(0, 1024)))
    );
    assert_eq!(
        waypoints_to_path(&[at(0, 0), at(8, 0)], &mut room),
        Err(Refusal::Room)
    );
    assert_eq!(room, before);
    assert_eq!(
        lent::waypoints_to_path(&[0, 0, 1], &mut [0; 9]),
        Err(Refusal::List)
    );
    assert_eq!(
        waypoints_to_path(&[at(i32::MIN, i32::MAX)], &mut []),
        Err(Refusal::BadPoint(at(i32::MIN, i32::MAX)))
    );
}

/// A way to and fro through the whole floor, longer than the first room that `path` makes; and lists that no search gave.
#[test]
fn long_paths() {
    let mut floor = Grid::new(64, 64).unwrap();
    floor.settings_mut().diagonal = false;
    for y in (1..64).step_by(2) {
        for x in 0..64 {
            let gap = if y % 4 == 1 { 63 } else { 0 };
            floor.gate(at(x, y), x != gap).unwrap();
        }
    }
    floor.rebuild().unwrap();
    let mut route = floor
        .single_goal(&mut Rooms::new(), at(0, 0), at(0, 62))
        .unwrap();
    let path = route.path().unwrap();
    assert_eq!((path[0], path.last()), (at(0, 0), Some(&at(0, 62))));
    assert_eq!(path.len(), 32 * 64 + 31);
    // the path and the waypoints are of one mind, whichever cell of the way is blocked
    assert_eq!(clear(&floor, &path), Ok(true));
    assert_eq!(clear(&floor, &route.waypoints), Ok(true));
    for cell in &path[1..] {
        assert_eq!(floor.gate(*cell, true), Ok(true));
        assert_eq!(clear(&floor, &path), Ok(false));
        assert_eq!(clear(&floor, &route.waypoints), Ok(false));
        floor.gate(*cell, false).unwrap();
    }

    route.waypoints = vec![at(-1024, 0), at(1023, 0), at(-1024, 9)];
    assert_eq!(route.path().unwrap().len(), 4_095);
    route.waypoints = vec![at(0, 0), at(0, 1024)];
    assert_eq!(route.path(), Err(Refusal::BadPoint(at(0, 1024))));
    route.waypoints.clear();
    assert_eq!(route.path(), Err(Refusal::List));
}

#[test]
fn checks() {
    let mut floor = Grid::new(3, 2).unwrap();
    let list = [at(0, 0), at(1, 1), at(2, 0)];
    assert_eq!(clear(&floor, &list), Ok(true));
    floor.set(at(0, 0), true).unwrap();
    assert_eq!(clear(&floor, &list), Ok(true));
    floor.set(at(1, 1), true).unwrap();
    assert_eq!(clear(&floor, &list), Ok(false));
    assert_eq!(clear(&floor, &[at(5, 5)]), Ok(true));
    assert_eq!(clear(&floor, &[at(0, 0), at(3, 0)]), Ok(false));
    assert_eq!(floor.check_route(&[]), Err(Refusal::List));
    assert_eq!(
        floor.check_route(&[at(0, 1024)]),
        Err(Refusal::BadPoint(at(0, 1024)))
    );
    let mut tables = floor.into_tables();
    tables.rank[0] = 201;
    assert_eq!(
        Grid::from_tables(tables).check_route(&[]),
        Err(Refusal::State)
    );
}

/// Clear means every cell of the walk after the first point: what lies between waypoints, and not the first point itself.
#[test]
fn the_whole_way() {
    let mut floor = Grid::new(3, 1).unwrap();
    // from outside: (-1,0) is walked and outside, but one step in is clear
    assert_eq!(clear(&floor, &[at(-2, 0), at(1, 0)]), Ok(false));
    assert_eq!(clear(&floor, &[at(-1, 0), at(1, 0)]), Ok(true));
    assert_eq!(clear(&floor, &[at(-1024, 1023), at(1, 0)]), Ok(false));
    // a bench at the first point: not looked at, also where the list repeats it, unless the walk comes back
    floor.set(at(0, 0), true).unwrap();
    assert_eq!(clear(&floor, &[at(0, 0), at(0, 0)]), Ok(true));
    assert_eq!(clear(&floor, &[at(0, 0), at(2, 0)]), Ok(true));
    assert_eq!(clear(&floor, &[at(0, 0), at(2, 0), at(0, 0)]), Ok(false));
    // a bench between two free waypoints
    floor.set(at(0, 0), false).unwrap();
    floor.set(at(1, 0), true).unwrap();
    assert_eq!(clear(&floor, &[at(0, 0), at(2, 0)]), Ok(false));
    assert_eq!(clear(&floor, &[at(2, 0), at(0, 0)]), Ok(false));
    // a bent leg steps both coordinates while both differ, then one: (1,1), (2,1)
    let mut floor = Grid::new(3, 2).unwrap();
    floor.set(at(1, 0), true).unwrap();
    assert_eq!(clear(&floor, &[at(0, 0), at(2, 1)]), Ok(true));
    floor.set(at(1, 1), true).unwrap();
    assert_eq!(clear(&floor, &[at(0, 0), at(2, 1)]), Ok(false));
    // several faults: the list before its points, the first bad point before what is blocked
    assert_eq!(
        lent::check_route(floor.tables().cells(), &[0, 1024, 0]),
        Err(Refusal::List)
    );
    assert_eq!(
        floor.check_route(&[at(0, 0), at(1, 1), at(1024, 0), at(0, 1024)]),
        Err(Refusal::BadPoint(at(1024, 0)))
    );
}

#[test]
fn masks() {
    let mut floor = Grid::new(3, 3).unwrap();
    floor.set(at(1, 0), true).unwrap();
    assert_eq!(floor.neighbour_mask(at(1, 1)), Ok(254));
    assert_eq!(floor.forced_mask(at(1, 1)), Ok(108));
    for d in 0..16 {
        assert_eq!(
            floor.pruned_mask(at(1, 1), d),
            Ok(pruned_mask(true, d, 254))
        );
    }
    floor.settings_mut().diagonal = false;
    assert_eq!(
        floor.pruned_mask(at(1, 1), 2),
        Ok(pruned_mask(false, 2, 254))
    );
    let no = Refusal::BadPoint(at(3, 0));
    assert_eq!(floor.neighbour_mask(at(3, 0)), Err(no));
    assert_eq!(floor.forced_mask(at(3, 0)), Err(no));
    assert_eq!(floor.pruned_mask(at(3, 0), 2), Err(no));
    let floor = Grid::from_tables(Tables::default());
    assert_eq!(floor.neighbour_mask(at(3, 0)), Err(Refusal::State));
    assert_eq!(floor.forced_mask(at(3, 0)), Err(Refusal::State));
    assert_eq!(floor.pruned_mask(at(3, 0), 2), Err(Refusal::State));
}

#[test]
fn texts() {
    let text = "width=3\nheight=1\ndiagonal=1\nstart=0,0\ngoal=2,0\nrow=...\n";
    let printed = "result=0\npops=3\nwaypoints=3\nclear=1\npoint=0,0\npoint=1,0\npoint=2,0\n";
    assert_eq!(route_text(text.as_bytes()).as_deref(), Ok(printed));
    for (line, bad) in [(1, "x"), (6, ".#"), (6, "...."), (7, "...\nrow=...")] {
        let bad = if line == 1 {
            text.replace("width", bad)
        } else {
            text.replace("...", bad)
        };
        assert_eq!(route_text(bad.as_bytes()), Err(Refusal::Map(line)));
    }
    assert_eq!(route_text(&[b'x'; 8_193]), Err(Refusal::Map(0)));
    assert_eq!(
        lent::route_text(text.as_bytes(), &mut [0; lent::TEXT_ROOM - 1]),
        Err(Refusal::Room)
    );
    // bytes of every kind, and none
    assert_eq!(route_text(&[]), Err(Refusal::Map(1)));
    let any: Vec<u8> = (0..=255).collect();
    assert_eq!(route_text(&any), Err(Refusal::Map(1)));
}
