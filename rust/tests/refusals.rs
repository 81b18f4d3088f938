//! Each refusal by its number, when it is given, and the order in which they are tested.
use barnsling::*;

fn at(x: i32, y: i32) -> Point {
    Point::new(x, y)
}
fn open(w: usize, h: usize) -> Grid {
    let mut floor = Grid::new(w, h).unwrap();
    floor.rebuild().unwrap();
    floor
}
fn search(floor: &Grid, start: Point, goal: Point) -> Refusal {
    floor
        .single_goal(&mut Rooms::new(), start, goal)
        .unwrap_err()
        .refusal
}

#[test]
fn numbers_and_names() {
    let p = at(-1, 2);
    let all = [
        (1, "SIZE", Refusal::Size),
        (2, "STATE", Refusal::State),
        (3, "SETTING", Refusal::Setting),
        (4, "NO_ROUTE", Refusal::NoRoute),
        (5, "GOALS", Refusal::Goals),
        (6, "EXHAUSTED", Refusal::Exhausted),
        (7, "DEPTH", Refusal::Depth),
        (8, "FRINGE", Refusal::Fringe),
        (9, "POPS", Refusal::Pops),
        (10, "ROOM", Refusal::Room),
        (11, "SAME", Refusal::Same(p)),
        (12, "MAP", Refusal::Map(3)),
        (13, "LIST", Refusal::List),
        (14, "POINT", Refusal::BadPoint(p)),
    ];
    for (number, name, refusal) in all {
        assert_eq!((refusal.number(), refusal.name()), (number, name));
        assert!(refusal
            .to_string()
            .starts_with(&format!("{name} ({number}): ")));
    }
    assert!(Refusal::BadPoint(p).to_string().contains("(-1,2)"));
    assert!(Refusal::Map(3).to_string().contains("line 3"));
}

/// An error and its sources, as reporters print them: each cause is told once.
#[test]
fn errors_print_once() {
    let mut floor = open(9, 1);
    floor.settings_mut().limits.pops = 3;
    let no = floor
        .single_goal(&mut Rooms::new(), at(0, 0), at(8, 0))
        .unwrap_err();
    let error: Box<dyn std::error::Error> = no.into();
    assert_eq!(
        error.to_string(),
        "POPS (9): the limit of pops was met, after 3 pops"
    );
    assert!(error.source().is_none());
}

/// Whatever number an archive answers, the crate gives a value or a refusal.
#[test]
fn numbers_without_a_name() {
    use barnsling::raw::{self, answers, Answer, Reply};
    let (a, b) = (at(1, 2), at(3, 4));
    assert_eq!(answers::value(0xffff_ffff, a, b), Ok(u32::MAX));
    assert_eq!(
        answers::value((14 + 256) << 32, a, b),
        Err(Refusal::BadPoint(a))
    );
    assert_eq!(
        answers::value((14 + 512) << 32, a, b),
        Err(Refusal::BadPoint(b))
    );
    assert_eq!(answers::value(11 << 32, a, b), Err(Refusal::Same(a)));
    for number in [0, 12, 15, 99, 255] {
        let no = answers::value((256 + number) << 32, a, b).unwrap_err();
        assert_eq!(no, Refusal::Unknown(number as u8));
        assert_eq!(
            (no.number(), no.name(), no.to_string()),
            (
                number as u8,
                "UNKNOWN",
                format!("UNKNOWN ({number}): a refusal that this crate has no name for")
            )
        );
    }
    assert!(answers::value(u64::MAX, a, b).is_err());
    let reply = Reply {
        refusal: u64::MAX,
        value: u64::MAX,
        x: 0,
        y: 0,
    };
    assert_eq!(answers::listed(reply), Err(Refusal::Unknown(255)));
    let mut check = raw::Check {
        refusal: 15,
        clear: u64::MAX,
        bent: u64::MAX,
        x: 0,
        y: 0,
    };
    assert_eq!(answers::checked(check), Err(Refusal::Unknown(15)));
    check.refusal = 0;
    let checked = answers::checked(check).unwrap();
    assert_eq!(
        (checked.clear, checked.first_bent),
        (true, Some(usize::MAX))
    );
    assert!(answers::heading(u64::MAX, a, b).is_err());
    let heading = answers::heading(0xffff_ffff, a, b).unwrap();
    assert_eq!((heading.direction(), heading.steps()), (7, (1 << 28) - 1));
    let mut answer = Answer {
        refusal: 256,
        pops: u64::MAX,
        waypoints: u64::MAX,
        cost: u64::MAX,
        x: 0,
        y: 0,
    };
    assert_eq!(
        answers::found(answer).unwrap_err().refusal,
        Refusal::Unknown(255)
    );
    answer.refusal = 0;
    assert_eq!(answers::found(answer).unwrap().cost, u64::MAX);
}

#[test]
fn size() {
    assert_eq!(Grid::new(0, 5), Err(Refusal::Size));
}

/// Every call on tables that are no grid, and that nothing is written.
fn no_grid(tables: Tables) {
    let mut floor = Grid::from_tables(tables.clone());
    let (a, b) = (at(0, 0), at(9000, 0));
    assert_eq!(floor.set(b, true), Err(Refusal::State));
    assert_eq!(floor.update(), Err(Refusal::State));
    assert_eq!(floor.rebuild(), Err(Refusal::State));
    assert_eq!(floor.component(b), Err(Refusal::State));
    assert_eq!(floor.reachable(a, b), Err(Refusal::State));
    assert_eq!(floor.unreachable(a, b), Err(Refusal::State));
    assert_eq!(floor.neighbours_reachable(a, b), Err(Refusal::State));
    assert_eq!(floor.neighbours_unreachable(a, b), Err(Refusal::State));
    floor.settings_mut().factor = 17.0;
    assert_eq!(search(&floor, a, b), Refusal::State);
    assert_eq!(
        floor
            .multiple_goals(&mut Rooms::new(), a, &[])
            .unwrap_err()
            .refusal,
        Refusal::State
    );
    assert_eq!(floor.is_blocked(b), Err(Refusal::State));
    assert_eq!(floor.gate(b, true), Err(Refusal::State));
    assert_eq!(floor.gate(b, false), Err(Refusal::State));
    assert_eq!(floor.check_route(&[]), Err(Refusal::State));
    assert_eq!(floor.into_tables(), tables);
}

#[test]
fn state() {
    let good = open(3, 2).into_tables();
    no_grid(Tables::default());
    no_grid(Tables {
        width: 65,
        ..good.clone()
    });
    no_grid(Tables {
        height: 0,
        ..good.clone()
    });
    no_grid(Tables {
        height: 3,
        ..good.clone()
    });
    no_grid(Tables {
        width: usize::MAX,
        height: usize::MAX,
        ..good.clone()
    });
    no_grid(Tables {
        rank: vec![201; 6],
        ..good.clone()
    });
    no_grid(Tables {
        parent: vec![6; 6],
        ..good.clone()
    });
    // a parent that is another cell of the same rank
    no_grid(Tables {
        parent: vec![1, 1, 2, 3, 4, 5],
        rank: vec![0; 6],
        ..good.clone()
    });
    no_grid(Tables {
        parent: good.parent[..5].to_vec(),
        ..good.clone()
    });
    no_grid(Tables {
        rank: good.rank[..5].to_vec(),
        ..good.clone()
    });
    // tables that only some calls read
    let short = Grid::from_tables(Tables {
        blocked: good.blocked[..5].to_vec(),
        ..good.clone()
    });
    assert_eq!(short.is_blocked(at(0, 0)), Err(Refusal::State));
    assert_eq!(short.check_route(&[at(0, 0)]), Err(Refusal::State));
    assert_eq!(short.reachable(at(0, 0), at(2, 1)), Ok(true));
    let short = Grid::from_tables(Tables {
        forced: good.forced[..5].to_vec(),
        ..good.clone()
    });
    assert_eq!(short.reachable(at(0, 0), at(2, 1)), Ok(true));
    assert_eq!(search(&short, at(0, 0), at(2, 1)), Refusal::State);
    // tables that no calls made, but that are a grid
    let high = Tables {
        rank: vec![200; 6],
        parent: vec![0, 1, 2, 3, 4, 5],
        ..good
    };
    assert_eq!(Grid::from_tables(high).component(at(2, 1)), Ok(5));
}

#[test]
fn setting() {
    let mut floor = open(3, 1);
    let far = at(5000, 0);
    for factor in [16.000002, -1.0, f32::NAN, f32::INFINITY, -f32::MIN_POSITIVE] {
        floor.settings_mut().factor = factor;
        assert_eq!(search(&floor, at(0, 0), far), Refusal::Setting);
        assert_eq!(
            scaled_distance(true, factor, far, at(0, 0)),
            Err(Refusal::Setting)
        );
    }
    let largest = Limits::default();
    for limits in [
        largest.with_depth(65),
        largest.with_pops(0),
        largest.with_pops(65_536),
        largest.with_fringe(0),
        largest.with_fringe(8_193),
        largest.with_depth(usize::MAX),
        largest.with_pops(usize::MAX),
        largest.with_fringe(usize::MAX),
    ] {
        *floor.settings_mut() = Settings::default().with_limits(limits);
        assert_eq!(search(&floor, at(0, 0), far), Refusal::Setting);
    }
    *floor.settings_mut() = Settings::default().with_factor(-0.0);
    assert!(floor
        .single_goal(&mut Rooms::new(), at(0, 0), at(2, 0))
        .is_ok());
    // working room for fewer cells than the grid has
    let no = floor
        .single_goal(&mut Rooms::sized(2, 8_192, 9), at(0, 0), at(2, 0))
        .unwrap_err();
    assert_eq!((no.refusal, no.pops), (Refusal::Setting, 0));
}

#[test]
fn no_route() {
    let mut floor = open(3, 1);
    floor.set(at(1, 0), true).unwrap();
    floor.update().unwrap();
    assert_eq!(search(&floor, at(0, 0), at(2, 0)), Refusal::NoRoute);
    assert_eq!(search(&floor, at(0, 0), at(0, 1)), Refusal::NoRoute);
}

#[test]
fn goals() {
    let (floor, mut rooms) = (open(3, 1), Rooms::new());
    let far = at(5000, 0);
    for goals in [&[][..], &[far; 65], &[far; 500]] {
        let no = floor.multiple_goals(&mut rooms, far, goals).unwrap_err();
        assert_eq!((no.refusal, no.pops), (Refusal::Goals, 0));
    }
    let odd = lent::multiple_goals(
        floor.tables().cells(),
        rooms.lend(),
        &Settings::default(),
        far,
        &[1, 0, 2],
    );
    assert_eq!(odd.unwrap_err().refusal, Refusal::Goals);
}

#[test]
fn exhausted() {
    let mut floor = open(3, 1);
    floor.set(at(1, 0), true).unwrap();
    assert_eq!(search(&floor, at(0, 0), at(2, 0)), Refusal::Exhausted);
}

#[test]
fn depth_fringe_and_pops() {
    let mut floor = open(9, 9);
    let largest = Limits::default();
    for (limits, refusal) in [
        (largest.with_depth(0), Refusal::Depth),
        (largest.with_fringe(1), Refusal::Fringe),
        (largest.with_pops(1), Refusal::Pops),
    ] {
        floor.settings_mut().limits = limits;
        assert_eq!(search(&floor, at(0, 0), at(8, 5)), refusal);
    }
}

#[test]
fn room() {
    let floor = open(3, 1);
    let no = floor
        .single_goal(&mut Rooms::sized(3, 8_192, 2), at(0, 0), at(2, 0))
        .unwrap_err();
    assert_eq!((no.refusal, no.pops), (Refusal::Room, 3));
}

/// More room than any search can use is cut; none at all is refused.
#[test]
fn rooms_of_any_size() {
    let mut floor = open(3, 1);
    let (a, b) = (at(0, 0), at(2, 0));
    let mut most = Rooms::sized(usize::MAX, usize::MAX, usize::MAX);
    assert_eq!(most.lend().number.len(), 4_097);
    assert_eq!(most.lend().idx.len(), 8_192);
    assert_eq!(most.lend().out.len(), 8_194);
    assert!(floor.single_goal(&mut most, a, b).is_ok());
    let mut none = Rooms::sized(0, 0, 0);
    let no = floor.single_goal(&mut none, a, b).unwrap_err();
    assert_eq!(no.refusal, Refusal::Setting);
    // exactly what is needed, and one less of each
    floor.settings_mut().limits.fringe = 9;
    for (cells, fringe, waypoints, refused) in [
        (3, 9, 3, None),
        (2, 9, 3, Some(Refusal::Setting)),
        (3, 8, 3, Some(Refusal::Setting)),
        (3, 9, 2, Some(Refusal::Room)),
    ] {
        let got = floor.single_goal(&mut Rooms::sized(cells, fringe, waypoints), a, b);
        assert_eq!(got.err().map(|no| no.refusal), refused);
    }
}

#[test]
fn same() {
    assert_eq!(direction(at(3, 4), at(3, 4)), Err(Refusal::Same(at(3, 4))));
    assert_eq!(
        direction(at(0, 1024), at(0, 1024)),
        Err(Refusal::BadPoint(at(0, 1024)))
    );
}

#[test]
fn bad_point() {
    let (mut floor, mut rooms) = (open(3, 2), Rooms::new());
    let (a, far, other) = (at(0, 0), at(-1025, 0), at(0, 1024));
    for p in [at(3, 0), at(0, 2), at(-1, 0), at(i32::MIN, i32::MAX)] {
        assert_eq!(floor.set(p, true), Err(Refusal::BadPoint(p)));
        assert_eq!(floor.component(p), Err(Refusal::BadPoint(p)));
        assert_eq!(floor.is_blocked(p), Err(Refusal::BadPoint(p)));
        assert_eq!(floor.gate(p, true), Err(Refusal::BadPoint(p)));
    }
    for (start, goal, bad) in [
        (far, a, far),
        (a, far, far),
        (far, other, far),
        (other, far, other),
    ] {
        let no = Refusal::BadPoint(bad);
        assert_eq!(direction(start, goal), Err(no));
        assert_eq!(distance(true, start, goal), Err(no));
        assert_eq!(scaled_distance(true, 1.0, start, goal), Err(no));
        assert_eq!(floor.reachable(start, goal), Err(no));
        assert_eq!(floor.unreachable(start, goal), Err(no));
        assert_eq!(floor.neighbours_reachable(start, goal), Err(no));
        assert_eq!(floor.neighbours_unreachable(start, goal), Err(no));
        assert_eq!(search(&floor, start, goal), no);
        assert_eq!(
            floor
                .approximate_goal(&mut rooms, start, goal)
                .unwrap_err()
                .refusal,
            no
        );
        assert_eq!(
            floor
                .multiple_goals(&mut rooms, start, &[goal, far])
                .unwrap_err()
                .refusal,
            no
        );
    }
    // in range, but outside: an answer
    let outside = at(1023, -1024);
    assert_eq!(floor.reachable(a, outside), Ok(false));
    assert_eq!(floor.unreachable(a, outside), Ok(true));
    assert_eq!(floor.neighbours_reachable(a, outside), Ok(true));
    assert_eq!(floor.neighbours_unreachable(a, outside), Ok(true));
}
