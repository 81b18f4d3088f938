//! Which points are in line: the direction between two, and the first bent leg of a list.
use barnsling::*;

fn at(x: i32, y: i32) -> Point {
    Point::new(x, y)
}
fn straight(direction: u8, length: u32) -> Result<Heading, Refusal> {
    Ok(Heading::Straight { direction, length })
}
fn bent(direction: u8, larger: u32) -> Result<Heading, Refusal> {
    Ok(Heading::Bent { direction, larger })
}
/// Whether the way is clear, and its first bent leg.
fn check(floor: &Grid, list: &[Point]) -> Result<(bool, Option<usize>), Refusal> {
    floor.check_route(list).map(|c| (c.clear, c.first_bent))
}

#[test]
fn lines_and_slants_are_straight() {
    let steps = [
        at(0, -1),
        at(1, -1),
        at(1, 0),
        at(1, 1),
        at(0, 1),
        at(-1, 1),
        at(-1, 0),
        at(-1, -1),
    ];
    for (d, step) in (0..).zip(steps) {
        for length in [1, 2, 3, 1000] {
            let to = at(7 + length * step.x, -5 + length * step.y);
            assert_eq!(direction(at(7, -5), to), straight(d, length as u32));
        }
    }
    assert_eq!(direction(at(0, 0), at(3, -3)), straight(1, 3));
}

#[test]
fn what_is_off_the_line_is_bent() {
    assert_eq!(direction(at(0, 0), at(5, -1)), bent(1, 5));
    assert_eq!(direction(at(0, 0), at(-1, 5)), bent(5, 5));
    // one off a slant, on either side, and one off a line
    assert_eq!(direction(at(0, 0), at(3, -4)), bent(1, 4));
    assert_eq!(direction(at(0, 0), at(4, -3)), bent(1, 4));
    assert_eq!(direction(at(9, 9), at(2, 10)), bent(5, 7));
    // both differences are even, or multiples of one another
    assert_eq!(direction(at(0, 0), at(4, 2)), bent(3, 4));
    assert_eq!(direction(at(0, 0), at(-6, -3)), bent(7, 6));
}

#[test]
fn corners_of_the_range() {
    let (low, high) = (-1024, 1023);
    assert_eq!(direction(at(low, low), at(high, low)), straight(2, 2047));
    assert_eq!(direction(at(high, high), at(high, low)), straight(0, 2047));
    assert_eq!(direction(at(low, high), at(high, low)), straight(1, 2047));
    assert_eq!(direction(at(high, high), at(low, low)), straight(7, 2047));
    assert_eq!(direction(at(high, high), at(low, low + 1)), bent(7, 2047));
    assert_eq!(direction(at(low, low), at(high - 1, high)), bent(3, 2047));
}

#[test]
fn refused_directions() {
    let (a, far, other) = (at(3, 4), at(1024, 4), at(3, -1025));
    assert_eq!(direction(a, a), Err(Refusal::Same(a)));
    assert_eq!(direction(far, other), Err(Refusal::BadPoint(far)));
    assert_eq!(direction(a, other), Err(Refusal::BadPoint(other)));
    assert_eq!(direction(far, far), Err(Refusal::BadPoint(far)));
}

/// The path between two points takes so many steps, and all are equal exactly where the two are in line.
#[test]
fn the_path_says_the_same() {
    let mut room = [at(0, 0); 16];
    for b in (-7..8).flat_map(|y| (-7..8).map(move |x| at(x, y))) {
        let Ok(heading) = direction(at(0, 0), b) else {
            assert_eq!(b, at(0, 0));
            continue;
        };
        let points = waypoints_to_path(&[at(0, 0), b], &mut room).unwrap();
        assert_eq!(heading.steps() as usize, points - 1);
        let step = |k: usize| at(room[k].x - room[k - 1].x, room[k].y - room[k - 1].y);
        assert_eq!(heading.is_bent(), (1..points).any(|k| step(k) != step(1)));
        assert_eq!(
            direction(at(0, 0), step(1)),
            straight(heading.direction(), 1)
        );
    }
}

#[test]
fn first_bent_leg() {
    let floor = Grid::new(4, 4).unwrap();
    let (a, b, c) = (at(0, 0), at(2, 1), at(3, 3));
    assert_eq!(check(&floor, &[a]), Ok((true, None)));
    assert_eq!(check(&floor, &[a, c]), Ok((true, None)));
    assert_eq!(check(&floor, &[at(3, 0), at(0, 3)]), Ok((true, None)));
    assert_eq!(check(&floor, &[a, b]), Ok((true, Some(1))));
    assert_eq!(check(&floor, &[a, c, at(3, 1), b]), Ok((true, None)));
    // the first of two
    assert_eq!(check(&floor, &[a, c, b, a]), Ok((true, Some(2))));
}

/// A leg between equal points counts and is not bent: in front, between and at the end.
#[test]
fn equal_points() {
    let floor = Grid::new(4, 4).unwrap();
    let (a, b, c) = (at(0, 0), at(2, 1), at(3, 3));
    assert_eq!(check(&floor, &[a, a]), Ok((true, None)));
    assert_eq!(check(&floor, &[a, a, b]), Ok((true, Some(2))));
    assert_eq!(check(&floor, &[a, a, a, c, b]), Ok((true, Some(4))));
    assert_eq!(check(&floor, &[a, c, c, c, b]), Ok((true, Some(4))));
    assert_eq!(check(&floor, &[a, c, c]), Ok((true, None)));
    assert_eq!(check(&floor, &[a, b, b]), Ok((true, Some(1))));
}

/// The leg is named although the way is not clear, wherever the blocked cell lies; and a path has none to name.
#[test]
fn bends_of_a_way_that_is_not_clear() {
    let mut floor = Grid::new(4, 4).unwrap();
    let list = [at(0, 0), at(2, 0), at(2, 0), at(3, 2), at(3, 3)];
    let mut room = [at(0, 0); 16];
    let points = waypoints_to_path(&list, &mut room).unwrap();
    for cell in [at(1, 0), at(3, 1), at(3, 3)] {
        floor.set(cell, true).unwrap();
        assert_eq!(check(&floor, &list), Ok((false, Some(3))));
        assert_eq!(check(&floor, &room[..points]), Ok((false, None)));
        floor.set(cell, false).unwrap();
    }
    assert_eq!(check(&floor, &list), Ok((true, Some(3))));
    assert_eq!(check(&floor, &room[..points]), Ok((true, None)));
    // outside the grid
    assert_eq!(
        check(&floor, &[at(-9, 0), at(9, 0), at(0, 1)]),
        Ok((false, Some(2)))
    );
}

#[test]
fn a_refused_list_names_no_leg() {
    let floor = Grid::new(4, 4).unwrap();
    let far = at(1024, 0);
    assert_eq!(
        check(&floor, &[at(0, 0), at(2, 1), far]),
        Err(Refusal::BadPoint(far))
    );
    assert_eq!(check(&floor, &[]), Err(Refusal::List));
    let odd = lent::check_route(floor.tables().cells(), &[0, 0, 2, 1, 0]);
    assert_eq!(odd, Err(Refusal::List));
    let no_grid = Grid::from_tables(Tables::default());
    assert_eq!(check(&no_grid, &[at(0, 0), at(2, 1)]), Err(Refusal::State));
}
