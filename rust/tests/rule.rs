//! The dispatcher's rule, held against a flood fill over random floors and gates: a no is true, and a yes is true
//! unless a gate has shut since the rebuild. Found routes are walked. Then orders that are given twice: what the bare edit
//! makes of them, and that `gate` makes nothing of them.
use barnsling::{Grid, Point, Refusal, Rooms};

struct Rng(u64);
impl Rng {
    fn below(&mut self, n: u64) -> u64 {
        self.0 ^= self.0 << 13;
        self.0 ^= self.0 >> 7;
        self.0 ^= self.0 << 17;
        self.0 % n
    }
    fn point(&mut self, w: i32, h: i32) -> Point {
        Point::new(self.below(w as u64) as i32, self.below(h as u64) as i32)
    }
}

fn free(floor: &Grid, p: Point) -> bool {
    floor.is_blocked(p) == Ok(false)
}

/// The free cells that moves over free cells reach.
fn reached(floor: &Grid, from: Point) -> Vec<Point> {
    let mut seen = vec![from];
    let mut next = 0;
    while next < seen.len() {
        let p = seen[next];
        next += 1;
        for (dx, dy) in [
            (0, -1),
            (1, 0),
            (0, 1),
            (-1, 0),
            (1, -1),
            (1, 1),
            (-1, 1),
            (-1, -1),
        ] {
            let q = Point::new(p.x + dx, p.y + dy);
            if (floor.settings().diagonal || dx == 0 || dy == 0)
                && free(floor, q)
                && !seen.contains(&q)
            {
                seen.push(q);
            }
        }
    }
    seen
}

/// Every step of a straight or slanted walk between waypoints is on a free cell.
fn walk(floor: &Grid, waypoints: &[Point]) {
    for pair in waypoints.windows(2) {
        let mut p = pair[0];
        while p != pair[1] {
            let (dx, dy) = ((pair[1].x - p.x).signum(), (pair[1].y - p.y).signum());
            assert!(floor.settings().diagonal || dx == 0 || dy == 0);
            p = Point::new(p.x + dx, p.y + dy);
            assert!(free(floor, p), "{p} of {waypoints:?}");
        }
    }
}

fn hold(floor: &Grid, rooms: &mut Rooms, a: Point, b: Point, shut: bool) {
    if a == b || !free(floor, a) || !free(floor, b) {
        return;
    }
    let joined = reached(floor, a).contains(&b);
    let yes = floor.reachable(a, b).unwrap();
    assert!(yes || !joined, "a false no");
    assert!(joined || !yes || shut, "a hopeful yes with no gate shut");
    assert_eq!(floor.unreachable(a, b), Ok(!yes));
    match floor.single_goal(rooms, a, b) {
        Ok(route) => {
            assert!(joined && route.waypoints[0] == a && route.waypoints.last() == Some(&b));
            walk(floor, &route.waypoints);
        }
        Err(no) => {
            assert!(!joined);
            assert_eq!(
                no.refusal,
                if yes {
                    Refusal::Exhausted
                } else {
                    Refusal::NoRoute
                }
            );
        }
    }
}

#[test]
fn a_no_is_true_and_a_yes_may_be_hopeful() {
    let (mut r, mut rooms) = (Rng(1), Rooms::new());
    for round in 0..300 {
        let (w, h) = (1 + r.below(12) as i32, 1 + r.below(12) as i32);
        let mut floor = Grid::new(w as usize, h as usize).unwrap();
        floor.settings_mut().diagonal = round % 2 == 0;
        for _ in 0..r.below((w * h) as u64 + 1) {
            let p = r.point(w, h);
            floor.set(p, r.below(100) < 60).unwrap();
        }
        floor.rebuild().unwrap();
        let mut shut = false;
        for _ in 0..30 {
            match r.below(12) {
                0 => {
                    floor.rebuild().unwrap();
                    shut = false;
                }
                k => {
                    let p = r.point(w, h);
                    // also where it was blocked before
                    shut |= k < 6;
                    floor.set(p, k < 6).unwrap();
                }
            }
            for _ in 0..4 {
                let (a, b) = (r.point(w, h), r.point(w, h));
                hold(&floor, &mut rooms, a, b, shut);
            }
        }
    }
}

/// 3 by 1, and the gate in the middle: the bare edit repeated makes a yes that an update leaves and a rebuild takes back.
#[test]
fn an_order_to_block_that_is_given_twice() {
    let (west, middle, east) = (Point::new(0, 0), Point::new(1, 0), Point::new(2, 0));
    let (mut floor, mut rooms) = (Grid::new(3, 1).unwrap(), Rooms::new());
    floor.set(middle, true).unwrap();
    floor.rebuild().unwrap();
    assert_eq!(floor.reachable(west, east), Ok(false));
    floor.set(middle, true).unwrap();
    for _ in 0..2 {
        assert_eq!(floor.reachable(west, east), Ok(true));
        assert!(!floor.is_dirty());
        let no = floor.single_goal(&mut rooms, west, east).unwrap_err();
        assert_eq!(no.refusal, Refusal::Exhausted);
        floor.update().unwrap();
    }
    floor.rebuild().unwrap();
    assert_eq!(floor.reachable(west, east), Ok(false));

    // the same by `gate`, and nothing happens
    let before = floor.clone();
    assert_eq!(floor.gate(middle, true), Ok(false));
    assert_eq!(floor, before);
    assert_eq!(floor.gate(middle, false), Ok(true));
    assert_eq!(floor.reachable(west, east), Ok(true));
    assert_eq!(floor.gate(middle, false), Ok(false));
    assert_eq!(floor.gate(middle, true), Ok(true));
    assert!(floor.is_dirty());
}

/// The answers between two different free cells that a flood fill does not give: false yeses and false noes.
fn false_answers(floor: &Grid) -> (usize, usize) {
    let (w, h) = (floor.width() as i32, floor.height() as i32);
    let all = (0..w * h).map(|i| Point::new(i % w, i / w));
    let cells: Vec<Point> = all.filter(|p| free(floor, *p)).collect();
    let (mut yeses, mut noes) = (0, 0);
    for a in &cells {
        let joined = reached(floor, *a);
        for b in cells.iter().filter(|b| *b != a) {
            match (floor.reachable(*a, *b).unwrap(), joined.contains(b)) {
                (true, false) => yeses += 1,
                (false, true) => noes += 1,
                _ => {}
            }
        }
    }
    (yeses, noes)
}

/// The same orders, many of them repeated, by `gate` and by the bare edit.
#[test]
fn repeated_orders() {
    let mut r = Rng(7);
    let (mut repeated, mut by_set) = (0, 0);
    for round in 0..150 {
        let (w, h) = (1 + r.below(7) as i32, 1 + r.below(7) as i32);
        let mut floor = Grid::new(w as usize, h as usize).unwrap();
        floor.settings_mut().diagonal = round % 2 == 0;
        floor.rebuild().unwrap();
        let mut bare = floor.clone();
        for order in 0..40 {
            let (p, shut) = (r.point(w, h), r.below(100) < 55);
            repeated += !floor.gate(p, shut).unwrap() as usize;
            bare.set(p, shut).unwrap();
            assert_eq!(floor.tables().blocked, bare.tables().blocked);
            if order % 4 == 3 {
                assert_eq!(false_answers(&floor).1, 0);
                floor.update().unwrap();
                bare.update().unwrap();
                assert_eq!(false_answers(&floor), (0, 0));
            }
            if order % 4 == 1 && !floor.is_dirty() {
                assert_eq!(false_answers(&floor), (0, 0));
            }
            if order % 8 == 7 {
                let (yeses, noes) = false_answers(&bare);
                assert!(noes == 0 && !bare.is_dirty());
                by_set += yeses;
            }
        }
        bare.rebuild().unwrap();
        assert_eq!(false_answers(&bare), (0, 0));
    }
    assert!(repeated > 1_000, "{repeated} orders were repeated");
    assert!(by_set > 100, "{by_set} false yeses of the bare edit");
}
