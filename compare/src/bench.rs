//! Times of the archives and of the unchanged Rust on the same maps, interleaved; the least of several passes.
//!
//! "With STATE" is a call of the boundary, which tests the state of every cell first; "inner" is the call behind it, which requires a legal state.
use crate::inner;
use crate::lent::{Lengths, Lent, Rooms, LARGEST_ROOMS};
use grid_pathfinding::PathingGrid;
use grid_util::grid::ValueGrid;
use grid_util::point::Point;
use std::hint::black_box;
use tools::judge::{Ask, EXACT};
use tools::stats::LARGEST;
use tools::Rng;

/// passes of a row, at least: so many, and until its time is up, in nanoseconds
const PASSES: usize = 30;
const TIME: f64 = 1.2e9;
/// what is timed in one pass: edits or questions, and searches
const CALLS: usize = 2000;
const SEARCHES: usize = 200;
/// rounds of inner edits and questions; a call of one round is taken off
const ROUNDS: usize = 4;
/// grids made, or components rebuilt, in one pass
const GRIDS: usize = 5;

#[repr(C)]
struct Spec {
    seconds: i64,
    nanoseconds: i64,
}
extern "C" {
    fn clock_gettime(clock: i32, to: *mut Spec) -> i32;
}
/// This thread's processor time: another program's turns do not count.
fn now() -> f64 {
    let mut t = Spec {
        seconds: 0,
        nanoseconds: 0,
    };
    unsafe { clock_gettime(3, &mut t) };
    t.seconds as f64 * 1e9 + t.nanoseconds as f64
}
/// The least time of each over several passes, in nanoseconds, one after the other in each pass.
fn least<const N: usize>(mut run: [&mut dyn FnMut(); N]) -> [f64; N] {
    let mut best = [f64::MAX; N];
    let (begin, mut passes) = (now(), 0);
    while passes < PASSES || now() - begin < TIME {
        for (k, f) in run.iter_mut().enumerate() {
            let t = now();
            f();
            best[k] = best[k].min(now() - t);
        }
        passes += 1;
    }
    best
}

/// Nanoseconds a call: the Rust, ours with STATE, ours inner.
struct Times {
    rust: f64,
    tested: f64,
    inner: Option<f64>,
}
fn head() {
    println!(
        "{:<36} {:>10} {:>12} {:>7} {:>10} {:>7}",
        "nanoseconds a call", "Rust", "with STATE", "ratio", "inner", "ratio"
    );
}
fn row(name: &str, t: &Times) {
    let inner = t.inner.map_or(String::new(), |i| {
        format!(" {:>10.1} {:>7.2}", i, i / t.rust)
    });
    println!(
        "{name:<36} {:>10.1} {:>12.1} {:>7.2}{inner}",
        t.rust,
        t.tested,
        t.tested / t.rust
    );
}
fn named(what: &str, diagonal: bool) -> String {
    format!(
        "{what}, {}",
        if diagonal { "diagonals" } else { "straight" }
    )
}

/// A map's cells, row by row.
type Walls = Vec<bool>;
const KINDS: [&str; 4] = ["random 20%", "rooms", "empty", "maze"];

fn walls(kind: usize, side: i32, r: &mut Rng) -> Walls {
    let maze = if kind == 3 { maze(side - 1, r) } else { vec![] };
    let mut walls = vec![];
    for i in 0..side * side {
        let (x, y) = (i % side, i / side);
        walls.push(match kind {
            0 => r.pct(20),
            1 => (x % 8 == 7 && y % 8 != (x / 8) % 7) || (y % 8 == 7 && x % 8 != (y / 8 * 3) % 7),
            2 => false,
            _ => x == side - 1 || y == side - 1 || maze[(y * (side - 1) + x) as usize],
        });
    }
    walls
}
/// A maze of odd sides, every other row and column of it ways.
fn maze(side: i32, r: &mut Rng) -> Walls {
    let mut b = vec![true; (side * side) as usize];
    let mut stack = vec![(0, 0)];
    b[0] = false;
    while let Some(&(x, y)) = stack.last() {
        let mut opts = vec![];
        for (dx, dy) in [(2, 0), (-2, 0), (0, 2), (0, -2)] {
            let (a, c) = (x + dx, y + dy);
            if a >= 0 && c >= 0 && a < side && c < side && b[(c * side + a) as usize] {
                opts.push((dx, dy))
            }
        }
        if opts.is_empty() {
            stack.pop();
            continue;
        }
        let (dx, dy) = opts[r.below(opts.len() as u64) as usize];
        b[((y + dy / 2) * side + x + dx / 2) as usize] = false;
        b[((y + dy) * side + x + dx) as usize] = false;
        stack.push((x + dx, y + dy));
    }
    b
}
/// The same map in both, its components rebuilt.
fn grids(side: i32, diagonal: bool, walls: &Walls, r: &mut Rng) -> (PathingGrid, Lent) {
    let mut rust = PathingGrid::new(side as usize, side as usize, false);
    rust.allow_diagonal_move = diagonal;
    let mut ours = Lent::room(side as usize, side as usize, r);
    assert_eq!(ours.new_grid(), 0);
    for i in 0..side * side {
        if walls[i as usize] {
            rust.set(i % side, i / side, true);
            ours.set(diagonal, Point::new(i % side, i / side), true);
        }
    }
    rust.generate_components();
    ours.rebuild(diagonal);
    (rust, ours)
}
fn anywhere(side: i32, r: &mut Rng) -> Point {
    Point::new(r.range(0, side - 1), r.range(0, side - 1))
}

pub fn run() {
    head();
    let mut means = vec![];
    for side in [16, 32, 64] {
        for (kind, what) in KINDS.iter().enumerate() {
            for diagonal in [true, false] {
                let t = searches(side, kind, diagonal);
                row(&named(&format!("{side} search, {what}"), diagonal), &t);
                means.push((side, t));
            }
        }
    }
    for diagonal in [true, false] {
        tables(64, diagonal);
    }
    for side in [16, 32, 64] {
        mean(
            &format!("the searches' ratios at {side}"),
            means.iter().filter(|m| m.0 == side),
        );
    }
    mean("all searches' ratios", means.iter());
}
fn mean<'a>(what: &str, of: impl Iterator<Item = &'a (i32, Times)>) {
    let (mut tested, mut inner, mut count) = (0.0, 0.0, 0.0);
    for (_, t) in of {
        tested += (t.tested / t.rust).ln();
        inner += (t.inner.unwrap() / t.rust).ln();
        count += 1.0;
    }
    let of = |sum: f64| (sum / count).exp();
    println!(
        "geometric mean of {what}: {:.2} with STATE, {:.2} inner",
        of(tested),
        of(inner)
    );
}

/// A map in both, with exact searches between free cells of one component: as orders, and as numbers.
fn orders(side: i32, kind: usize, diagonal: bool) -> (PathingGrid, Lent, Vec<Ask>, Vec<i32>) {
    let mut r = Rng(11 + kind as u64);
    let walls = walls(kind, side, &mut r);
    let (rust, ours) = grids(side, diagonal, &walls, &mut r);
    let (mut asks, mut numbers) = (vec![], vec![]);
    while asks.len() < SEARCHES {
        let (s, g) = (anywhere(side, &mut r), anywhere(side, &mut r));
        if rust.reachable(&s, &g) && !rust.get(s.x, s.y) && !rust.get(g.x, g.y) {
            numbers.extend([s.x, s.y, g.x, g.y]);
            asks.push(Ask {
                kind: EXACT,
                diagonal,
                improved: true,
                factor: 1.0,
                limits: LARGEST,
                start: s,
                goals: vec![g],
                odd: false,
                room: 4097,
            });
        }
    }
    (rust, ours, asks, numbers)
}
fn rust_searches(rust: &PathingGrid, asks: &[Ask]) -> usize {
    asks.iter()
        .map(|a| {
            rust.get_waypoints_single_goal(a.start, a.goals[0], false)
                .map_or(0, |v| v.len())
        })
        .sum()
}
fn tested_searches(ours: &Lent, rooms: &mut Rooms, asks: &[Ask]) -> usize {
    let largest = Lengths {
        rooms: LARGEST_ROOMS,
        out: 8194,
    };
    asks.iter()
        .map(|k| {
            let goal = [k.goals[0].x, k.goals[0].y];
            rooms.route(ours, k, &goal, largest).waypoints as usize
        })
        .sum()
}
fn searches(side: i32, kind: usize, diagonal: bool) -> Times {
    let (rust, ours, asks, numbers) = orders(side, kind, diagonal);
    let mut rooms = [Rooms::new(), Rooms::new()];
    let mut lengths = [0; 3];
    let [a, b] = &mut rooms;
    let [rust_length, tested_length, inner_length] = &mut lengths;
    let t = least([
        &mut || *rust_length = rust_searches(&rust, &asks),
        &mut || *tested_length = tested_searches(&ours, a, &asks),
        &mut || *inner_length = inner::searches(&ours, b, diagonal, &numbers) as usize,
    ])
    .map(|t| t / SEARCHES as f64);
    assert_eq!(lengths, [lengths[0]; 3]);
    Times {
        rust: t[0],
        tested: t[1],
        inner: Some(t[2]),
    }
}
/// What `compare/run instructions` counts: a map's searches by the Rust (1), by the inner call (2), by the call that tests STATE (3), or none (0), on 64 by 64.
pub fn once(kind: usize, diagonal: bool, who: usize) {
    let (rust, ours, asks, numbers) = orders(64, kind, diagonal);
    let mut rooms = Rooms::new();
    let waypoints = match who {
        1 => rust_searches(&rust, &asks),
        2 => inner::searches(&ours, &mut rooms, diagonal, &numbers) as usize,
        3 => tested_searches(&ours, &mut rooms, &asks),
        _ => 0,
    };
    println!("{waypoints} waypoints");
}

/// New, edit, gate, rebuild, question, and the STATE test's share of a rebuild.
fn tables(side: i32, diagonal: bool) {
    let mut r = Rng(7);
    let walls = walls(0, side, &mut r);
    let (rust, ours) = grids(side, diagonal, &walls, &mut r);
    let mut edits = vec![];
    for _ in 0..CALLS {
        edits.push((anywhere(side, &mut r), r.pct(20)));
    }
    let show = |what: &str, t: &Times| row(&named(&format!("{side} {what}"), diagonal), t);
    show("new", &new(side, diagonal));
    show("edit", &edit(side, diagonal, &edits));
    show("gate", &edit(side, diagonal, &gates(side, &mut r)));
    let question = question(&rust, &ours, &edits);
    show("question", &question);
    let rebuild = rebuild(rust, ours, diagonal);
    show("rebuild", &rebuild);
    show("map text to route", &text(side, diagonal));
    let state = question.tested - question.inner.unwrap();
    println!(
        "{:<36} {:>10} {:>12.1} {:>6.1}% of the Rust's rebuild",
        named(&format!("{side} STATE test alone"), diagonal),
        "",
        state,
        100.0 * state / rebuild.rust
    );
}
fn new(side: i32, diagonal: bool) -> Times {
    let mut ours = Lent::room(side as usize, side as usize, &mut Rng(1));
    let t = least([
        &mut || {
            for _ in 0..GRIDS {
                let mut g = PathingGrid::new(side as usize, side as usize, false);
                g.allow_diagonal_move = diagonal;
                black_box(g);
            }
        },
        &mut || {
            for _ in 0..GRIDS {
                assert!(ours.new_grid() == 0);
            }
        },
    ])
    .map(|t| t / GRIDS as f64);
    Times {
        rust: t[0],
        tested: t[1],
        inner: None,
    }
}
/// Orders to gates anywhere, each of which changes its cell; all of them together leave the grid as it was.
fn gates(side: i32, r: &mut Rng) -> Vec<(Point, bool)> {
    let cells: Vec<Point> = (0..CALLS / 2).map(|_| anywhere(side, r)).collect();
    let mut shut = vec![false; (side * side) as usize];
    let mut orders = vec![];
    for p in cells.iter().chain(&cells) {
        let gate = &mut shut[(p.y * side + p.x) as usize];
        *gate = !*gate;
        orders.push((*p, *gate));
    }
    orders
}
/// The same edits of a new grid in both. A call of more rounds less a call of one: the first round and the new grid are not counted.
fn edit(side: i32, diagonal: bool, edits: &[(Point, bool)]) -> Times {
    let room = || Lent::room(side as usize, side as usize, &mut Rng(1));
    let (mut tested, mut untested) = (room(), room());
    let numbers: Vec<i32> = edits
        .iter()
        .flat_map(|(p, b)| [p.x, p.y, *b as i32])
        .collect();
    let rust = |rounds: usize| {
        let mut g = PathingGrid::new(side as usize, side as usize, false);
        g.allow_diagonal_move = diagonal;
        for _ in 0..rounds {
            for (p, b) in edits {
                g.set(p.x, p.y, *b);
            }
        }
        g
    };
    assert_eq!(
        inner::edits(&mut untested, diagonal, &numbers, 1 + ROUNDS),
        1
    );
    let g = rust(1 + ROUNDS);
    for i in 0..side * side {
        let p = Point::new(i % side, i / side);
        let k = i as usize;
        let of_rust = (
            g.get(p.x, p.y),
            g.neighbours.get(p.x, p.y),
            g.jump_point.get(p.x, p.y),
            g.get_component(&p) as u64,
        );
        assert_eq!(
            of_rust,
            (
                untested.blocked[k] != 0,
                untested.neighbours[k],
                untested.forced[k],
                untested.component(p)
            )
        );
    }
    assert!(g.components_dirty);
    assert_eq!(inner::edits(&mut tested, diagonal, &numbers, 1), 1);
    let again = std::cell::RefCell::new(&mut untested);
    let t = least([
        &mut || drop(black_box(rust(1))),
        &mut || drop(black_box(rust(1 + ROUNDS))),
        &mut || {
            for (p, b) in edits {
                assert!(tested.set(diagonal, *p, *b) < 2);
            }
        },
        &mut || assert!(inner::edits(*again.borrow_mut(), diagonal, &numbers, 1) == 1),
        &mut || assert!(inner::edits(*again.borrow_mut(), diagonal, &numbers, 1 + ROUNDS) == 1),
    ])
    .map(|t| t / edits.len() as f64);
    let rounds = ROUNDS as f64;
    Times {
        rust: (t[1] - t[0]) / rounds,
        tested: t[2],
        inner: Some((t[4] - t[3]) / rounds),
    }
}
fn question(rust: &PathingGrid, ours: &Lent, edits: &[(Point, bool)]) -> Times {
    let asks: Vec<(Point, Point)> = (0..edits.len())
        .map(|k| (edits[k].0, edits[(k + 1) % edits.len()].0))
        .collect();
    let numbers: Vec<i32> = asks
        .iter()
        .flat_map(|(s, g)| [s.x, s.y, g.x, g.y])
        .collect();
    let round = || asks.iter().filter(|(s, g)| rust.reachable(s, g)).count() as u64;
    let rounds = |n: u64| (0..n).map(|_| black_box(round())).sum::<u64>();
    let yeses = round();
    let n = 10 * ROUNDS as u64;
    let t = least([
        &mut || assert!(rounds(1) == yeses),
        &mut || assert!(rounds(1 + n) == yeses * (1 + n)),
        &mut || {
            assert!(
                asks.iter()
                    .map(|(s, g)| ours.reachable(*s, *g))
                    .sum::<u64>()
                    == yeses
            )
        },
        &mut || assert!(inner::questions(ours, &numbers, 1) == yeses),
        &mut || assert!(inner::questions(ours, &numbers, 1 + n as usize) == yeses * (1 + n)),
    ])
    .map(|t| t / asks.len() as f64);
    Times {
        rust: (t[1] - t[0]) / n as f64,
        tested: t[2],
        inner: Some((t[4] - t[3]) / n as f64),
    }
}
fn rebuild(mut rust: PathingGrid, mut ours: Lent, diagonal: bool) -> Times {
    let t = least([
        &mut || {
            for _ in 0..GRIDS {
                rust.generate_components();
            }
        },
        &mut || {
            for _ in 0..GRIDS {
                assert!(ours.rebuild(diagonal) == 0);
            }
        },
    ])
    .map(|t| t / GRIDS as f64);
    Times {
        rust: t[0],
        tested: t[1],
        inner: None,
    }
}
/// The Rust with the judge's reader before it, and its waypoints printed.
fn rust_route(text: &[u8]) -> String {
    let m = tools::maps::parse(text).unwrap();
    let found = tools::maps::plain_grid(&m).get_waypoints_single_goal(m.start, m.goal, false);
    found
        .unwrap()
        .iter()
        .map(|p| format!("point={},{}\n", p.x, p.y))
        .collect()
}
/// A whole map text read, rebuilt, searched and printed.
fn text(side: i32, diagonal: bool) -> Times {
    let mut r = Rng(3);
    let mut cells = walls(0, side, &mut r);
    let last = (side * side - 1) as usize;
    (cells[0], cells[last]) = (false, false);
    let mut text = format!(
        "width={side}\nheight={side}\ndiagonal={}\nstart=0,0\ngoal={},{}\n",
        diagonal as u8,
        side - 1,
        side - 1
    );
    for row in cells.chunks(side as usize) {
        text.push_str("row=");
        text.extend(row.iter().map(|b| if *b { '#' } else { '.' }));
        text.push('\n');
    }
    let mut out = vec![0; barnsling::lent::TEXT_ROOM];
    let mut written = 0;
    let mut of_rust = String::new();
    let t = least([&mut || of_rust = rust_route(text.as_bytes()), &mut || {
        written = barnsling::raw::route_text(text.as_bytes(), &mut out) as usize
    }]);
    assert!(out[..written].ends_with(of_rust.as_bytes()));
    Times {
        rust: t[0],
        tested: t[1],
        inner: None,
    }
}
