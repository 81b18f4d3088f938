//! The unchanged and the instrumented Rust side by side on one grid, with document 01's refusals around them.
//!
//! A search never meets SAME: a cell is expanded again along a pruned direction, and that is never the one back to the
//! parent. Should it come, the Rust panics and the program with it.
//! Whatever both can be asked, both are, and their answers must agree. The instrumented one alone gives
//! pops, costs and refusals 6 to 9, and the union-find's inside on tables that no calls made.
use crate::make::points_of;
use crate::stats::{self, Limits};
use grid_pathfinding as plain;
use grid_pathfinding_instr as instr;
use grid_util::grid::ValueGrid;
use grid_util::point::Point;
use petgraph::unionfind::UnionFind;

pub const SIDE: usize = 64;

/// A grid's tables, row by row.
#[derive(Clone, PartialEq, Eq, Debug, Default)]
pub struct Tables {
    pub w: usize,
    pub h: usize,
    pub dirty: bool,
    pub blocked: Vec<u8>,
    pub neighbours: Vec<u8>,
    pub forced: Vec<u8>,
    pub parent: Vec<u16>,
    pub rank: Vec<u8>,
}

impl Tables {
    /// Document 01's STATE, by its words.
    pub fn legal(&self) -> bool {
        let sides = (1..=SIDE).contains(&self.w) && (1..=SIDE).contains(&self.h);
        sides
            && (0..self.w * self.h).all(|i| {
                let p = self.parent[i] as usize;
                self.rank[i] <= 200
                    && (p == i || (p < self.w * self.h && self.rank[p] > self.rank[i]))
            })
    }
    fn root(&self, mut i: usize) -> usize {
        while self.parent[i] as usize != i {
            i = self.parent[i] as usize
        }
        i
    }
}

pub const EXACT: u8 = 0;
pub const APPROXIMATE: u8 = 1;
pub const SEVERAL: u8 = 2;

/// One search asked.
#[derive(Clone, Debug)]
pub struct Ask {
    pub kind: u8,
    pub diagonal: bool,
    pub improved: bool,
    pub factor: f32,
    pub limits: Limits,
    pub start: Point,
    pub goals: Vec<Point>,
    /// one number more than the goals' pairs
    pub odd: bool,
    /// how many points the output holds
    pub room: usize,
}

/// A search's answer: result 0 found, else the refusal; the point is the one that POINT carries.
#[derive(Clone, PartialEq, Debug)]
pub struct Answer {
    pub result: u8,
    pub point: Point,
    pub pops: u32,
    pub cost: i32,
    pub points: Vec<Point>,
}

pub fn in_range(p: Point) -> bool {
    (-1024..=1023).contains(&p.x) && (-1024..=1023).contains(&p.y)
}
pub fn factor_ok(f: f32) -> bool {
    (0.0..=16.0).contains(&f)
}

/// What document 01 refuses of a waypoint list's numbers: LIST, then POINT with the first bad point.
pub fn list_refused(v: &[i32]) -> Option<(u8, Point)> {
    if v.is_empty() || v.len() % 2 == 1 {
        return Some((13, Point::new(0, 0)));
    }
    let bad = points_of(v).into_iter().find(|p| !in_range(*p))?;
    Some((14, bad))
}
/// A route check's answer: result 0, else the refusal; the point is the one that POINT carries.
#[derive(Clone, PartialEq, Debug)]
pub struct Check {
    pub result: u8,
    pub point: Point,
    pub clear: bool,
    /// the first bent leg, from 1, or 0 for none
    pub bent: usize,
}
impl Check {
    /// What is refused is not clear and names no leg.
    pub fn refused(result: u8, point: Point) -> Check {
        Check {
            result,
            point,
            clear: false,
            bent: 0,
        }
    }
}
/// The check of a waypoint list's numbers on a floor.
pub fn check(w: i32, h: i32, blocked: &[bool], v: &[i32]) -> Check {
    if let Some((result, point)) = list_refused(v) {
        return Check::refused(result, point);
    }
    let list = points_of(v);
    Check {
        result: 0,
        point: Point::new(0, 0),
        clear: clear(w, h, blocked, &list),
        bent: first_bent(&list),
    }
}
/// Document 02's rule of a list that is not refused: every cell of the expanded walk after the first point is inside and free.
/// It is judged twice, by the path that the unchanged Rust makes and by the cells of each leg (`leg`), and both must say the same.
pub fn clear(w: i32, h: i32, blocked: &[bool], list: &[Point]) -> bool {
    let free =
        |p: Point| p.x >= 0 && p.y >= 0 && p.x < w && p.y < h && !blocked[(p.y * w + p.x) as usize];
    let by_rust = plain::waypoints_to_path(list.to_vec())[1..]
        .iter()
        .all(|p| free(*p));
    let by_legs = list.windows(2).all(|ends| leg(ends[0], ends[1]).all(free));
    assert_eq!(by_rust, by_legs, "the judges differ on {list:?}");
    by_legs
}
/// The cells of a leg after its first: k steps on, each coordinate has gone k of its difference, or all of it.
fn leg(p: Point, q: Point) -> impl Iterator<Item = Point> {
    let (across, down) = (q.x - p.x, q.y - p.y);
    let steps = across.abs().max(down.abs());
    (1..=steps).map(move |k| Point::new(p.x + across.clamp(-k, k), p.y + down.clamp(-k, k)))
}
/// Document 02's first bent leg, from 1: leg k goes from the k-th waypoint to the next, equal or not. 0 where none is bent.
pub fn first_bent(list: &[Point]) -> usize {
    let bent = |ends: &[Point]| course(ends[0], ends[1]).bent;
    list.windows(2)
        .position(bent)
        .map_or(0, |before| before + 1)
}
/// How many steps lead from one point to another, and whether they bend, so that no number of equal steps leads there.
#[derive(Clone, Copy, PartialEq, Debug)]
pub struct Course {
    pub steps: u32,
    pub bent: bool,
}
/// It is judged twice, by the steps of the path that the unchanged Rust makes and by the differences alone, and both must say the same.
/// Equal points are no step apart and not bent.
pub fn course(p: Point, q: Point) -> Course {
    let by_differences = reckoned(p, q);
    assert_eq!(
        walked(p, q),
        by_differences,
        "the judges differ on {p:?} {q:?}"
    );
    by_differences
}
/// Bent where not all steps of the Rust's path are the first one again.
fn walked(p: Point, q: Point) -> Course {
    let path = plain::waypoints_to_path(vec![p, q]);
    let step = |k: usize| (path[k + 1].x - path[k].x, path[k + 1].y - path[k].y);
    let steps = path.len() - 1;
    Course {
        steps: steps as u32,
        bent: (0..steps).any(|k| step(k) != step(0)),
    }
}
/// The differences fall into as many equal parts as their greatest common divisor says. Straight where a part is one step.
fn reckoned(p: Point, q: Point) -> Course {
    let (across, down) = (p.x.abs_diff(q.x), p.y.abs_diff(q.y));
    let parts = divisor(across, down);
    let bent = across > parts || down > parts;
    Course {
        steps: if bent { across.max(down) } else { parts },
        bent,
    }
}
/// The greatest common divisor; of 0 and a number, the number.
fn divisor(a: u32, b: u32) -> u32 {
    match b {
        0 => a,
        _ => divisor(b, a % b),
    }
}
/// The refusals that come before a search, in document 01's order: SETTING, GOALS, POINT.
fn refused_before(a: &Ask) -> Option<Answer> {
    let no = |result: u8, point: Point| {
        Some(Answer {
            result,
            point,
            pops: 0,
            cost: 0,
            points: vec![],
        })
    };
    let none = Point::new(0, 0);
    let l = a.limits;
    let limits = l.depth <= 64 && (1..=65_535).contains(&l.pops) && (1..=8_192).contains(&l.fringe);
    if !factor_ok(a.factor) || !limits {
        return no(3, none);
    }
    if a.kind == SEVERAL && (a.odd || !(1..=64).contains(&a.goals.len())) {
        return no(5, none);
    }
    for p in std::iter::once(&a.start).chain(&a.goals) {
        if !in_range(*p) {
            return no(14, *p);
        }
    }
    None
}

pub struct Both {
    pub plain: plain::PathingGrid,
    pub instr: instr::PathingGrid,
    /// made from a new grid by calls alone, so that the two union-finds are equal inside too
    made: bool,
    legal: bool,
}

impl Both {
    pub fn new(w: usize, h: usize) -> Both {
        Both {
            plain: plain::PathingGrid::new(w, h, false),
            instr: instr::PathingGrid::new(w, h, false),
            made: true,
            legal: true,
        }
    }

    /// A grid with these tables. The unchanged Rust gets a union-find with the same components:
    /// its searches and questions depend on nothing else.
    pub fn of_tables(t: &Tables) -> Both {
        if !t.legal() {
            let mut b = Both::new(1, 1);
            b.legal = false;
            return b;
        }
        let mut b = Both::new(t.w, t.h);
        b.made = false;
        for i in 0..t.w * t.h {
            b.plain.grid.values[i] = t.blocked[i] != 0;
            b.plain.neighbours.values[i] = t.neighbours[i];
            b.plain.jump_point.values[i] = t.forced[i];
            b.instr.components.parent[i] = t.parent[i] as usize;
            b.instr.components.rank[i] = t.rank[i];
        }
        b.instr.grid = b.plain.grid.clone();
        b.instr.neighbours = b.plain.neighbours.clone();
        b.instr.jump_point = b.plain.jump_point.clone();
        b.plain.components = UnionFind::new(t.w * t.h);
        for i in 0..t.w * t.h {
            b.plain.components.union(i, t.root(i));
        }
        b.plain.components_dirty = t.dirty;
        b.instr.components_dirty = t.dirty;
        b
    }

    pub fn diagonal(&mut self, d: bool) {
        self.plain.allow_diagonal_move = d;
        self.instr.allow_diagonal_move = d;
    }
    pub fn set(&mut self, x: i32, y: i32, blocked: bool) {
        self.plain.set(x, y, blocked);
        self.instr.set(x, y, blocked);
    }
    pub fn update(&mut self) {
        self.made = self.made || self.instr.components_dirty;
        self.plain.update();
        self.instr.update();
    }
    pub fn rebuild(&mut self) {
        self.made = true;
        self.plain.generate_components();
        self.instr.generate_components();
    }

    /// The tables, equal in both.
    pub fn tables(&self) -> Tables {
        let (p, q) = (&self.plain, &self.instr);
        assert_eq!(p.grid.values, q.grid.values);
        assert_eq!(p.neighbours.values, q.neighbours.values);
        assert_eq!(p.jump_point.values, q.jump_point.values);
        assert_eq!(p.components_dirty, q.components_dirty);
        if self.made {
            // the unchanged one's inside can only be seen by its Debug text
            assert_eq!(format!("{:?}", p.components), format!("{:?}", q.components));
        }
        Tables {
            w: q.grid.width,
            h: q.grid.height,
            dirty: q.components_dirty,
            blocked: q.grid.values.iter().map(|b| *b as u8).collect(),
            neighbours: q.neighbours.values.clone(),
            forced: q.jump_point.values.clone(),
            parent: q.components.parent.iter().map(|p| *p as u16).collect(),
            rank: q.components.rank.clone(),
        }
    }

    pub fn inside(&self, p: Point) -> bool {
        self.plain.index_in_bounds(p.x, p.y)
    }

    pub fn component(&self, p: Point) -> usize {
        let c = self.instr.get_component(&p);
        assert!(!self.made || c == self.plain.get_component(&p));
        c
    }

    /// The four questions as bits: reachable 1, unreachable 2, neighbours_reachable 4, neighbours_unreachable 8.
    pub fn questions(&self, s: Point, g: Point) -> u8 {
        let (p, q) = (&self.plain, &self.instr);
        let a = [
            p.reachable(&s, &g),
            p.unreachable(&s, &g),
            p.neighbours_reachable(&s, &g),
            p.neighbours_unreachable(&s, &g),
        ];
        let b = [
            q.reachable(&s, &g),
            q.unreachable(&s, &g),
            q.neighbours_reachable(&s, &g),
            q.neighbours_unreachable(&s, &g),
        ];
        assert_eq!(a, b);
        (0..4).map(|i| (a[i] as u8) << i).sum()
    }

    /// The answer by document 01, or nothing where the search was given up (see stats::MOST_REEXPANSIONS).
    pub fn search(&mut self, a: &Ask) -> Option<Answer> {
        let mut answer = Answer {
            result: 2,
            point: Point::new(0, 0),
            pops: 0,
            cost: 0,
            points: vec![],
        };
        if !self.legal {
            return Some(answer);
        }
        if let Some(no) = refused_before(a) {
            return Some(no);
        }
        self.settings(a);
        stats::reset();
        stats::set_limits(a.limits);
        let found = match a.kind {
            SEVERAL => self
                .instr
                .get_waypoints_multiple_goals(a.start, a.goals.iter().collect())
                .map(|(last, v)| {
                    assert_eq!(Some(&last), v.last());
                    v
                }),
            k => self
                .instr
                .get_waypoints_single_goal(a.start, a.goals[0], k == APPROXIMATE),
        };
        stats::set_limits(stats::NONE);
        let s = stats::get();
        if s.refused == stats::GIVEN_UP {
            return None;
        }
        self.unchanged_agrees(a, &found, s.refused);
        answer.pops = s.pops;
        answer.result = match (&found, s.refused) {
            (Some(_), _) => 0,
            (None, 0) => 4,
            (None, n) => n,
        };
        if let Some(v) = found {
            if v.len() > a.room {
                answer.result = 10;
            } else {
                answer.cost = s.goal_cost;
                answer.points = v;
            }
        }
        Some(answer)
    }

    fn settings(&mut self, a: &Ask) {
        self.diagonal(a.diagonal);
        self.plain.heuristic_factor = a.factor;
        self.instr.heuristic_factor = a.factor;
        self.plain.improved_pruning = a.improved;
        self.instr.improved_pruning = a.improved;
    }

    /// Where no limit was met, the unchanged Rust must say the same.
    fn unchanged_agrees(&self, a: &Ask, found: &Option<Vec<Point>>, refused: u8) {
        if !matches!(refused, 0 | 6) {
            return;
        }
        let p = &self.plain;
        let ask = || match a.kind {
            SEVERAL => p
                .get_waypoints_multiple_goals(a.start, a.goals.iter().collect())
                .map(|t| t.1),
            k => p.get_waypoints_single_goal(a.start, a.goals[0], k == APPROXIMATE),
        };
        assert_eq!(
            found,
            &ask(),
            "the instrumented Rust differs from the unchanged"
        );
    }
}
