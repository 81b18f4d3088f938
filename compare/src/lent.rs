//! Tables and rooms lent to the archive, with guards beyond what it may write. The calls are those of `barnsling::raw`: what
//! they answer is compared as it crosses the boundary.
use barnsling::lent::{Cells, CellsMut, Links, LinksMut};
use barnsling::raw;
use grid_util::point::Point;
use tools::judge::Tables;
#[cfg(feature = "searches")]
use tools::judge::{Ask, APPROXIMATE, SEVERAL};
use tools::Rng;

pub const SIZE: u64 = 1 << 32;
pub const STATE: u64 = 2 << 32;
pub const POINT: u64 = 14 << 32;

pub fn at(p: Point) -> barnsling::Point {
    barnsling::Point::new(p.x, p.y)
}

/// A length that is too short where so many are needed: as a rule by one.
pub fn fewer(need: usize, r: &mut Rng) -> usize {
    match r.pct(60) {
        true => need - 1,
        false => r.below(need as u64) as usize,
    }
}

/// Guard entries past every table and room.
const GUARD: usize = 4;

/// A grid's tables. Guards follow the cells, and more guards the longest that is ever lent.
pub struct Lent {
    pub w: usize,
    pub h: usize,
    pub dirty: bool,
    pub blocked: Vec<u8>,
    pub neighbours: Vec<u8>,
    pub forced: Vec<u8>,
    pub parent: Vec<u16>,
    pub rank: Vec<u8>,
    /// how many entries of each table are lent
    pub len: [usize; 5],
    cells: usize,
}
impl Lent {
    /// Room for a new grid, full of anything.
    pub fn room(w: usize, h: usize, r: &mut Rng) -> Lent {
        let n = w * h;
        let mut any = || -> Vec<u8> { (0..n).map(|_| r.next() as u8).collect() };
        Lent::guarded(Tables {
            w,
            h,
            dirty: false,
            blocked: any(),
            neighbours: any(),
            forced: any(),
            parent: any().iter().map(|b| *b as u16 * 257).collect(),
            rank: any(),
        })
    }
    pub fn of_tables(t: &Tables) -> Lent {
        Lent::guarded(t.clone())
    }
    fn guarded(t: Tables) -> Lent {
        let cells = t.blocked.len();
        let mut l = Lent {
            w: t.w,
            h: t.h,
            dirty: t.dirty,
            blocked: t.blocked,
            neighbours: t.neighbours,
            forced: t.forced,
            parent: t.parent,
            rank: t.rank,
            len: [cells; 5],
            cells,
        };
        for v in l.bytes_mut() {
            v.resize(cells + 2 * GUARD, 0xA5);
        }
        l.parent.resize(cells + 2 * GUARD, 0xA5A5);
        l
    }
    /// Lends one table short.
    pub fn shorten(&mut self, table: usize, len: usize) {
        self.len[table] = len;
    }
    /// Lends some tables longer than the cells; what follows the cells is not to be read as cells, nor written.
    pub fn lengthen(&mut self, r: &mut Rng) {
        if r.pct(50) {
            self.len = [(); 5].map(|()| self.cells + r.below(GUARD as u64 + 1) as usize);
        }
    }
    fn bytes_mut(&mut self) -> [&mut Vec<u8>; 4] {
        [
            &mut self.blocked,
            &mut self.neighbours,
            &mut self.forced,
            &mut self.rank,
        ]
    }
    pub fn guards_hold(&self) {
        let n = self.cells;
        for v in [&self.blocked, &self.neighbours, &self.forced, &self.rank] {
            assert!(v[n..].iter().all(|b| *b == 0xA5), "written past the end");
        }
        assert!(
            self.parent[n..].iter().all(|p| *p == 0xA5A5),
            "written past the end"
        );
    }
    pub fn tables(&self) -> Tables {
        let n = self.cells;
        Tables {
            w: self.w,
            h: self.h,
            dirty: self.dirty,
            blocked: self.blocked[..n].to_vec(),
            neighbours: self.neighbours[..n].to_vec(),
            forced: self.forced[..n].to_vec(),
            parent: self.parent[..n].to_vec(),
            rank: self.rank[..n].to_vec(),
        }
    }
    pub fn cells(&self) -> Cells<'_> {
        let l = self.len;
        Cells {
            width: self.w,
            height: self.h,
            blocked: &self.blocked[..l[0]],
            neighbours: &self.neighbours[..l[1]],
            forced: &self.forced[..l[2]],
            parent: &self.parent[..l[3]],
            rank: &self.rank[..l[4]],
        }
    }
    fn cells_mut(&mut self) -> CellsMut<'_> {
        let l = self.len;
        CellsMut {
            width: self.w,
            height: self.h,
            blocked: &mut self.blocked[..l[0]],
            neighbours: &mut self.neighbours[..l[1]],
            forced: &mut self.forced[..l[2]],
            parent: &mut self.parent[..l[3]],
            rank: &mut self.rank[..l[4]],
        }
    }
    fn links(&self) -> Links<'_> {
        let Cells {
            width,
            height,
            parent,
            rank,
            ..
        } = self.cells();
        Links {
            width,
            height,
            parent,
            rank,
        }
    }
    fn links_mut(&mut self) -> LinksMut<'_> {
        let CellsMut {
            width,
            height,
            blocked,
            parent,
            rank,
            ..
        } = self.cells_mut();
        LinksMut {
            width,
            height,
            blocked,
            parent,
            rank,
        }
    }
    /// Keeps the dirty mark that a call answers.
    fn marked(&mut self, v: u64) -> u64 {
        if v < 2 {
            self.dirty = v == 1;
        }
        v
    }
    pub fn new_grid(&mut self) -> u64 {
        let v = raw::new(self.cells_mut());
        self.marked(v)
    }
    pub fn set(&mut self, diagonal: bool, p: Point, b: bool) -> u64 {
        let dirty = self.dirty;
        let v = raw::set(self.cells_mut(), diagonal, dirty, at(p), b);
        self.marked(v)
    }
    pub fn rebuild(&mut self, diagonal: bool) -> u64 {
        let v = raw::rebuild(self.links_mut(), diagonal);
        self.marked(v)
    }
    pub fn update(&mut self, diagonal: bool) -> u64 {
        let dirty = self.dirty;
        let v = raw::update(self.links_mut(), diagonal, dirty);
        self.marked(v)
    }
    pub fn component(&self, p: Point) -> u64 {
        raw::component(self.links(), at(p))
    }
    pub fn blocked_at(&self, p: Point) -> u64 {
        raw::blocked_at(self.cells(), at(p))
    }
    #[cfg(feature = "bench")]
    pub fn reachable(&self, s: Point, g: Point) -> u64 {
        raw::reachable(self.links(), at(s), at(g))
    }
    pub fn questions(&self, diagonal: bool, s: Point, g: Point) -> [u64; 4] {
        let (t, s, g) = (self.links(), at(s), at(g));
        [
            raw::reachable(t, s, g),
            raw::unreachable(t, s, g),
            raw::neighbours_reachable(t, diagonal, s, g),
            raw::neighbours_unreachable(t, diagonal, s, g),
        ]
    }
}

/// How many entries are lent of number, place, parent, cost, keys and idx, and of the output.
#[cfg(feature = "searches")]
#[derive(Clone, Copy, Debug, PartialEq)]
pub struct Lengths {
    pub rooms: [usize; 6],
    pub out: usize,
}
/// What is enough for every search.
#[cfg(feature = "searches")]
pub const LARGEST_ROOMS: [usize; 6] = [PLACES, PLACES, PLACES, PLACES, FRINGE, FRINGE];
#[cfg(feature = "searches")]
const PLACES: usize = 4097;
#[cfg(feature = "searches")]
const FRINGE: usize = 8192;

/// Working room and output for searches, with guards past what is lent of them.
#[cfg(feature = "searches")]
pub struct Rooms {
    pub number: Vec<u32>,
    pub place: Vec<u32>,
    pub parent: Vec<u32>,
    pub cost: Vec<u64>,
    pub keys: Vec<u64>,
    pub idx: Vec<u32>,
    pub out: Vec<i32>,
}
#[cfg(feature = "searches")]
impl Rooms {
    pub fn new() -> Rooms {
        Rooms {
            number: vec![7; PLACES + GUARD],
            place: vec![7; PLACES + GUARD],
            parent: vec![7; PLACES + GUARD],
            cost: vec![7; PLACES + GUARD],
            keys: vec![7; FRINGE + GUARD],
            idx: vec![7; FRINGE + GUARD],
            out: vec![-7; 8200],
        }
    }
    fn lend(&mut self, lengths: Lengths) -> barnsling::lent::Room<'_> {
        let [number, place, parent, cost, keys, idx] = lengths.rooms;
        barnsling::lent::Room {
            number: &mut self.number[..number],
            place: &mut self.place[..place],
            parent: &mut self.parent[..parent],
            cost: &mut self.cost[..cost],
            keys: &mut self.keys[..keys],
            idx: &mut self.idx[..idx],
            out: &mut self.out[..lengths.out],
        }
    }
    /// The entries that follow what is lent.
    fn guards(&mut self, lengths: Lengths) -> ([&mut [u32]; 4], [&mut [u64]; 2]) {
        let [number, place, parent, cost, keys, idx] = lengths.rooms.map(|n| n..n + GUARD);
        (
            [
                &mut self.number[number],
                &mut self.place[place],
                &mut self.parent[parent],
                &mut self.idx[idx],
            ],
            [&mut self.cost[cost], &mut self.keys[keys]],
        )
    }
    fn guard(&mut self, lengths: Lengths) {
        let (small, large) = self.guards(lengths);
        small.into_iter().for_each(|v| v.fill(7));
        large.into_iter().for_each(|v| v.fill(7));
    }
    fn guards_hold(&mut self, lengths: Lengths) {
        let (small, large) = self.guards(lengths);
        let hold = small.iter().all(|v| v.iter().all(|n| *n == 7))
            && large.iter().all(|v| v.iter().all(|n| *n == 7));
        assert!(hold, "working room written past its end");
    }
    /// A search on lent tables, as it comes back.
    pub fn route(&mut self, l: &Lent, a: &Ask, goals: &[i32], lengths: Lengths) -> raw::Answer {
        let limits = barnsling::Limits::default()
            .with_depth(a.limits.depth as usize)
            .with_pops(a.limits.pops as usize)
            .with_fringe(a.limits.fringe);
        let s = barnsling::Settings::default()
            .with_factor(a.factor)
            .with_diagonal(a.diagonal)
            .with_improved(a.improved)
            .with_limits(limits);
        let room = self.lend(lengths);
        if a.kind == SEVERAL {
            return raw::multiple_goals(l.cells(), room, &s, at(a.start), goals);
        }
        let goal = barnsling::Point::new(goals[0], goals[1]);
        raw::single_goal(
            l.cells(),
            room,
            &s,
            at(a.start),
            goal,
            a.kind == APPROXIMATE,
        )
    }
    /// The same with its waypoints; what follows the rooms and the waypoints must be untouched.
    pub fn search(&mut self, l: &Lent, a: &Ask, lengths: Lengths) -> (raw::Answer, Vec<Point>) {
        let mut goals: Vec<i32> = a.goals.iter().flat_map(|p| [p.x, p.y]).collect();
        if a.odd {
            goals.push(0);
        }
        self.guard(lengths);
        let got = self.route(l, a, &goals, lengths);
        let written = 2 * got.waypoints as usize;
        let points = tools::make::points_of(&self.out[..written]);
        self.out[..written].fill(-7);
        assert!(
            self.out.iter().all(|v| *v == -7),
            "output written beyond the waypoints"
        );
        self.guards_hold(lengths);
        (got, points)
    }
}
