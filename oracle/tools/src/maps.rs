//! The map program of document 01 over the Rust: its text read, its answer written.

use crate::judge::clear;
use crate::stats;
use grid_pathfinding as plain;
use grid_pathfinding_instr as instr;
use grid_util::grid::ValueGrid;
use grid_util::point::Point;

#[derive(Clone, Debug)]
pub struct Map {
    pub w: i32,
    pub h: i32,
    pub diagonal: bool,
    pub start: Point,
    pub goal: Point,
    pub blocked: Vec<bool>,
}

impl Map {
    pub fn text(&self) -> String {
        let mut s = format!(
            "width={}\nheight={}\ndiagonal={}\nstart={},{}\ngoal={},{}\n",
            self.w,
            self.h,
            self.diagonal as u8,
            self.start.x,
            self.start.y,
            self.goal.x,
            self.goal.y
        );
        for y in 0..self.h {
            s.push_str("row=");
            for x in 0..self.w {
                s.push(if self.blocked[(y * self.w + x) as usize] {
                    '#'
                } else {
                    '.'
                })
            }
            s.push('\n');
        }
        s
    }
}
fn natural(s: &[u8]) -> Option<i64> {
    if s.is_empty() || s.len() > 9 || (s.len() > 1 && s[0] == b'0') {
        return None;
    }
    let mut n = 0i64;
    for c in s {
        if !c.is_ascii_digit() {
            return None;
        }
        n = n * 10 + (*c - b'0') as i64
    }
    Some(n)
}
fn size(s: &[u8]) -> Option<i32> {
    natural(s)
        .filter(|n| (1..=64).contains(n))
        .map(|n| n as i32)
}
fn coordinate(s: &[u8]) -> Option<i32> {
    let v = if s.first() == Some(&b'-') {
        let n = natural(&s[1..])?;
        if n == 0 {
            return None;
        }
        -n
    } else {
        natural(s)?
    };
    if (-1024..=1023).contains(&v) {
        Some(v as i32)
    } else {
        None
    }
}
fn pair(s: &[u8]) -> Option<Point> {
    let c = s.iter().position(|b| *b == b',')?;
    Some(Point::new(coordinate(&s[..c])?, coordinate(&s[c + 1..])?))
}
/// Err(line): the first bad or missing line from 1, or 0 if too long
pub fn parse(input: &[u8]) -> Result<Map, usize> {
    if input.len() > 8192 {
        return Err(0);
    }
    let mut at = 0;
    let mut line_no = 0;
    let mut line = || -> Result<(usize, &[u8]), usize> {
        line_no += 1;
        match input[at..].iter().position(|b| *b == b'\n') {
            None => Err(line_no),
            Some(e) => {
                let l = &input[at..at + e];
                at += e + 1;
                Ok((line_no, l))
            }
        }
    };
    fn after<'a>(l: (usize, &'a [u8]), key: &str) -> Result<&'a [u8], usize> {
        l.1.strip_prefix(key.as_bytes()).ok_or(l.0)
    }
    let w = size(after(line()?, "width=")?).ok_or(1usize)?;
    let h = size(after(line()?, "height=")?).ok_or(2usize)?;
    let diagonal = match after(line()?, "diagonal=")? {
        b"0" => false,
        b"1" => true,
        _ => return Err(3),
    };
    let start = pair(after(line()?, "start=")?).ok_or(4usize)?;
    let goal = pair(after(line()?, "goal=")?).ok_or(5usize)?;
    let mut blocked = Vec::new();
    for _ in 0..h {
        let l = line()?;
        let r = after(l, "row=")?;
        if r.len() != w as usize {
            return Err(l.0);
        }
        for c in r {
            blocked.push(match c {
                b'.' => false,
                b'#' => true,
                _ => return Err(l.0),
            })
        }
    }
    if at != input.len() {
        return Err(h as usize + 6);
    }
    Ok(Map {
        w,
        h,
        diagonal,
        start,
        goal,
        blocked,
    })
}
pub fn plain_grid(m: &Map) -> plain::PathingGrid {
    let mut g = plain::PathingGrid::new(m.w as usize, m.h as usize, false);
    g.allow_diagonal_move = m.diagonal;
    for y in 0..m.h {
        for x in 0..m.w {
            if m.blocked[(y * m.w + x) as usize] {
                g.set(x, y, true)
            }
        }
    }
    g.generate_components();
    g
}
pub fn instr_grid(m: &Map) -> instr::PathingGrid {
    let mut g = instr::PathingGrid::new(m.w as usize, m.h as usize, false);
    g.allow_diagonal_move = m.diagonal;
    for y in 0..m.h {
        for x in 0..m.w {
            if m.blocked[(y * m.w + x) as usize] {
                g.set(x, y, true)
            }
        }
    }
    g.generate_components();
    g
}
pub struct Routed {
    pub out: String,
    pub result: u32,
    pub stats: stats::Stats,
    pub points: Vec<Point>,
    pub map: Option<Map>,
}
/// What document 01 says `route` prints, with document 02's `clear=`. The unchanged library answers too and must agree.
pub fn route(input: &[u8], limits: stats::Limits) -> Routed {
    stats::reset();
    let m = match parse(input) {
        Err(n) => {
            return Routed {
                out: format!("result=12\nline={}\n", n),
                result: 12,
                stats: stats::get(),
                points: vec![],
                map: None,
            }
        }
        Ok(m) => m,
    };
    let g = instr_grid(&m);
    stats::set_limits(limits);
    let found = g.get_waypoints_single_goal(m.start, m.goal, false);
    stats::set_limits(stats::NONE);
    let st = stats::get();
    let p = plain_grid(&m);
    if st.refused == 0 || st.refused == 6 {
        assert_eq!(
            found,
            p.get_waypoints_single_goal(m.start, m.goal, false),
            "instrumented differs from unchanged"
        );
    }
    let result: u32 = match (&found, st.refused) {
        (Some(_), _) => 0,
        (None, 0) => 4,
        (None, n) => n as u32,
    };
    let points = found.unwrap_or_default();
    let clear = result == 0 && clear(m.w, m.h, &m.blocked, &points);
    let mut out = format!(
        "result={}\npops={}\nwaypoints={}\nclear={}\n",
        result,
        st.pops,
        points.len(),
        clear as u8
    );
    for q in &points {
        out.push_str(&format!("point={},{}\n", q.x, q.y))
    }
    Routed {
        out,
        result,
        stats: st,
        points,
        map: Some(m),
    }
}
