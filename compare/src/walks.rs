//! Paths, route checks, map texts and what the tables hold of a cell. The path is the Rust's; what is clear and what is bent are document 02's, the text's form and the refusals are document 01's.
use crate::lent::{at, fewer, Lent, POINT, STATE};
use crate::Tally;
use barnsling::lent::TEXT_ROOM;
use barnsling::raw::{self, Reply};
use grid_pathfinding::waypoints_to_path;
use grid_util::point::Point;
use tools::ground::pruned;
use tools::judge::{check, list_refused, Check, Tables};
use tools::make::{
    any_numbers, any_tables, check_numbers, damage, gen_map, illegal_tables, points_of, text_case,
};
use tools::{maps, stats, Rng};

const UNTOUCHED: i32 = -70_007;

fn reply(no: (u8, Point), value: u64) -> Reply {
    Reply {
        refusal: no.0 as u64,
        value,
        x: no.1.x,
        y: no.1.y,
    }
}
const ACCEPTED: (u8, Point) = (0, Point { x: 0, y: 0 });

/// The reply, the points written, and that the rest of the room is untouched.
pub fn paths(t: &mut Tally, r: &mut Rng) {
    let mut out = vec![UNTOUCHED; 40_000];
    while t.more() {
        let v = any_numbers(9, 24, 24, r);
        let no = list_refused(&v);
        let walked = if no.is_some() {
            vec![]
        } else {
            waypoints_to_path(points_of(&v))
        };
        let numbers = match r.below(8) {
            0 => (2 * walked.len()).saturating_sub(r.range(1, 3) as usize),
            1 => 2 * walked.len() + r.below(2) as usize,
            _ => out.len() - 1,
        };
        let no = no.unwrap_or(if 2 * walked.len() > numbers {
            (10, Point::new(0, 0))
        } else {
            ACCEPTED
        });
        let walked = if no.0 == 0 { walked } else { vec![] };
        let ours = raw::waypoints_to_path(&v, &mut out[..numbers]);
        t.hold(reply(no, walked.len() as u64), ours, || {
            format!("path {v:?} in {numbers}")
        });
        let written = 2 * (ours.value as usize);
        t.hold(&walked, &points_of(&out[..written]), || {
            format!("path {v:?} in {numbers}")
        });
        out[..written].fill(UNTOUCHED);
        assert!(
            out.iter().all(|n| *n == UNTOUCHED),
            "output written beyond the path"
        );
        t.step();
    }
}

/// Tables that are a grid, or, told by the flag, that are none; at times a table is lent short.
fn some_tables(r: &mut Rng, tables_read: &[usize]) -> (Tables, Lent, bool) {
    if r.pct(10) {
        let tables = illegal_tables(6, r);
        let mut ours = Lent::of_tables(&tables);
        ours.lengthen(r);
        return (tables, ours, false);
    }
    let side = if r.pct(1) { 64 } else { r.range(1, 12) };
    let tables = any_tables(side, r);
    let mut ours = Lent::of_tables(&tables);
    ours.lengthen(r);
    let k = r.below(50) as usize;
    if k < 5 {
        ours.shorten(k, fewer(tables.blocked.len(), r));
    }
    (tables, ours, !tables_read.contains(&k))
}

/// The judge's answer as it crosses the boundary.
fn checked(judge: Check) -> raw::Check {
    raw::Check {
        refusal: judge.result as u64,
        clear: judge.clear as u64,
        bent: judge.bent as u64,
        x: judge.point.x,
        y: judge.point.y,
    }
}

/// Whether the way is clear, its first bent leg, or the refusal with its point; and that no table is written.
pub fn checks(t: &mut Tally, r: &mut Rng) {
    while t.more() {
        let (tables, ours, legal) = some_tables(r, &[0, 3, 4]);
        let (w, h) = (tables.w as i32, tables.h as i32);
        let blocked: Vec<bool> = tables.blocked.iter().map(|b| *b != 0).collect();
        for _ in 0..4 {
            let v = if legal {
                check_numbers(w, h, &blocked, r)
            } else {
                any_numbers(6, w.max(1), h.max(1), r)
            };
            let judge = if legal {
                check(w, h, &blocked, &v)
            } else {
                Check::refused(2, Point::new(0, 0))
            };
            *t.results.entry(judge.result).or_default() += 1;
            let got = raw::check_route(ours.cells(), &v);
            t.hold(checked(judge), got, || format!("check {v:?} on {tables:?}"));
            t.step();
        }
        t.hold(&tables, &ours.tables(), || format!("written {tables:?}"));
        ours.guards_hold();
    }
}

/// One table is read for each question about a cell: what it holds, or STATE, or POINT.
pub fn cells(t: &mut Tally, r: &mut Rng) {
    while t.more() {
        let table = r.below(3) as usize;
        let (tables, ours, legal) = some_tables(r, &[table, 3, 4]);
        let (w, h) = (tables.w as i32, tables.h as i32);
        for _ in 0..4 {
            let p = match r.below(12) {
                0 => Point::new([i32::MIN, -1, 1024][r.below(3) as usize], 0),
                _ => Point::new(r.range(-1, w.min(64)), r.range(-1, h.min(64))),
            };
            let inside = p.x >= 0 && p.y >= 0 && p.x < w && p.y < h;
            let read = |v: &[u8]| match (legal, inside) {
                (false, _) => STATE,
                (true, false) => POINT,
                (true, true) => v[(p.y * w + p.x) as usize] as u64,
            };
            let told = || format!("table {table} at {p:?} of {tables:?}");
            match table {
                0 => {
                    let byte = read(&tables.blocked);
                    let rust = if byte < 256 { (byte != 0) as u64 } else { byte };
                    t.hold(rust, ours.blocked_at(p), told);
                }
                1 => {
                    let mask = read(&tables.neighbours);
                    t.hold(mask, raw::neighbours_at(ours.cells(), at(p)), told);
                    let (diagonal, d) = (r.pct(50), r.below(256) as u8);
                    let rust = if mask < 256 {
                        pruned(diagonal, d as i32 % 8, mask as u8) as u64
                    } else {
                        mask
                    };
                    t.hold(rust, raw::pruned_at(ours.cells(), diagonal, at(p), d), told);
                }
                _ => t.hold(
                    read(&tables.forced),
                    raw::forced_at(ours.cells(), at(p)),
                    told,
                ),
            }
            t.step();
        }
        t.hold(&tables, &ours.tables(), || format!("written {tables:?}"));
        ours.guards_hold();
    }
}

/// Whole and damaged texts; the bytes printed, and that the rest of the room is untouched.
pub fn texts(t: &mut Tally, r: &mut Rng) {
    let seed = r.next();
    let mut out = vec![0xA5; TEXT_ROOM + 9];
    while t.more() {
        let text = match t.steps % 2 {
            0 => text_case(seed, t.steps / 2).0,
            _ => damage(&gen_map("tiny", r), r).0,
        };
        let rust = maps::route(&text, stats::LARGEST).out.into_bytes();
        let told = || format!("text {:?}", String::from_utf8_lossy(&text));
        let room = TEXT_ROOM + r.below(9) as usize;
        let written = raw::route_text(&text, &mut out[..room]);
        t.hold(rust.len() as u64, written, told);
        let written = (written as usize).min(room);
        t.hold(&rust[..], &out[..written], told);
        out[..written].fill(0xA5);
        assert!(
            out.iter().all(|b| *b == 0xA5),
            "output written beyond the text"
        );
        let short = r.below(TEXT_ROOM as u64) as usize;
        t.hold(10 << 32, raw::route_text(&text, &mut out[..short]), || {
            format!("room of {short}")
        });
        assert!(
            out.iter().all(|b| *b == 0xA5),
            "output written where refused"
        );
        t.step();
    }
}
