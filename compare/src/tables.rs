//! Tables: runs of new, set, update and rebuild on lent tables, all of them compared after every step, and the questions.
use crate::lent::{fewer, Lent, POINT, SIZE, STATE};
use crate::Tally;
use grid_util::point::Point;
use tools::judge::{in_range, Both};
use tools::make::{any_tables, illegal_tables};
use tools::Rng;

fn any_point(w: i32, h: i32, r: &mut Rng) -> Point {
    match r.below(24) {
        0 => Point::new(r.range(-2, w + 1), r.range(-2, h + 1)),
        1 => Point::new(
            [-1025, 0, 1024, i32::MAX, i32::MIN][r.below(5) as usize],
            1023,
        ),
        _ => Point::new(r.range(0, w - 1), r.range(0, h - 1)),
    }
}

struct Run {
    both: Both,
    ours: Lent,
    bytes: Vec<u8>,
    diagonal: bool,
    told: String,
}

impl Run {
    fn hold(&mut self, t: &mut Tally, rust: u64, ours: u64, r: &mut Rng) {
        let mut now = self.both.tables();
        now.blocked = self.bytes.clone();
        let told = &self.told;
        t.hold((rust, &now), (ours, &self.ours.tables()), || told.clone());
        t.step();
        if !now.legal() {
            return;
        }
        let (w, h) = (self.ours.w as i32, self.ours.h as i32);
        for _ in 0..2 {
            let p = any_point(w, h, r);
            let rust = if self.both.inside(p) {
                self.both.component(p) as u64
            } else {
                POINT
            };
            t.hold(rust, self.ours.component(p), || {
                format!("{told} component {p:?}")
            });
            let rust = if self.both.inside(p) {
                (self.bytes[(p.y * w + p.x) as usize] != 0) as u64
            } else {
                POINT
            };
            t.hold(rust, self.ours.blocked_at(p), || {
                format!("{told} blocked {p:?}")
            });
            let (s, g) = (any_point(w, h, r), any_point(w, h, r));
            let rust = if !in_range(s) {
                [POINT + (256 << 32); 4]
            } else if !in_range(g) {
                [POINT + (512 << 32); 4]
            } else {
                let bits = self.both.questions(s, g) as u64;
                [bits & 1, bits >> 1 & 1, bits >> 2 & 1, bits >> 3 & 1]
            };
            let ours = self.ours.questions(self.diagonal, s, g);
            t.hold(rust, ours, || format!("{told} questions {s:?} {g:?}"));
        }
    }
    fn step(&mut self, t: &mut Tally, density: u64, r: &mut Rng) {
        let (w, h) = (self.ours.w as i32, self.ours.h as i32);
        let (rust, ours);
        match r.below(24) {
            0 => {
                self.told.push_str(" update");
                self.both.update();
                rust = 0;
                ours = self.ours.update(self.diagonal);
            }
            1 => {
                self.told.push_str(" rebuild");
                self.both.rebuild();
                rust = 0;
                ours = self.ours.rebuild(self.diagonal);
            }
            2 => {
                self.diagonal = r.pct(50);
                self.told.push_str(if self.diagonal {
                    " diagonal"
                } else {
                    " straight"
                });
                self.both.diagonal(self.diagonal);
                return;
            }
            _ => {
                let (p, b) = (any_point(w, h, r), r.pct(density));
                self.told
                    .push_str(&format!(" set {},{},{}", p.x, p.y, b as u8));
                if self.both.inside(p) {
                    self.both.set(p.x, p.y, b);
                    self.bytes[(p.y * w + p.x) as usize] = b as u8;
                    rust = self.both.instr.components_dirty as u64;
                } else {
                    rust = POINT;
                }
                ours = self.ours.set(self.diagonal, p, b);
            }
        }
        self.hold(t, rust, ours, r);
    }
}

fn side(r: &mut Rng) -> i32 {
    match r.below(100) {
        0..=39 => r.range(1, 4),
        40..=79 => r.range(1, 10),
        80..=95 => r.range(1, 24),
        _ => r.range(1, 64),
    }
}

/// Grids from new, and from legal tables that no calls made.
pub fn steps(t: &mut Tally, r: &mut Rng) {
    while t.more() {
        let mut run;
        if r.pct(80) {
            let (w, h) = (side(r) as usize, side(r) as usize);
            run = Run {
                both: Both::new(w, h),
                ours: Lent::room(w, h, r),
                bytes: vec![0; w * h],
                diagonal: true,
                told: format!("new {w} {h}"),
            };
            run.ours.lengthen(r);
            let ours = run.ours.new_grid();
            run.hold(t, 0, ours, r);
        } else {
            let s = side(r).min(24);
            let tables = any_tables(s, r);
            run = Run {
                both: Both::of_tables(&tables),
                ours: Lent::of_tables(&tables),
                bytes: tables.blocked.clone(),
                diagonal: true,
                told: format!("{tables:?}"),
            };
            run.ours.lengthen(r);
        }
        run.both.diagonal(run.diagonal);
        let density = r.range(10, 70) as u64;
        for _ in 0..r.range(1, 40) {
            if !run.ours.tables().legal() {
                break;
            }
            run.step(t, density, r);
        }
        run.ours.guards_hold();
    }
}

/// Illegal and short tables, sides out of range: refused, and nothing is written.
pub fn refusals(t: &mut Tally, r: &mut Rng) {
    while t.more() {
        if r.pct(40) {
            let tables = any_tables(6, r);
            let k = r.below(5);
            let mut ours = Lent::of_tables(&tables);
            ours.lengthen(r);
            ours.shorten(k as usize, fewer(tables.blocked.len(), r));
            refused(t, ours, k >= 3, r, &format!("{tables:?} short {k}"), k);
        } else {
            let tables = illegal_tables(6, r);
            let mut ours = Lent::of_tables(&tables);
            ours.lengthen(r);
            refused(t, ours, true, r, &format!("{tables:?}"), 9);
        }
    }
}
fn refused(t: &mut Tally, mut ours: Lent, links: bool, r: &mut Rng, told: &str, short: u64) {
    t.step();
    let before = ours.tables();
    let (d, p, g) = (r.pct(50), any_point(4, 4, r), any_point(4, 4, r));
    t.hold(STATE, ours.set(d, p, r.pct(50)), || format!("{told} set"));
    if links || short == 0 {
        t.hold(STATE, ours.rebuild(d), || format!("{told} rebuild"));
        t.hold(STATE, ours.update(d), || format!("{told} update"));
        t.hold(STATE, ours.blocked_at(p), || format!("{told} blocked"));
    }
    if links {
        t.hold(STATE, ours.component(p), || format!("{told} component"));
        t.hold([STATE; 4], ours.questions(d, p, g), || {
            format!("{told} questions")
        });
    }
    if short < 5 {
        t.hold(STATE, ours.new_grid(), || format!("{told} new"));
    } else if ours.w < 1 || ours.h < 1 || ours.w > 64 || ours.h > 64 {
        t.hold(SIZE, ours.new_grid(), || format!("{told} new"));
    }
    t.hold(&before, &ours.tables(), || format!("{told} written"));
    ours.guards_hold();
}
