//! Masks, directions and distances.
use crate::lent::at;
use crate::Tally;
use barnsling::raw;
use grid_util::point::Point;
use tools::ground::{
    any_factor, any_point, distance, forced, heading, lined, pruned, refused_factors, scaled,
    REFUSED,
};
use tools::Rng;

/// The judge's answer as it crosses the boundary, by the header's rule: the value, or 2^32 times the refusal's number, with
/// 256 or 512 more for the first or second point with POINT alone.
fn packed(judge: u32) -> u64 {
    if judge < REFUSED {
        return judge as u64;
    }
    let (number, which) = (judge & 255, judge & (256 + 512));
    let high = if number == 14 { number + which } else { number };
    (high as u64) << 32
}

/// Every mask, once.
pub fn masks(t: &mut Tally, _: &mut Rng) {
    for m in 0..=255 {
        t.hold(forced(m), raw::forced_mask(m), || format!("forced {m}"));
        for d in 0..=255u8 {
            for diagonal in [false, true] {
                let rust = pruned(diagonal, d as i32 % 8, m);
                let ours = raw::pruned_mask(diagonal, d, m);
                t.hold(rust, ours, || format!("pruned {diagonal} {d} {m}"));
            }
        }
        t.step();
    }
}
/// The direction from one point to another, with its kind and length.
fn direction(t: &mut Tally, a: Point, b: Point) {
    let rust = packed(heading(a, b));
    t.hold(rust, raw::direction(at(a), at(b)), || {
        format!("{a:?} {b:?}")
    });
    t.step();
}

/// The largest of the differences that are all asked.
const NEAR: i32 = 60;
/// Where they start, along each axis: at both ends of the range, from which some lead out, so far within that none does, and in the middle.
const STARTS: [i32; 5] = [-1024, NEAR - 1024, 0, 1023 - NEAR, 1023];
/// How many pairs that makes.
pub const NEAR_PAIRS: u64 = (STARTS.len() as i32 * (2 * NEAR + 1)).pow(2) as u64;

/// Every small difference, from each start.
pub fn near_directions(t: &mut Tally, _: &mut Rng) {
    let along = || {
        STARTS
            .into_iter()
            .flat_map(|a| (-NEAR..=NEAR).map(move |d| (a, a + d)))
    };
    for (ay, by) in along() {
        for (ax, bx) in along() {
            direction(t, Point::new(ax, ay), Point::new(bx, by));
        }
    }
}
/// Any two points, the same point twice, and points in line or nearly so.
pub fn directions(t: &mut Tally, r: &mut Rng) {
    while t.more() {
        let a = any_point(r);
        match r.below(20) {
            0 => direction(t, a, a),
            1..=10 => direction(t, a, any_point(r)),
            _ => {
                let (a, b) = lined(r);
                direction(t, a, b);
            }
        }
    }
}
pub fn distances(t: &mut Tally, r: &mut Rng) {
    while t.more() {
        let (a, b, diagonal) = (any_point(r), any_point(r), r.pct(50));
        let rust = packed(distance(diagonal, a, b));
        t.hold(rust, raw::distance(diagonal, at(a), at(b)), || {
            format!("{diagonal} {a:?} {b:?}")
        });
        let factor = if r.pct(5) {
            refused_factors()[r.below(8) as usize]
        } else {
            any_factor(r)
        };
        let rust = packed(scaled(diagonal, a, b, factor));
        let ours = raw::scaled_distance(diagonal, factor, at(a), at(b));
        t.hold(rust, ours, || format!("{diagonal} {a:?} {b:?} {factor:?}"));
        t.step();
    }
}
