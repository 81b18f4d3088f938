//! What the archive answers, unpacked: the one place that reads refusals out of numbers.
//!
//! Nothing here trusts the numbers: whatever they are, the answer is a value or a [`Refusal`].
#![deny(unsafe_code)]

use super::{Answer, Reply};
use crate::lent::{Found, VERSION};
use crate::{Check, Heading, Point, Refusal, SearchError};

/// The value, or the refusal with the one of two points that it concerns.
pub fn value(answer: u64, first: Point, second: Point) -> Result<u32, Refusal> {
    let high = answer >> 32;
    if high == 0 {
        return Ok(answer as u32);
    }
    let point = if high & 512 != 0 { second } else { first };
    Err(Refusal::of(high & 255, point))
}

/// The value of a call that takes no point.
pub fn plain(answer: u64) -> Result<u32, Refusal> {
    value(answer, Point::default(), Point::default())
}

/// Yes or no, of a call that takes two points.
pub fn yes(answer: u64, start: Point, goal: Point) -> Result<bool, Refusal> {
    value(answer, start, goal).map(|v| v != 0)
}

/// How one point lies from another.
pub fn heading(answer: u64, a: Point, b: Point) -> Result<Heading, Refusal> {
    let v = value(answer, a, b)?;
    let (direction, steps) = ((v & 7) as u8, v >> 4);
    Ok(match v & 8 {
        0 => Heading::Straight {
            direction,
            length: steps,
        },
        _ => Heading::Bent {
            direction,
            larger: steps,
        },
    })
}

/// The refusal of an answer, by its number; 0 is none.
fn accepted(refusal: u64, x: i32, y: i32) -> Result<(), Refusal> {
    match refusal {
        0 => Ok(()),
        number => Err(Refusal::of(number, Point::new(x, y))),
    }
}

/// How many points a list was expanded to.
pub fn listed(reply: Reply) -> Result<usize, Refusal> {
    accepted(reply.refusal, reply.x, reply.y)?;
    Ok(reply.value as usize)
}

/// What a route check says.
pub fn checked(check: super::Check) -> Result<Check, Refusal> {
    accepted(check.refusal, check.x, check.y)?;
    Ok(Check {
        clear: check.clear != 0,
        first_bent: (check.bent != 0).then_some(check.bent as usize),
    })
}

/// What a search found.
pub fn found(a: Answer) -> Result<Found, SearchError> {
    let pops = a.pops as u32;
    accepted(a.refusal, a.x, a.y).map_err(|refusal| SearchError { refusal, pops })?;
    Ok(Found {
        pops,
        cost: a.cost,
        waypoints: a.waypoints as usize,
    })
}

/// Stops with a sentence where an archive's version is not the one that this crate is written for.
#[track_caller]
pub fn same_version(archive: u32) {
    assert!(
        archive == VERSION,
        "barnsling: libboundary.a is of version {archive}, and this crate is written for version {VERSION}: \
         make the archive and the crate from the same sources"
    );
}
