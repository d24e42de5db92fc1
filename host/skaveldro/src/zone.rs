//! What zone rules allow.

use crate::answer::{room, Answer};
use crate::numbers::{GIVEN, NOT_CLEAN, NO_RULE, OFF_MAP};
use crate::{raw, Parts};

/// A point in millionths of a degree.
#[derive(Clone, Copy, Debug, PartialEq, Eq, Hash)]
pub struct Point {
    pub lon: i64,
    pub lat: i64,
}

/// The answer to a zone question.
#[derive(Clone, Copy, Debug, PartialEq, Eq, Hash)]
pub enum Ruling {
    /// 8: the point is off the map.
    OffMap,
    /// 5: the zones file is not clean, and why.
    NotClean(Parts),
    /// 9: none of the rules applies.
    NoRule,
    /// 0: what the rules that apply give together.
    Is(Rule),
}

/// Four values, each from the first rule in file order that applies and gives it.
#[derive(Clone, Copy, Debug, PartialEq, Eq, Hash)]
pub struct Rule {
    /// May a ride start and end here?
    pub ride: bool,
    /// May a ride pass through?
    pub through: bool,
    /// The most kilometres an hour, if a rule gives it.
    pub speed: Option<u64>,
    /// Does parking need a station, if a rule says?
    pub parking: Option<bool>,
}

/// What the rules at a point give together for a vehicle type at a moment, by the bytes of geofencing_zones.
///
/// A zone is where any of its polygons is. The edges of all rings of a polygon are in it; what a further ring encloses is not, whichever way
/// that ring winds; for the rest the first ring decides: clockwise it holds its inside, counterclockwise its outside.
pub fn zone_rule(zones: &[u8], point: Point, type_id: &[u8], moment: u64) -> Ruling {
    let answer = Answer::<{ room(12) }>::to(|buffer| raw::zone_rule(zones, point.lon, point.lat, type_id, moment, buffer));
    match answer.number {
        OFF_MAP => Ruling::OffMap,
        NOT_CLEAN => Ruling::NotClean(answer.parts()),
        NO_RULE => Ruling::NoRule,
        GIVEN => Ruling::Is(Rule {
            ride: answer.is(6),
            through: answer.is(7),
            speed: answer.is(8).then(|| answer.at(9)),
            parking: answer.is(10).then(|| answer.is(11)),
        }),
        _ => answer.unknown(),
    }
}

impl Ruling {
    /// The number of the answer.
    pub fn number(self) -> u8 {
        match self {
            Ruling::OffMap => OFF_MAP,
            Ruling::NotClean(_) => NOT_CLEAN,
            Ruling::NoRule => NO_RULE,
            Ruling::Is(_) => GIVEN,
        }
    }
}
