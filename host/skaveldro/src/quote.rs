//! What a trip costs.

use crate::answer::{room, Answer};
use crate::numbers::{GIVEN, NOT_CLEAN, NO_PLAN, TOO_LONG};
use crate::{raw, Parts};

/// The answer to a quote.
#[derive(Clone, Copy, Debug, PartialEq, Eq, Hash)]
pub enum Quote {
    /// 4: the ride is over 2,678,400 seconds or 1,000,000 metres.
    TooLong,
    /// 5: the plans file is not clean, and why.
    NotClean(Parts),
    /// 6: no plan has that id.
    NoPlan,
    /// 0: the fare.
    Fare(Fare),
}

/// What a ride costs under a plan.
#[derive(Clone, Copy, Debug, PartialEq, Eq, Hash)]
pub struct Fare {
    /// In ten-thousandths of the plan's currency: 0 to 7,302,730,000,000,000, which is the most that the ceilings on money, segments,
    /// minutes and kilometres allow. Where discounts outweigh the price and the charges it is 0.
    pub amount: i64,
    /// Has the ride come to the end of all per-minute segments, past which the plan says no price?
    pub past_minutes: bool,
    /// The same of the per-kilometre segments.
    pub past_kilometres: bool,
}

/// What a ride of so many seconds and metres costs under the plan of that id, by the bytes of system_pricing_plans.
pub fn quote(plans: &[u8], id: &[u8], seconds: u64, metres: u64) -> Quote {
    let answer = Answer::<{ room(9) }>::to(|buffer| raw::quote(plans, id, seconds, metres, buffer));
    match answer.number {
        TOO_LONG => Quote::TooLong,
        NOT_CLEAN => Quote::NotClean(answer.parts()),
        NO_PLAN => Quote::NoPlan,
        GIVEN => {
            Quote::Fare(Fare { amount: answer.at(6).cast_signed(), past_minutes: answer.is(7), past_kilometres: answer.is(8) })
        }
        _ => answer.unknown(),
    }
}

impl Quote {
    /// The number of the answer.
    pub fn number(self) -> u8 {
        match self {
            Quote::TooLong => TOO_LONG,
            Quote::NotClean(_) => NOT_CLEAN,
            Quote::NoPlan => NO_PLAN,
            Quote::Fare(_) => GIVEN,
        }
    }
}
