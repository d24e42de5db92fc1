//! The quote of a trip under a plan.

use crate::clean::{clean, Row};
use crate::decimal::TEN_THOUSANDTH;
use crate::Parts;

/// The answer to a quote.
#[derive(Clone, Copy, Debug, PartialEq, Eq, Hash)]
pub enum Quote {
    /// 4: the ride is past the longest that is quoted.
    TooLong,
    /// 5: the plans file is not clean.
    NotClean(Parts),
    /// 6: no plan has that id.
    NoPlan,
    /// 0: the amount in ten-thousandths, never negative, and whether the ride is past all that the plan's segments cover.
    Fare { amount: i64, past_minutes: bool, past_kilometres: bool },
}

const MOST_SECONDS: u64 = 2_678_400;
const MOST_METRES: u64 = 1_000_000;

/// What a ride of so many seconds and metres costs under the plan of that id.
pub fn quote(plans: &[u8], id: &[u8], seconds: u64, metres: u64) -> Quote {
    if seconds > MOST_SECONDS || metres > MOST_METRES {
        return Quote::TooLong;
    }
    let plans = match clean(5, plans) {
        Ok(plans) => plans,
        Err(parts) => return Quote::NotClean(parts),
    };
    let Some(plan) = plans.rows().find(|plan| plan.text(50) == Some(id)) else { return Quote::NoPlan };
    let kilometres = Leg { length: metres / 1000, segments: segments(plan, 56) };
    let minutes = Leg { length: seconds / 60, segments: segments(plan, 61) };
    let price = plan.decimal(53).unwrap_or(0) / TEN_THOUSANDTH;
    let sum = price + kilometres.charges() + minutes.charges();
    let amount = i64::try_from(sum.max(0)).expect("the ceilings keep every amount in 64 bits");
    Quote::Fare { amount, past_minutes: minutes.is_past(), past_kilometres: kilometres.is_past() }
}

/// A ride's length in one measure, and the segments that charge by it.
struct Leg {
    length: u64,
    segments: Vec<Segment>,
}

struct Segment {
    start: u64,
    /// In ten-thousandths.
    rate: i128,
    interval: u64,
    end: Option<u64>,
}

/// The segments of an array whose fields follow its own number: start, rate, interval, end.
fn segments(plan: Row, array: u8) -> Vec<Segment> {
    let read = |item: Row| Segment {
        start: item.integer(array + 1).unwrap_or(0),
        rate: item.decimal(array + 2).unwrap_or(0) / TEN_THOUSANDTH,
        interval: item.integer(array + 3).unwrap_or(0),
        end: item.integer(array + 4),
    };
    plan.items(array).map(read).collect()
}

impl Leg {
    fn charges(&self) -> i128 {
        self.segments.iter().map(|segment| segment.rate * i128::from(segment.times(self.length))).sum()
    }

    /// Has the ride come to where the last of its segments ends, all of them ending?
    fn is_past(&self) -> bool {
        let ends: Option<Vec<u64>> = self.segments.iter().map(|segment| segment.end).collect();
        ends.and_then(|ends| ends.into_iter().max()).is_some_and(|last| self.length >= last)
    }
}

impl Segment {
    /// How often the segment charges in a ride of that length: at its start and every interval after it, up to the length, before its end.
    fn times(&self, length: u64) -> u64 {
        let bound = self.end.map_or(length + 1, |end| end.min(length + 1));
        match bound.checked_sub(self.start) {
            None | Some(0) => 0,
            Some(_) if self.interval == 0 => 1,
            Some(span) => span.div_ceil(self.interval),
        }
    }
}

#[cfg(test)]
mod tests {
    use super::*;

    fn plans(price: &str, arrays: &str) -> Vec<u8> {
        format!(
            r#"{{"version":"2.3","last_updated":0,"ttl":0,"data":{{"plans":[{{"plan_id":"p","name":"n","currency":"EUR",
            "price":{price},"is_taxable":false,"description":"d"{arrays}}}]}}}}"#
        )
        .into_bytes()
    }

    /// Amount and "past minutes" of a ride under a plan with per-minute segments.
    fn ride(price: &str, segments: &str, seconds: u64) -> (i64, bool) {
        match quote(&plans(price, &format!(r#","per_min_pricing":[{segments}]"#)), b"p", seconds, 0) {
            Quote::Fare { amount, past_minutes, past_kilometres: false } => (amount, past_minutes),
            other => panic!("{other:?}"),
        }
    }

    #[test]
    fn worked_reading_f() {
        let segments = r#"{"start":1,"rate":1,"interval":1},{"start":2,"rate":2,"interval":1}"#;
        for (seconds, amount) in [(59, 20000), (60, 30000), (105, 30000), (120, 60000), (180, 90000)] {
            assert_eq!(ride("2", segments, seconds), (amount, false), "{seconds} s");
        }
    }

    #[test]
    fn worked_reading_g() {
        let segments = r#"{"start":10,"rate":-0.5,"interval":0}"#;
        assert_eq!(ride("0", segments, 599), (0, false));
        assert_eq!(ride("0", segments, 600), (0, false));
    }

    #[test]
    fn discounts_are_taken_off_the_sum_and_give_no_credit() {
        let segments = r#"{"start":10,"rate":-1.5,"interval":0},{"start":20,"rate":0.25,"interval":0},{"start":30,"rate":1,"interval":0,"end":40}"#;
        for (seconds, amount) in [(599, 10000), (600, 0), (1200, 0), (1800, 7500)] {
            assert_eq!(ride("1", segments, seconds), (amount, false), "{seconds} s");
        }
        let ended = r#"{"start":0,"rate":-1,"interval":0,"end":5}"#;
        assert_eq!([299, 300].map(|seconds| ride("0", ended, seconds)), [(0, false), (0, true)]);
    }

    #[test]
    fn worked_reading_h() {
        let segments = r#"{"start":0,"rate":0.25,"interval":15,"end":45}"#;
        assert_eq!(ride("\"1.00\"", segments, 0), (12500, false));
        assert_eq!(ride("1", segments, 2699), (17500, false));
        assert_eq!(ride("1", segments, 2700), (17500, true));
    }

    #[test]
    fn worked_reading_i() {
        let segments = r#"{"start":20,"rate":3,"interval":5,"end":20}"#;
        for (seconds, past) in [(0, false), (1199, false), (1200, true), (2_678_400, true)] {
            assert_eq!(ride("0", segments, seconds), (0, past), "{seconds} s");
        }
    }

    #[test]
    fn kilometres_are_charged_by_kilometres() {
        let arrays = r#","per_km_pricing":[{"start":0,"rate":1,"interval":1,"end":3}],"per_min_pricing":[{"start":0,"rate":10,"interval":0}]"#;
        let fare = |seconds, metres| quote(&plans("0", arrays), b"p", seconds, metres);
        let expected = |amount, past_kilometres| Quote::Fare { amount, past_minutes: false, past_kilometres };
        assert_eq!(fare(600, 1999), expected(120000, false));
        assert_eq!(fare(600, 2999), expected(130000, false));
        assert_eq!(fare(600, 3000), expected(130000, true));
    }

    #[test]
    fn the_largest_amount() {
        let segments = [r#"{"start":0,"rate":1000000,"interval":1}"#; 16].join(",");
        let arrays = format!(r#","per_km_pricing":[{segments}],"per_min_pricing":[{segments}]"#);
        let fare = Quote::Fare { amount: 7_302_730_000_000_000, past_minutes: false, past_kilometres: false };
        assert_eq!(quote(&plans("1000000", &arrays), b"p", 2_678_400, 1_000_000), fare);
    }

    #[test]
    fn the_order_of_refusals() {
        let sound = plans("0", "");
        assert_eq!(quote(b"[", b"p", 2_678_401, 0), Quote::TooLong);
        assert_eq!(quote(b"[", b"p", 0, 1_000_001), Quote::TooLong);
        let cut = Parts { file: 5, kind: 2, offset: 1, ..Parts::default() };
        assert_eq!(quote(b"[", b"p", 2_678_400, 1_000_000), Quote::NotClean(cut));
        assert_eq!(quote(&sound, b"q", 0, 0), Quote::NoPlan);
        assert_eq!(quote(&sound, b"", 0, 0), Quote::NoPlan);
        assert_eq!(quote(b"", b"p", 0, 0), Quote::NoPlan);
    }
}
