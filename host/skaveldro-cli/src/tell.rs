//! Answers as reports.

use crate::fault::{self, Fault};
use crate::json::Json;
use crate::report::{Report, NO, YES};
use skaveldro::{Fare, Parts, Rule};

/// A question about a file that is not clean.
pub fn unclean(number: u8, parts: Parts, bytes: &[u8]) -> Report {
    let fault = words::tell(parts, Some(bytes)).map(|told| Fault { parts, told });
    let text = fault.as_ref().map_or(String::new(), |fault| format!("\n{}", fault.told));
    let members = vec![("answer", Json::Number(number.into())), ("fault", fault::json(fault.as_ref()))];
    Report::new(NO, format!("the file is not clean{text}"), members)
}

/// An answer that is nothing but its number.
pub fn refused(number: u8, text: String) -> Report {
    let members = vec![("answer", Json::Number(number.into())), ("text", Json::Text(text.clone()))];
    Report::new(NO, text, members)
}

/// A price, with four decimals in words and in ten-thousandths in JSON.
pub fn fare(fare: Fare) -> Report {
    let mut text = format!("{}.{:04}", fare.amount / 10_000, fare.amount % 10_000);
    for (past, measure) in [(fare.past_minutes, "minute"), (fare.past_kilometres, "kilometre")] {
        if past {
            text.push_str(&format!(
                "\nthe ride reaches the end of all per-{measure} prices of the plan: nothing is charged from there on"
            ));
        }
    }
    let members = vec![
        ("answer", Json::Number(0)),
        ("amount", Json::Number(fare.amount)),
        ("past_minutes", Json::Truth(fare.past_minutes)),
        ("past_kilometres", Json::Truth(fare.past_kilometres)),
    ];
    Report::new(YES, text, members)
}

/// The four values of a zone rule's answer.
pub fn rule(rule: Rule) -> Report {
    let yes = |truth: bool| if truth { "yes" } else { "no" };
    let speed = rule.speed.map_or("not given".into(), |speed| speed.to_string());
    let text = format!(
        "ride_allowed {}, ride_through_allowed {}, maximum_speed_kph {speed}, station_parking {}",
        yes(rule.ride),
        yes(rule.through),
        rule.parking.map_or("not given", yes),
    );
    let members = vec![
        ("answer", Json::Number(0)),
        ("ride_allowed", Json::Truth(rule.ride)),
        ("ride_through_allowed", Json::Truth(rule.through)),
        ("maximum_speed_kph", Json::or_null(rule.speed, |speed| Json::Raw(speed.to_string()))),
        ("station_parking", Json::or_null(rule.parking, Json::Truth)),
    ];
    Report::new(YES, text, members)
}

/// A record's bytes. They are JSON themselves, with line breaks only between its tokens.
pub fn record(bytes: &[u8], from: usize, upto: usize) -> Report {
    let text = String::from_utf8_lossy(&bytes[from..upto]).into_owned();
    let members = vec![
        ("answer", Json::Number(0)),
        ("from", Json::count(from)),
        ("upto", Json::count(upto)),
        ("record", Json::Raw(text.replace(['\n', '\r'], " "))),
    ];
    Report::new(YES, text, members)
}
