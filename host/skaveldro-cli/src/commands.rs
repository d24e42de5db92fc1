//! The questions about one file: what each reads, asks and tells.

use crate::given::{file_number, millionths, whole};
use crate::report::{Failure, Report};
use crate::source;
use crate::standard::name_of;
use crate::tell;
use skaveldro::names::{records_field, TOP};
use skaveldro::{quote as quote_ride, show_record, zone_rule, Point, Quote, Ruling, Shown, FILES};
use std::ffi::OsStr;
use std::os::unix::ffi::OsStrExt;

/// The price of a ride.
pub fn quote(path: &OsStr, plan: &OsStr, seconds: &OsStr, metres: &OsStr) -> Result<Report, Failure> {
    let (seconds, metres) = (whole("SECONDS", seconds)?, whole("METRES", metres)?);
    let (plans, warnings) = source::one(path, 5)?;
    let answer = quote_ride(&plans, plan.as_bytes(), seconds, metres);
    let refused = |why: String| tell::refused(answer.number(), why);
    let report = match answer {
        Quote::TooLong => refused("the ride is too long: at most 2678400 seconds and 1000000 metres are priced".into()),
        Quote::NotClean(parts) => tell::unclean(answer.number(), parts, &plans),
        Quote::NoPlan => refused(format!("no plan has the id {plan:?}")),
        Quote::Fare(fare) => tell::fare(fare),
    };
    Ok(report.warning(warnings))
}

/// What the rules at a point give together.
pub fn zone(path: &OsStr, lat: &OsStr, lon: &OsStr, vehicle_type: &OsStr, moment: &OsStr) -> Result<Report, Failure> {
    let point = Point { lat: millionths("LAT", lat)?, lon: millionths("LON", lon)? };
    let moment = whole("MOMENT", moment)?;
    let (zones, warnings) = source::one(path, 6)?;
    let answer = zone_rule(&zones, point, vehicle_type.as_bytes(), moment);
    let refused = |why: &str| tell::refused(answer.number(), why.into());
    let report = match answer {
        Ruling::OffMap => refused("coordinates out of range: LAT must be from -90 to 90, and LON from -180 to 180"),
        Ruling::NotClean(parts) => tell::unclean(answer.number(), parts, &zones),
        Ruling::NoRule => refused("no rule applies"),
        Ruling::Is(rule) => tell::rule(rule),
    };
    Ok(report.warning(warnings))
}

/// The bytes of a record.
pub fn show(path: &OsStr, file: &OsStr, record: &OsStr) -> Result<Report, Failure> {
    let (number, record) = (file_number(file)?, whole("RECORD", record)?);
    let Some(file) = u8::try_from(number).ok().filter(|file| (1..=FILES as u8).contains(file)) else {
        let answer = show_record(number, record, &[]);
        let why = format!("there is no such file: the files are numbered 1 to {FILES}");
        return Ok(tell::refused(answer.number(), why).warning(Vec::new()));
    };
    let (bytes, warnings) = source::one(path, file)?;
    let answer = show_record(number, record, &bytes);
    let report = match answer {
        Shown::NoRecord if records_field(file) == TOP => {
            tell::refused(answer.number(), format!("{} has no records: it is about the system as a whole", name_of(file)))
        }
        Shown::NoRecord => tell::refused(answer.number(), format!("{} has no such record", name_of(file))),
        Shown::NotClean(parts) => tell::unclean(answer.number(), parts, &bytes),
        Shown::Record { from, upto } => tell::record(&bytes, from, upto),
    };
    Ok(report.warning(warnings))
}
