//! A verdict in words for those who have to mend a feed: which file by its standard name, where in it, and which rule it breaks.

#![forbid(unsafe_code)]

mod place;
mod position;
mod record;
mod ring;
mod rule;
mod scan;
mod text;
mod value;

pub use position::{position, Position};
pub use record::{record, Record};

use skaveldro::names::{sort_of, Sort};
use skaveldro::{Files, Kind, Parts};
use std::fmt;
use value::Place;

/// A broken rule in words. Shown as one line.
#[derive(Clone, Debug, PartialEq, Eq)]
pub struct Told {
    /// The file's standard name.
    pub file: &'static str,
    /// The record that is blamed, if one is: its number, and its id where the file's bytes tell it.
    pub record: Option<(u16, Option<String>)>,
    /// The member that is blamed, by the names on the way to it from its record or from the top; empty for the file itself.
    pub member: String,
    /// Which rule is broken.
    pub rule: String,
    /// The value that breaks it, where the bytes tell and the rule does not name it.
    pub found: Option<String>,
    /// Where a text stops being JSON; else where the blamed value begins, or, where it is missing, what it is missing from. Only the
    /// file's bytes tell it.
    pub position: Option<Position>,
    /// The place in the file's bytes, of kinds 2 to 4.
    pub offset: Option<u32>,
}

/// What the parts of a word say; nothing for those of an accepted set. `bytes` is the file that they name, where it is at hand.
pub fn tell(parts: Parts, bytes: Option<&[u8]>) -> Option<Told> {
    let file = parts.file_name()?;
    let kind = parts.rule()?;
    let bytes = bytes.filter(|_| kind != Kind::TooLong);
    let is_text = matches!(kind, Kind::NotJson | Kind::Unpaired | Kind::TooDeep);
    let blamed = (parts.record > 0).then_some(parts.record);
    let place = bytes.filter(|_| kind > Kind::TooDeep).map(|bytes| value::place(parts, kind, bytes));
    let at = if is_text { Some(parts.offset as usize) } else { place.map(Place::offset) };
    Some(Told {
        file,
        record: blamed.map(|number| (number, bytes.and_then(|bytes| record(parts.file, number, bytes)?.id))),
        member: if kind <= Kind::TooDeep { String::new() } else { place::member(parts, kind) },
        rule: rule::rule(parts, kind, bytes, place),
        found: bytes.zip(place).and_then(|(bytes, place)| found(parts, kind, bytes, place)),
        position: bytes.zip(at).map(|(bytes, at)| position(bytes, at)),
        offset: is_text.then_some(parts.offset),
    })
}

/// The same with the whole set at hand, which tells also whether the file that a reference goes to is absent.
pub fn tell_of_set(parts: Parts, files: Files) -> Option<Told> {
    let bytes_of = |file: u8| files.get(usize::from(file).wrapping_sub(1)).copied().filter(|bytes| !bytes.is_empty());
    let mut told = tell(parts, bytes_of(parts.file))?;
    if rule::target(parts).is_some_and(|target| bytes_of(target).is_none()) {
        told.rule.push_str(", which is absent");
    }
    Some(told)
}

/// The value that breaks a rule on what a value must be. Of an array that is blamed for what it holds there is nothing short to show.
fn found(parts: Parts, kind: Kind, bytes: &[u8], place: Place) -> Option<String> {
    let Place::Value(at) = place else { return None };
    let is_about_values = matches!(kind, Kind::WrongType | Kind::NumberForm | Kind::OutOfRange | Kind::Dangling);
    let is_array =
        matches!(sort_of(parts.file, parts.field), Some(Sort::Ids(_) | Sort::Coordinates)) && bytes.get(at) == Some(&b'[');
    if is_about_values && !is_array {
        value::shown(bytes, at)
    } else {
        None
    }
}

impl Told {
    /// Where in its file the rule is broken, and which it is.
    pub fn within_file(&self) -> String {
        let mut place = Vec::new();
        if let Some((number, id)) = &self.record {
            place.push(match id {
                Some(id) => format!("record {number} (id {id:?})"),
                None => format!("record {number}"),
            });
        }
        if !self.member.is_empty() {
            place.push(self.member.clone());
        }
        match (self.position, self.offset) {
            (Some(Position { line, column }), _) => place.push(format!("line {line}, column {column}")),
            (None, Some(offset)) => place.push(format!("byte {offset}")),
            (None, None) => {}
        }
        let found = self.found.as_ref().map_or(String::new(), |found| format!("; found {found}"));
        let separator = if place.is_empty() { "" } else { ": " };
        format!("{}{separator}{}{found}", place.join(", "), self.rule)
    }
}

impl fmt::Display for Told {
    fn fmt(&self, out: &mut fmt::Formatter) -> fmt::Result {
        let text = self.within_file();
        let separator = if text == self.rule { ": " } else { ", " };
        write!(out, "{}{separator}{text}", self.file)
    }
}

#[cfg(test)]
mod tests {
    use super::*;
    use reference::LAST_FIELD;
    use skaveldro::FILES;

    fn line(parts: Parts, bytes: Option<&[u8]>) -> String {
        tell(parts, bytes).expect("the parts name a rule").to_string()
    }

    fn said(file: u8, kind: u8, field: u8, record: u16, sub: u16) -> String {
        line(Parts { file, kind, field, record, sub, offset: 0 }, None)
    }

    #[test]
    fn accepted() {
        assert_eq!(tell(Parts::default(), None), None);
    }

    #[test]
    fn faults_of_the_text() {
        let at = |kind, offset, bytes: &[u8]| line(Parts { file: 4, kind, offset, ..Parts::default() }, Some(bytes));
        assert_eq!(at(1, 0, b""), "free_bike_status.json: longer than 1048575 bytes, which is the most that a file may have");
        assert_eq!(at(2, 4, b"[\n1,]"), "free_bike_status.json, line 2, column 3: not valid JSON: unexpected \"]\"");
        assert_eq!(at(2, 2, b"[1"), "free_bike_status.json, line 1, column 3: not valid JSON: the file ends before its JSON text is complete; it may have been cut off");
        assert_eq!(
            at(3, 1, br#""\ud800""#),
            "free_bike_status.json, line 1, column 2: an escaped surrogate (\\uD800 to \\uDFFF) without its other half"
        );
        assert_eq!(at(4, 16, &[b'['; 17]), "free_bike_status.json, line 1, column 17: nested deeper than 16 levels");
        let unread = Parts { file: 4, kind: 2, offset: 7, ..Parts::default() };
        assert_eq!(line(unread, None), "free_bike_status.json, byte 7: not valid JSON");
    }

    #[test]
    fn faults_of_fields() {
        assert_eq!(said(4, 6, 40, 3, 0), "free_bike_status.json, record 3, bike_id: required, but missing");
        assert_eq!(said(1, 9, 1, 0, 0), "vehicle_types.json, version: must be \"2.3\"");
        assert_eq!(said(1, 7, 0, 0, 0), "vehicle_types.json, top value: must be an object");
        assert_eq!(said(4, 10, 5, 0, 0), "free_bike_status.json, data.bikes: too many records: at most 4095 are allowed");
        assert_eq!(said(4, 7, 5, 2, 0), "free_bike_status.json, record 2: must be an object");
        assert_eq!(said(2, 9, 22, 1, 0), "station_information.json, record 1, lat: must be a number from -90 to 90");
        assert_eq!(said(4, 9, 46, 1, 0), "free_bike_status.json, record 1, current_range_meters: must be a number of 0 or more");
        assert_eq!(said(5, 7, 61, 1, 2), "system_pricing_plans.json, record 1, per_min_pricing, item 2: must be an object");
        assert_eq!(said(5, 7, 61, 1, 0), "system_pricing_plans.json, record 1, per_min_pricing: must be an array");
        assert_eq!(
            said(5, 5, 64, 1, 2),
            "system_pricing_plans.json, record 1, per_min_pricing, item 2, interval: given more than once in the same object"
        );
        assert_eq!(
            said(6, 10, 77, 1, 0),
            "geofencing_zones.json, record 1, properties.rules: too many items: at most 32 are allowed"
        );
        assert_eq!(
            said(6, 7, 79, 1, 3),
            "geofencing_zones.json, record 1, properties.rules, item 3, ride_allowed: must be true or false"
        );
        assert_eq!(
            said(6, 10, 73, 1, 5),
            "geofencing_zones.json, record 1, geometry.coordinates, position 5: too many positions in a ring: at most 256 are allowed"
        );
        assert_eq!(
            said(6, 10, 73, 1, 0),
            "geofencing_zones.json, record 1, geometry.coordinates: too many polygons or rings: at most 15 of each are allowed"
        );
        assert_eq!(
            said(6, 11, 73, 1, 5),
            "geofencing_zones.json, record 1, geometry.coordinates, position 5: a polygon must have 1 to 8 rings; \
                a ring must have 4 positions or more, end where it begins and have an area; a position must have 2 or 3 numbers"
        );
    }

    #[test]
    fn faults_between_files() {
        assert_eq!(said(1, 12, 10, 2, 0), "vehicle_types.json, record 2, vehicle_type_id: an earlier record has the same id");
        assert_eq!(
            said(6, 13, 78, 1, 2),
            "geofencing_zones.json, record 1, properties.rules, item 2, vehicle_type_id: each must be the id of a record of vehicle_types.json"
        );
        assert_eq!(
            said(4, 14, 41, 1, 0),
            "free_bike_status.json, record 1, lat: required unless station_id is given, but missing"
        );
        assert_eq!(said(3, 14, 0, 0, 0), "station_status.json: absent, but required since station_information.json is given");
        assert_eq!(
            said(3, 15, 37, 1, 0),
            "station_status.json, record 1, vehicle_types_available: its counts must add up to num_bikes_available"
        );
    }

    #[test]
    fn faults_of_the_system_and_its_regions() {
        let absent = "absent, but required in every set: deliver it, with system_id, language, name and timezone";
        assert_eq!(said(7, 14, 0, 0, 0), format!("system_information.json: {absent}"));
        assert_eq!(said(7, 6, 90, 0, 0), "system_information.json, data.system_id: required, but missing");
        assert_eq!(said(7, 7, 94, 0, 0), "system_information.json, data.start_date: must be a string");
        let day = "must be a day that the calendar has, written YYYY-MM-DD";
        assert_eq!(said(7, 9, 94, 0, 0), format!("system_information.json, data.start_date: {day}"));
        let system = br#"{"data":{"start_date":"1900-02-29"}}"#;
        assert_eq!(
            line(Parts { file: 7, kind: 9, field: 94, ..Parts::default() }, Some(system)),
            format!(r#"system_information.json, data.start_date, line 1, column 23: {day}; found "1900-02-29""#)
        );
        assert_eq!(said(8, 6, 101, 2, 0), "system_regions.json, record 2, name: required, but missing");
        let regions = br#"{"data":{"regions":[{"region_id":"r"},{"region_id":"\u0072"}]}}"#;
        assert_eq!(
            line(Parts { file: 8, kind: 12, field: 100, record: 2, ..Parts::default() }, Some(regions)),
            r#"system_regions.json, record 2 (id "r"), region_id, line 1, column 52: record 1 has the same id"#
        );
        let stations = br#"{"data":{"stations":[{"station_id":"s","region_id":"x"}]}}"#;
        let told = |regions| {
            let dangling = Parts { file: 2, kind: 13, field: 25, record: 1, ..Parts::default() };
            tell_of_set(dangling, [b"", stations, b"", b"", b"", b"", b"", regions]).map(|told| told.to_string())
        };
        let at = r#"station_information.json, record 1 (id "s"), region_id, line 1, column 52"#;
        let rule = "must be the id of a record of system_regions.json";
        assert_eq!(told(b"{}"), Some(format!(r#"{at}: {rule}; found "x""#)));
        assert_eq!(told(b""), Some(format!(r#"{at}: {rule}, which is absent; found "x""#)));
    }

    #[test]
    fn the_record_is_named_by_its_id() {
        let bikes = b"{\"data\":{\"bikes\":[\n  {\"bike_id\":\"a\\u0022b\"}, {}]}}";
        let at = |record| line(Parts { file: 4, kind: 6, field: 43, record, ..Parts::default() }, Some(bikes));
        assert_eq!(at(1), r#"free_bike_status.json, record 1 (id "a\"b"), is_reserved, line 2, column 3: required, but missing"#);
        assert_eq!(at(2), "free_bike_status.json, record 2, is_reserved, line 2, column 27: required, but missing");
    }

    #[test]
    fn what_was_found() {
        let bikes =
            br#"{"version":"2.2","data":{"bikes":[{"bike_id":"","lat":470.1,"is_reserved":"no","pricing_plan_id":"p"}]}}"#;
        let parts = |kind, field, record| Parts { file: 4, kind, field, record, ..Parts::default() };
        let found = |kind, field, record| line(parts(kind, field, record), Some(bikes));
        assert_eq!(found(9, 1, 0), r#"free_bike_status.json, version, line 1, column 12: must be "2.3"; found "2.2""#);
        let at = "free_bike_status.json, record 1";
        assert_eq!(found(6, 40, 1), format!("{at}, bike_id, line 1, column 46: required, but \"\", which counts as missing"));
        assert_eq!(found(9, 41, 1), format!("{at}, lat, line 1, column 55: must be a number from -90 to 90; found 470.1"));
        assert_eq!(found(7, 43, 1), format!("{at}, is_reserved, line 1, column 75: must be true or false; found \"no\""));
        let told = |files| tell_of_set(parts(13, 48, 1), files).map(|told| (told.rule, told.found));
        let rule = "must be the id of a record of system_pricing_plans.json";
        let missing = Some("\"p\"".to_string());
        assert_eq!(told([b"", b"", b"", bikes, b"{}", b"", b"", b""]), Some((rule.into(), missing.clone())));
        assert_eq!(told([b"", b"", b"", bikes, b"", b"", b"", b""]), Some((format!("{rule}, which is absent"), missing)));
    }

    /// Where the file is at hand, the one rule that a ring breaks.
    #[test]
    fn faults_of_rings() {
        let zones = br#"{"data":{"geofencing_zones":{"features":[
            {"geometry":{"coordinates":[[[[0,0],[0,2],[2,2],[0,0]],[[0,0],[0,1],[1,1],[0,0.5]]]]}}]}}}"#;
        assert_eq!(
            line(Parts { file: 6, kind: 11, field: 73, record: 1, sub: 5, offset: 0 }, Some(zones)),
            "geofencing_zones.json, record 1, geometry.coordinates, position 5, line 2, column 40: \
                ring 2 of polygon 1 is not closed: its first and last positions differ when rounded to six decimals"
        );
    }

    /// Every word that a verdict can give has words, also those that only a made-up word names.
    #[test]
    fn every_word_can_be_said() {
        for file in 1..=FILES as u8 {
            for kind in 1..=15 {
                for field in 0..=LAST_FIELD {
                    for (record, sub) in [(0, 0), (1, 0), (0, 1), (4095, 4095)] {
                        let parts = Parts { file, kind, field, record, sub, offset: 0 };
                        let line = line(parts, None);
                        assert!(line.starts_with(parts.file_name().unwrap()) && !line.contains('\n'), "{parts:?}: {line}");
                    }
                }
            }
        }
    }
}
