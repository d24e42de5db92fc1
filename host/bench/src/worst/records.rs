//! Records of the fewest bytes, and the files that they fill.

use reference::ceiling;

/// How the strings of a text are spelled.
pub type Spelling = fn(&str) -> String;

pub fn plain(text: &str) -> String {
    text.into()
}

/// Every character of every string as an escape. The text has none yet, and no character that takes two.
pub fn escaped(text: &str) -> String {
    let mut within = false;
    let spell = |character: char| {
        within ^= character == '"';
        match within && character != '"' {
            true => format!("\\u{:04x}", u32::from(character)),
            false => character.into(),
        }
    };
    text.chars().map(spell).collect()
}

/// Every slash as an escape.
pub fn slashed(text: &str) -> String {
    text.replace('/', "\\/")
}

/// The bytes of a file, and how many records it has.
pub struct File {
    bytes: Vec<u8>,
    pub records: usize,
}

impl File {
    pub const ABSENT: File = File { bytes: Vec::new(), records: 0 };

    pub fn bytes(self) -> Vec<u8> {
        self.bytes
    }
}

/// A file with as many of the records, from the first one on, as the ceilings let in.
pub fn file(number: usize, spelled: Spelling, records: impl IntoIterator<Item = String>) -> File {
    let array = ["vehicle_types", "stations", "stations", "bikes", "plans", "features", "", "regions"][number - 1];
    let (outer, closing) = match number {
        6 => (r#""geofencing_zones":{"type":"FeatureCollection","#, "]}}}"),
        _ => ("", "]}}"),
    };
    let mut text = spelled(&format!(r#"{{"version":"2.3","last_updated":0,"ttl":0,"data":{{{outer}"{array}":["#));
    let mut count = 0;
    for record in records.into_iter().take(ceiling::RECORDS) {
        let record = spelled(&record);
        let comma = if count == 0 { "" } else { "," };
        if text.len() + comma.len() + record.len() + closing.len() > ceiling::BYTES {
            break;
        }
        text += comma;
        text += &record;
        count += 1;
    }
    File { bytes: (text + closing).into_bytes(), records: count }
}

/// The file of the system, which has no records.
pub fn system() -> File {
    let data = r#"{"system_id":"s","language":"en","name":"n","timezone":"Etc/UTC"}"#;
    File { bytes: format!(r#"{{"version":"2.3","last_updated":0,"ttl":0,"data":{data}}}"#).into_bytes(), records: 0 }
}

/// A file of one record, which is filled up with a piece.
pub fn stuffed(number: usize, piece: &str, record: impl Fn(&str) -> String) -> File {
    let room = ceiling::BYTES - file(number, plain, [record("")]).bytes.len();
    file(number, plain, [record(&piece.repeat(room / piece.len()))])
}

/// A type without a motor, of which bikes need no range. No plan is named where none is given.
pub fn vehicle_type(id: &str, plan: &str) -> String {
    vehicle_type_with(id, plan, "")
}

/// A type with more members before the listed ones.
pub fn vehicle_type_with(id: &str, plan: &str, more: &str) -> String {
    format!(
        r#"{{{more}"vehicle_type_id":"{id}","form_factor":"bicycle","propulsion_type":"human"{}}}"#,
        named("default_pricing_plan_id", plan)
    )
}

/// A station without a capacity, of which statuses need no docks.
pub fn station(id: &str, more: &str) -> String {
    format!(r#"{{{more}"station_id":"{id}","name":"n","lat":0,"lon":0}}"#)
}

pub fn status(id: &str, items: &str, more: &str) -> String {
    format!(
        r#"{{{more}"station_id":"{id}","num_bikes_available":0,"is_installed":true,"is_renting":true,"is_returning":true,"last_reported":0,"vehicle_types_available":[{items}]}}"#
    )
}

/// An item of field 37.
pub fn item(vehicle_type: &str) -> String {
    format!(r#"{{"vehicle_type_id":"{vehicle_type}","count":0}}"#)
}

pub fn bike(id: &str, vehicle_type: &str, station: &str, plan: &str) -> String {
    bike_with(id, vehicle_type, station, plan, "")
}

/// A bike with more members before the listed ones.
pub fn bike_with(id: &str, vehicle_type: &str, station: &str, plan: &str, more: &str) -> String {
    let references =
        [named("vehicle_type_id", vehicle_type), named("station_id", station), named("pricing_plan_id", plan)].concat();
    format!(r#"{{{more}"bike_id":"{id}","is_reserved":true,"is_disabled":true{references}}}"#)
}

pub fn plan(id: &str, more: &str) -> String {
    format!(r#"{{{more}"plan_id":"{id}","name":"n","currency":"EUR","price":0,"is_taxable":true,"description":"d"}}"#)
}

pub fn region(id: &str) -> String {
    format!(r#"{{"region_id":"{id}","name":"n"}}"#)
}

/// A rule with one member more; with none it is for everybody. It gives no speed, so that a later one is asked for.
pub fn rule(member: &str) -> String {
    rule_with(member, "")
}

/// A rule with more members before the others.
pub fn rule_with(member: &str, more: &str) -> String {
    let comma = if member.is_empty() { "" } else { "," };
    format!(r#"{{{more}"ride_allowed":true,"ride_through_allowed":true{comma}{member}}}"#)
}

/// A zone in the shape of a triangle.
pub fn zone(rules: &str) -> String {
    zone_of("[[[0,0],[0,1],[1,1],[0,0]]]", &format!(r#"{{"rules":[{rules}]}}"#))
}

pub fn zone_of(polygons: &str, properties: &str) -> String {
    format!(r#"{{"type":"Feature","geometry":{{"type":"MultiPolygon","coordinates":[{polygons}]}},"properties":{properties}}}"#)
}

/// A member with a reference, behind another member; nothing where none is given.
fn named(name: &str, id: &str) -> String {
    match id {
        "" => String::new(),
        _ => format!(r#","{name}":"{id}""#),
    }
}
