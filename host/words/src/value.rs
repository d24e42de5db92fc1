//! The value that a fault of stage B or C blames, found in the file's bytes.

use crate::scan::{blanks, items, member, members, skip, string};
use skaveldro::names::{records_field, way, Sort};
use skaveldro::{Kind, Parts};

/// A place in a file.
#[derive(Clone, Copy, Debug, PartialEq, Eq)]
pub enum Place {
    /// The blamed value begins here.
    Value(usize),
    /// The blamed value is not there; what it is missing from begins here.
    Around(usize),
}

impl Place {
    pub fn offset(self) -> usize {
        let (Place::Value(at) | Place::Around(at)) = self;
        at
    }
}

/// Where the blamed value is, as far as the way to it is there. Of a member that is given twice it is the second.
pub fn place(parts: Parts, kind: Kind, bytes: &[u8]) -> Place {
    let mut at = blanks(bytes, 0);
    for field in way(parts.file, parts.field) {
        let occurrence = usize::from(kind == Kind::NameTwice && field.number == parts.field);
        let Some(value) = members(bytes, at, field.name).nth(occurrence) else { return Place::Around(at) };
        at = value;
        let item = match field.sort {
            Sort::Records(_) => nth(bytes, at, parts.record),
            Sort::Items(_) => nth(bytes, at, parts.sub),
            Sort::Coordinates if matches!(kind, Kind::NumberForm | Kind::OutOfRange) => position(bytes, at, parts.sub),
            _ => None,
        };
        at = item.unwrap_or(at);
    }
    Place::Value(at)
}

/// An item of an array by its number from 1; none for 0.
fn nth(bytes: &[u8], array: usize, number: u16) -> Option<usize> {
    items(bytes, array).nth(usize::from(number).checked_sub(1)?)
}

/// A position of a zone by its number from 1, counted over all its polygons and rings.
fn position(bytes: &[u8], coordinates: usize, number: u16) -> Option<usize> {
    let rings = items(bytes, coordinates).flat_map(|polygon| items(bytes, polygon));
    rings.flat_map(|ring| items(bytes, ring)).nth(usize::from(number).checked_sub(1)?)
}

/// The most characters of a value that are shown.
const MOST_SHOWN: usize = 40;

/// The value at a place, for people: its text if it is short and on one line, else what it is.
pub fn shown(bytes: &[u8], at: usize) -> Option<String> {
    let cut = |text: &str| match text.char_indices().nth(MOST_SHOWN) {
        Some((end, _)) => format!("{}...", &text[..end]),
        None => text.into(),
    };
    Some(match bytes.get(at)? {
        b'{' => "an object".into(),
        b'[' => "an array".into(),
        b'"' => format!("{:?}", cut(&string(bytes, at)?.0)),
        _ => cut(&String::from_utf8_lossy(&bytes[at..skip(bytes, at)?]).escape_debug().to_string()),
    })
}

/// Is the value at a place the string without characters, which counts as absent?
pub fn is_empty_string(bytes: &[u8], at: usize) -> bool {
    string(bytes, at).is_some_and(|(text, _)| text.is_empty())
}

/// The number of the first record that has the id of record `number` in that field.
pub fn first_with_id(parts: Parts, bytes: &[u8]) -> Option<u16> {
    let of_records = way(parts.file, records_field(parts.file));
    let array = of_records.iter().try_fold(blanks(bytes, 0), |at, field| member(bytes, at, field.name))?;
    let name = skaveldro::names::field(parts.file, parts.field)?.name;
    let id = |at| member(bytes, at, name).and_then(|at| string(bytes, at)).map(|(id, _)| id);
    let wanted = nth(bytes, array, parts.record).and_then(id)?;
    (1..parts.record).zip(items(bytes, array)).find(|(_, at)| id(*at).as_ref() == Some(&wanted)).map(|(number, _)| number)
}

#[cfg(test)]
mod tests {
    use super::*;

    fn found(file: u8, kind: Kind, field: u8, record: u16, sub: u16, text: &str) -> (bool, &str) {
        let parts = Parts { file, kind: kind.number(), field, record, sub, offset: 0 };
        let place = place(parts, kind, text.as_bytes());
        (matches!(place, Place::Value(_)), &text[place.offset()..][..3])
    }

    #[test]
    fn values_by_their_way() {
        let bikes = r#" {"version":"2.2","data":{"bikes":[{"lat":1},{"lat":470,"lat":"x","bike_id":7}]}}"#;
        assert_eq!(found(4, Kind::OutOfRange, 1, 0, 0, bikes), (true, "\"2."));
        assert_eq!(found(4, Kind::OutOfRange, 41, 2, 0, bikes), (true, "470"));
        assert_eq!(found(4, Kind::NameTwice, 41, 2, 0, bikes), (true, "\"x\""));
        assert_eq!(found(4, Kind::Missing, 40, 1, 0, bikes), (false, "{\"l"));
        assert_eq!(found(4, Kind::Missing, 2, 0, 0, bikes), (false, "{\"v"));
        let plans = r#"{"data":{"plans":[{"per_min_pricing":[{"rate":1},{"rate":[2]}]}]}}"#;
        assert_eq!(found(5, Kind::WrongType, 63, 1, 2, plans), (true, "[2]"));
        assert_eq!(found(5, Kind::Missing, 62, 1, 1, plans), (false, "{\"r"));
        assert_eq!(found(5, Kind::WrongType, 61, 1, 0, plans), (true, "[{\""));
        let zones = r#"{"data":{"geofencing_zones":{"features":[{"geometry":{"coordinates":[[[[1,2],[3,4]]],[[[5,600]]]]}}]}}}"#;
        assert_eq!(found(6, Kind::OutOfRange, 73, 1, 3, zones), (true, "[5,"));
        assert_eq!(found(6, Kind::BadRing, 73, 1, 3, zones), (true, "[[["));
    }

    #[test]
    fn values_for_people() {
        let of = |text: &str| shown(text.as_bytes(), 0);
        assert_eq!(of("470.10,"), Some("470.10".into()));
        assert_eq!(of(r#""a\u001b\n""#), Some(r#""a\u{1b}\n""#.into()));
        assert_eq!(of("{}"), Some("an object".into()));
        assert_eq!(of("[1]"), Some("an array".into()));
        assert_eq!(of("true"), Some("true".into()));
        assert_eq!(of(&format!("{:?}", "é".repeat(41))), Some(format!("\"{}...\"", "é".repeat(40))));
        assert_eq!(of(""), None);
    }

    #[test]
    fn ids_used_before() {
        let bikes = br#"{"data":{"bikes":[{"bike_id":"a"},{"bike_id":"b"},{"bike_id":"\u0061"}]}}"#;
        let first = |record| first_with_id(Parts { file: 4, field: 40, record, ..Parts::default() }, bikes);
        assert_eq!((first(3), first(2), first(4)), (Some(1), None, None));
    }
}
