//! A record of a file that is JSON but may break other rules, found to be named.

use crate::scan::{items, member, string};
use skaveldro::names::{id_field, records_field, way, TOP};

/// Where a record begins, and its id.
#[derive(Clone, Debug, PartialEq, Eq)]
pub struct Record {
    /// Offset of the record's first byte.
    pub start: usize,
    /// The record's id with escapes decoded; none in zones, which have none, or where it is not a string.
    pub id: Option<String>,
}

/// The record of that number, from 1, of a file that passed stage A.
pub fn record(file: u8, number: u16, bytes: &[u8]) -> Option<Record> {
    let records = Some(records_field(file)).filter(|&field| field != TOP)?;
    let array = way(file, records).iter().try_fold(0, |at, field| member(bytes, at, field.name))?;
    let start = items(bytes, array).nth(usize::from(number).checked_sub(1)?)?;
    let id = id_field(file).and_then(|field| member(bytes, start, field.name));
    let id = id.and_then(|at| string(bytes, at)).map(|(id, _)| id).filter(|id| !id.is_empty());
    Some(Record { start, id })
}

#[cfg(test)]
mod tests {
    use super::*;

    fn found(file: u8, number: u16, text: &str) -> Option<(usize, Option<String>)> {
        record(file, number, text.as_bytes()).map(|record| (record.start, record.id))
    }

    #[test]
    fn records_by_number() {
        let text = r#" {"x":[{"data":1},"}]\""],"d\u0061ta" : {"y":-1.5e3 , "bikes":[ {"bike_id":"a"},true ,{"z":null,"bike_id":"\ud83d\ude00\n"}]}}"#;
        assert_eq!(found(4, 1, text), Some((64, Some("a".into()))));
        assert_eq!(found(4, 2, text), Some((80, None)));
        assert_eq!(found(4, 3, text), Some((86, Some("😀\n".into()))));
        assert_eq!(found(4, 4, text), None);
        assert_eq!(found(4, 0, text), None);
        assert_eq!(found(2, 1, text), None);
    }

    #[test]
    fn files_without_records() {
        for text in ["", "1", "[]", "{}", r#"{"data":1}"#, r#"{"data":{"bikes":{}}}"#, r#"{"data":{"bikes":[]}}"#] {
            assert_eq!(found(4, 1, text), None, "{text}");
        }
        assert_eq!(found(4, 1, r#"{"data":{"bikes":[1]}}"#), Some((18, None)));
        assert_eq!(found(6, 1, r#"{"data":{"geofencing_zones":{"features":[{}]}}}"#), Some((41, None)));
        for text in ["[{}]", r#"{"data":[{}]}"#, r#"{"data":{"":[{}],"regions":[{}]}}"#] {
            assert_eq!(found(7, 1, text), None, "{text}");
        }
        let regions = r#"{"data":{"regions":[{"name":"n","region_id":"r"}]}}"#;
        assert_eq!(found(8, 1, regions), Some((20, Some("r".into()))));
    }

    /// Bytes that are no JSON have no records to name, but do no harm.
    #[test]
    fn any_bytes_do() {
        let text = r#"{"data":{"bikes":[{"bike_id":"\u0041"}]}}"#.as_bytes();
        for length in 0..text.len() {
            let mut cut = text[..length].to_vec();
            record(4, 1, &cut);
            cut.extend(b"\"\\]}");
            record(4, 2, &cut);
        }
    }
}
