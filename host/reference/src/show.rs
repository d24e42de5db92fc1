//! The bytes of one record.

use crate::clean::clean;
use crate::{Parts, FILES};

/// The answer to a question for a record.
#[derive(Clone, Copy, Debug, PartialEq, Eq, Hash)]
pub enum Shown {
    /// 10: a set has no file of that number.
    NoFile,
    /// 5: the file is not clean.
    NotClean(Parts),
    /// 10: the file has no record of that number.
    NoRecord,
    /// 0: the half-open range of the record's bytes, both brackets in it.
    Record(usize, usize),
}

/// Where the record of that number, from 1, stands in the bytes of that file, from 1 to [`FILES`].
pub fn show_record(file: u64, number: u64, bytes: &[u8]) -> Shown {
    if !(1..=FILES as u64).contains(&file) {
        return Shown::NoFile;
    }
    let file = file as u8;
    let clean = match clean(file, bytes) {
        Ok(clean) => clean,
        Err(parts) => return Shown::NotClean(parts),
    };
    let index = number.checked_sub(1).and_then(|index| usize::try_from(index).ok());
    match index.and_then(|index| clean.rows().nth(index)) {
        Some(row) => Shown::Record(row.object.start, row.object.end),
        None => Shown::NoRecord,
    }
}

#[cfg(test)]
mod tests {
    use super::*;

    #[test]
    fn records_by_number() {
        let file = br#"{"version":"2.3","last_updated":0,"ttl":0,"data":{"plans":[ {"plan_id":"a","name":"}","currency":"EUR","price":0,
            "is_taxable":true,"description":"{"} ,{"plan_id":"b","name":"n","currency":"EUR","price":0,"is_taxable":true,"description":"d"}]}}"#;
        let Shown::Record(start, end) = show_record(5, 1, file) else { panic!() };
        assert!(file[start..].starts_with(br#"{"plan_id":"a""#) && file[..end].ends_with(br#""{"}"#));
        assert_eq!(show_record(5, 2, file), Shown::Record(end + 2, file.len() - 3));
        assert_eq!(show_record(5, 0, file), Shown::NoRecord);
        assert_eq!(show_record(5, 3, file), Shown::NoRecord);
        assert_eq!(show_record(5, u64::MAX, file), Shown::NoRecord);
        assert_eq!(show_record(0, 1, file), Shown::NoFile);
        assert_eq!(show_record(9, 1, file), Shown::NoFile);
        assert_eq!(show_record(1, 1, b""), Shown::NoRecord);
        assert!(matches!(show_record(1, 0, file), Shown::NotClean(_)));
    }

    #[test]
    fn the_system_has_no_records() {
        let system = |data: &str| format!(r#"{{"version":"2.3","last_updated":0,"ttl":0,"data":{{{data}}}}}"#).into_bytes();
        let sound = r#""system_id":"s","language":"en","name":"n","timezone":"Etc/UTC""#;
        for file in [system(sound), system(&format!(r#"{sound},"":[{{}}],"regions":[{{}}]"#)), Vec::new()] {
            assert_eq!([0, 1, 2].map(|number| show_record(7, number, &file)), [Shown::NoRecord; 3]);
        }
        let missing = Parts { file: 7, kind: 6, field: 90, ..Parts::default() };
        assert_eq!(show_record(7, 1, &system("")), Shown::NotClean(missing));
    }

    #[test]
    fn regions_are_shown() {
        let file = br#"{"version":"2.3","last_updated":0,"ttl":0,"data":{"regions":[{"region_id":"r","name":"n"}]}}"#;
        assert_eq!(show_record(8, 1, file), Shown::Record(61, 89));
    }
}
