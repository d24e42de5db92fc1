//! Names for the numbers of a verdict word: files, kinds of rule, fields.

pub use crate::table::Kind;
use crate::table::FIELDS;
use crate::FILES;

/// The standard names of the files, in order.
pub const FILE_NAMES: [&str; FILES] = [
    "vehicle_types.json",
    "station_information.json",
    "station_status.json",
    "free_bike_status.json",
    "system_pricing_plans.json",
    "geofencing_zones.json",
    "system_information.json",
    "system_regions.json",
];

/// The standard name of a file, 1 to 8.
pub fn file_name(file: u8) -> Option<&'static str> {
    FILE_NAMES.get(usize::from(file).wrapping_sub(1)).copied()
}

impl Kind {
    /// The kind of a number.
    pub fn of(number: u8) -> Option<Kind> {
        Kind::ALL.get(usize::from(number).wrapping_sub(1)).copied()
    }

    /// The number of the kind.
    pub fn number(self) -> u8 {
        self as u8
    }
}

/// A field of a file.
#[derive(Clone, Copy, Debug, PartialEq, Eq)]
pub struct Field {
    pub number: u8,
    /// The field of the object, or of the array of objects, that it stands in.
    pub within: u8,
    /// Its JSON name.
    pub name: &'static str,
    /// What it may hold.
    pub sort: Sort,
}

/// What a field may hold.
#[derive(Clone, Copy, Debug, PartialEq, Eq)]
pub enum Sort {
    Object,
    /// The array of a file's records, at most so many.
    Records(usize),
    /// An array of at most so many objects.
    Items(usize),
    /// An array of at most so many ids.
    Ids(usize),
    /// The polygons of a zone.
    Coordinates,
    Id,
    Text,
    /// This string and no other.
    Exact(&'static str),
    /// One of these words.
    Listed(&'static [&'static str]),
    Currency,
    /// A day, as YYYY-MM-DD.
    Date,
    Boolean,
    /// A whole number of 0 or more.
    Whole,
    /// A number of 0 or more.
    Positive,
    /// A number between two others.
    Between(i64, i64),
    Money,
    Price,
}

/// The number of a file's top value, which has no name.
pub const TOP: u8 = 0;

/// The field of a file that holds its records; the top value for a file that has none, and for numbers that no file has.
pub fn records_field(file: u8) -> u8 {
    fields(file).iter().find(|field| matches!(field.sort, Sort::Records(_))).map_or(TOP, |field| field.number)
}

/// The field of a record's own id, which is a record's first; nothing where records have no id, or where there are none.
pub fn id_field(file: u8) -> Option<Field> {
    let records = records_field(file);
    fields(file).iter().find(|field| field.within == records).filter(|field| field.sort == Sort::Id).copied()
}

/// The fields of a file, in the table's order; none for numbers that no file has.
fn fields(file: u8) -> &'static [Field] {
    FIELDS.get(usize::from(file).wrapping_sub(1)).copied().unwrap_or_default()
}

/// A field by its number; none for the top value and for numbers that the file does not have.
pub fn field(file: u8, number: u8) -> Option<Field> {
    fields(file).iter().find(|field| field.number == number).copied()
}

/// What a field may hold; the top value is an object. None for numbers that the file does not have.
pub fn sort_of(file: u8, number: u8) -> Option<Sort> {
    if number == TOP {
        return Some(Sort::Object);
    }
    field(file, number).map(|field| field.sort)
}

/// The fields from the top value's member down to a field; empty where `field` has none.
pub fn way(file: u8, number: u8) -> Vec<Field> {
    let mut way: Vec<Field> = std::iter::successors(field(file, number), |inner| field(file, inner.within)).collect();
    way.reverse();
    way
}

#[cfg(test)]
mod tests {
    use super::*;

    #[test]
    fn every_number_has_one_line() {
        for file in 1..=FILES as u8 {
            assert!(fields(file).windows(2).all(|pair| pair[0].number < pair[1].number), "file {file}");
            for field in fields(file) {
                assert_eq!(way(file, field.number).first().map(|field| field.within), Some(TOP), "file {file}, {field:?}");
            }
        }
    }

    #[test]
    fn records() {
        assert_eq!([0, 1, 5, 6, 7, 8, 9].map(records_field), [TOP, 5, 5, 7, TOP, 5, TOP]);
    }

    #[test]
    fn ids() {
        let numbers: Vec<_> = (0..=u8::MAX).filter_map(id_field).map(|field| field.number).collect();
        assert_eq!(numbers, [10, 20, 30, 40, 50, 100]);
    }

    #[test]
    fn ways() {
        let names = |file, number| way(file, number).iter().map(|field| field.name).collect::<Vec<_>>().join(".");
        assert_eq!(names(4, 40), "data.bikes.bike_id");
        assert_eq!(names(6, 79), "data.geofencing_zones.features.properties.rules.ride_allowed");
        assert_eq!(names(4, 0), "");
        assert_eq!(names(4, 83), "");
        assert_eq!(names(7, 94), "data.start_date");
        assert_eq!(names(8, 100), "data.regions.region_id");
        assert_eq!(names(9, 1), "");
        assert_eq!(names(0, 1), "");
    }

    #[test]
    fn kinds_by_number() {
        for number in 1..=15 {
            assert_eq!(Kind::of(number).map(Kind::number), Some(number));
        }
        assert_eq!((Kind::of(0), Kind::of(16)), (None, None));
    }
}
