//! The field table as data: for each field its number, whether it must be given, its JSON name and what it may hold.

use crate::{ceiling, FILES, LAST_FIELD};
use std::sync::LazyLock;

/// Must a field be given?
#[derive(Clone, Copy, Debug, PartialEq, Eq)]
pub enum Need {
    Required,
    Optional,
    /// Where stage C's condition asks for it.
    Conditional,
}

/// What a field may hold.
#[derive(Clone, Copy, Debug)]
pub enum Form {
    /// A string of at most 100 bytes.
    Id,
    /// Any string.
    Text,
    /// This string and no other.
    Exact(&'static str),
    /// One of these words in any ASCII case.
    Word(&'static [&'static str]),
    /// Three capital letters.
    Currency,
    /// A date of the Gregorian calendar, spelled YYYY-MM-DD.
    Date,
    Boolean,
    /// A whole number, 0 or more.
    Integer,
    /// A number between two whole numbers.
    Number(i64, i64),
    /// Money of either sign, as a number.
    Money,
    /// Money of 0 or more, as a number or a string.
    Price,
    /// An object with these members.
    Object(&'static [Field]),
    /// The array of a file's records.
    Records(&'static [Field]),
    /// An array of at most so many objects, numbered by sub.
    Items(usize, &'static [Field]),
    /// An array of at most so many ids.
    Ids(usize),
    /// The polygons of a zone.
    Coordinates,
}

/// A row of the table.
#[derive(Clone, Copy, Debug)]
pub struct Field {
    pub number: u8,
    pub need: Need,
    pub name: &'static str,
    pub form: Form,
}

const fn field(number: u8, need: Need, name: &'static str, form: Form) -> Field {
    Field { number, need, name, form }
}

use Form::*;
use Need::{Conditional as C, Optional as O, Required as R};

const AT_LEAST_0: Form = Number(0, i64::MAX);
const LATITUDE: Form = Number(-90, 90);
const LONGITUDE: Form = Number(-180, 180);

/// The words of field 11.
pub const FORM_FACTORS: &[&str] =
    &["bicycle", "cargo_bicycle", "car", "moped", "scooter", "scooter_standing", "scooter_seated", "other"];
/// The words of field 12, human first.
pub const PROPULSIONS: &[&str] = &[
    "human",
    "electric_assist",
    "electric",
    "combustion",
    "combustion_diesel",
    "hybrid",
    "plug_in_hybrid",
    "hydrogen_fuel_cell",
];

const VEHICLE_TYPE: &[Field] = &[
    field(10, R, "vehicle_type_id", Id),
    field(11, R, "form_factor", Word(FORM_FACTORS)),
    field(12, R, "propulsion_type", Word(PROPULSIONS)),
    field(13, C, "max_range_meters", AT_LEAST_0),
    field(14, C, "default_pricing_plan_id", Id),
];

const STATION: &[Field] = &[
    field(20, R, "station_id", Id),
    field(21, R, "name", Text),
    field(22, R, "lat", LATITUDE),
    field(23, R, "lon", LONGITUDE),
    field(24, O, "capacity", Integer),
    field(25, O, "region_id", Id),
];

const AVAILABLE: &[Field] = &[field(38, R, "vehicle_type_id", Id), field(39, R, "count", Integer)];
const STATUS: &[Field] = &[
    field(30, R, "station_id", Id),
    field(31, R, "num_bikes_available", Integer),
    field(32, C, "num_docks_available", Integer),
    field(33, R, "is_installed", Boolean),
    field(34, R, "is_renting", Boolean),
    field(35, R, "is_returning", Boolean),
    field(36, R, "last_reported", Integer),
    field(37, C, "vehicle_types_available", Items(ceiling::ITEMS, AVAILABLE)),
];

const BIKE: &[Field] = &[
    field(40, R, "bike_id", Id),
    field(41, C, "lat", LATITUDE),
    field(42, C, "lon", LONGITUDE),
    field(43, R, "is_reserved", Boolean),
    field(44, R, "is_disabled", Boolean),
    field(45, C, "vehicle_type_id", Id),
    field(46, C, "current_range_meters", AT_LEAST_0),
    field(47, O, "station_id", Id),
    field(48, O, "pricing_plan_id", Id),
    field(49, O, "current_fuel_percent", Number(0, 1)),
];

const PER_KM: &[Field] = &[
    field(57, R, "start", Integer),
    field(58, R, "rate", Money),
    field(59, R, "interval", Integer),
    field(60, O, "end", Integer),
];
const PER_MINUTE: &[Field] = &[
    field(62, R, "start", Integer),
    field(63, R, "rate", Money),
    field(64, R, "interval", Integer),
    field(65, O, "end", Integer),
];
const PLAN: &[Field] = &[
    field(50, R, "plan_id", Id),
    field(51, R, "name", Text),
    field(52, R, "currency", Currency),
    field(53, R, "price", Price),
    field(54, R, "is_taxable", Boolean),
    field(55, R, "description", Text),
    field(56, O, "per_km_pricing", Items(ceiling::SEGMENTS, PER_KM)),
    field(61, O, "per_min_pricing", Items(ceiling::SEGMENTS, PER_MINUTE)),
    field(66, O, "surge_pricing", Boolean),
];

const RULE: &[Field] = &[
    field(78, O, "vehicle_type_id", Ids(ceiling::ITEMS)),
    field(79, R, "ride_allowed", Boolean),
    field(80, R, "ride_through_allowed", Boolean),
    field(81, O, "maximum_speed_kph", Integer),
    field(82, O, "station_parking", Boolean),
];
const GEOMETRY: &[Field] = &[field(72, R, "type", Exact("MultiPolygon")), field(73, R, "coordinates", Coordinates)];
const PROPERTIES: &[Field] =
    &[field(75, O, "start", Integer), field(76, O, "end", Integer), field(77, O, "rules", Items(ceiling::RULES, RULE))];
const ZONE: &[Field] = &[
    field(70, R, "type", Exact("Feature")),
    field(71, R, "geometry", Object(GEOMETRY)),
    field(74, R, "properties", Object(PROPERTIES)),
];
const ZONES: &[Field] = &[field(6, R, "type", Exact("FeatureCollection")), field(7, R, "features", Records(ZONE))];

/// What file 7 says of the system as a whole: it has no records.
const SYSTEM: &[Field] = &[
    field(90, R, "system_id", Text),
    field(91, R, "language", Text),
    field(92, R, "name", Text),
    field(93, R, "timezone", Text),
    field(94, O, "start_date", Date),
];

const REGION: &[Field] = &[field(100, R, "region_id", Id), field(101, R, "name", Text)];

/// The top value of each file.
const TOP: [&Field; FILES] = [
    &top(&[VERSION, LAST_UPDATED, TTL, data(&[field(5, R, "vehicle_types", Records(VEHICLE_TYPE))])]),
    &top(&[VERSION, LAST_UPDATED, TTL, data(&[field(5, R, "stations", Records(STATION))])]),
    &top(&[VERSION, LAST_UPDATED, TTL, data(&[field(5, R, "stations", Records(STATUS))])]),
    &top(&[VERSION, LAST_UPDATED, TTL, data(&[field(5, R, "bikes", Records(BIKE))])]),
    &top(&[VERSION, LAST_UPDATED, TTL, data(&[field(5, R, "plans", Records(PLAN))])]),
    &top(&[VERSION, LAST_UPDATED, TTL, data(&[field(5, R, "geofencing_zones", Object(ZONES))])]),
    &top(&[VERSION, LAST_UPDATED, TTL, data(SYSTEM)]),
    &top(&[VERSION, LAST_UPDATED, TTL, data(&[field(5, R, "regions", Records(REGION))])]),
];
const VERSION: Field = field(1, R, "version", Exact("2.3"));
const LAST_UPDATED: Field = field(2, R, "last_updated", Integer);
const TTL: Field = field(3, R, "ttl", Integer);

const fn top(members: &'static [Field]) -> Field {
    field(0, R, "", Object(members))
}

const fn data(members: &'static [Field]) -> Field {
    field(4, R, "data", Object(members))
}

/// How many numbers a field may have, 0 being one of them.
const NUMBERS: usize = LAST_FIELD as usize + 1;

/// The table of a file, as the row of its top value; files count from 1.
pub fn top_of(file: u8) -> &'static Field {
    TOP[usize::from(file) - 1]
}

/// The JSON name of a file's field: empty for the top value and for numbers that the file's table does not have.
pub fn name_of(file: u8, number: u8) -> &'static str {
    static NAMES: LazyLock<[[&str; NUMBERS]; FILES]> = LazyLock::new(|| {
        TOP.map(|top| {
            let mut names = [""; NUMBERS];
            note_names(top, &mut names);
            names
        })
    });
    NAMES[usize::from(file) - 1].get(usize::from(number)).copied().unwrap_or("")
}

fn note_names(field: &Field, names: &mut [&str; NUMBERS]) {
    names[usize::from(field.number)] = field.name;
    for member in field.form.members() {
        note_names(member, names);
    }
}

impl Form {
    /// The members that the table lists for the object, or for each object of the array, that stands here.
    pub fn members(&self) -> &'static [Field] {
        match *self {
            Object(members) | Records(members) | Items(_, members) => members,
            _ => &[],
        }
    }
}

/// The field of a record's own id, which no later record of the file may use again.
pub fn id_field(file: u8) -> Option<u8> {
    match file {
        1..=5 => Some(file * 10),
        8 => Some(100),
        _ => None,
    }
}

/// The fields that lead from a file's top value to its records; nothing for a file that has none.
pub fn way_to_records(file: u8) -> Option<&'static [u8]> {
    match file {
        6 => Some(&[4, 5, 7]),
        7 => None,
        _ => Some(&[4, 5]),
    }
}

#[cfg(test)]
mod tests {
    use super::*;

    #[test]
    fn every_number_has_one_row() {
        let mut seen = vec![0; NUMBERS];
        for top in TOP {
            fn visit(field: &Field, seen: &mut [u32]) {
                seen[usize::from(field.number)] += 1;
                field.form.members().iter().for_each(|member| visit(member, seen));
            }
            visit(top, &mut seen);
        }
        let expected = |number: usize| match number {
            0..=4 => 8,
            5 => 7,
            6 | 7 | 10..=14 | 20..=25 | 30..=66 | 70..=82 | 90..=94 | 100 | 101 => 1,
            _ => 0,
        };
        for (number, &rows) in seen.iter().enumerate() {
            assert_eq!(rows, expected(number), "field {number}");
        }
    }

    #[test]
    fn names_by_number() {
        assert_eq!(name_of(4, 5), "bikes");
        assert_eq!(name_of(6, 7), "features");
        assert_eq!(name_of(5, 65), "end");
        assert_eq!(name_of(8, 5), "regions");
        assert_eq!(name_of(8, 101), "name");
        assert_eq!(name_of(7, 5), "");
        assert_eq!(name_of(1, 65), "");
        assert_eq!(name_of(1, 200), "");
    }

    #[test]
    fn ids_and_records_by_file() {
        let files = 1..=FILES as u8;
        let ids: Vec<_> = files.clone().filter_map(id_field).collect();
        assert_eq!(ids, [10, 20, 30, 40, 50, 100]);
        // The last field on the way holds the records, and a file without a way has none.
        for file in files {
            let step = |fields: &'static [Field], number| fields.iter().find(|field| field.number == number);
            let mut last = top_of(file);
            for &number in way_to_records(file).unwrap_or_default() {
                last = step(last.form.members(), number).expect("each field lies in the one before");
            }
            assert_eq!(matches!(last.form, Records(_)), file != 7, "file {file}");
        }
    }
}
