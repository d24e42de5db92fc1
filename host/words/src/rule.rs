//! Which rule a fault breaks.

use crate::ring;
use crate::text::not_json;
use crate::value::{first_with_id, is_empty_string, Place};
use skaveldro::names::{file_name, sort_of, Sort, FILE_NAMES};
use skaveldro::{Kind, Parts, MOST_BYTES};

/// Every rule of this kind, for where the file is not at hand.
const SOUND_RINGS: &str =
    "a polygon must have 1 to 8 rings; a ring must have 4 positions or more, end where it begins and have an area; \
    a position must have 2 or 3 numbers";

/// The rule in words. `place` is where the blamed value is in `bytes`.
pub fn rule(parts: Parts, kind: Kind, bytes: Option<&[u8]>, place: Option<Place>) -> String {
    let sort = sort_of(parts.file, parts.field);
    match kind {
        Kind::TooLong => format!("longer than {MOST_BYTES} bytes, which is the most that a file may have"),
        Kind::NotJson => bytes.map_or("not valid JSON".into(), |bytes| not_json(bytes, parts.offset as usize)),
        Kind::Unpaired => "an escaped surrogate (\\uD800 to \\uDFFF) without its other half".into(),
        Kind::TooDeep => "nested deeper than 16 levels".into(),
        Kind::NameTwice => "given more than once in the same object".into(),
        Kind::Missing => match (bytes, place) {
            (Some(bytes), Some(Place::Value(at))) if is_empty_string(bytes, at) => {
                "required, but \"\", which counts as missing".into()
            }
            _ => "required, but missing".into(),
        },
        Kind::WrongType => sort.map_or("wrong type".into(), |sort| format!("must be {}", type_of(sort, parts))),
        Kind::NumberForm => "must have at most 12 digits before the decimal point, at most 18 after it, and no exponent".into(),
        Kind::OutOfRange => sort.map_or("out of range".into(), |sort| match sort {
            Sort::Coordinates => "coordinates out of range: longitude, -180 to 180, comes first, then latitude, -90 to 90".into(),
            sort => format!("must be {}", range_of(sort)),
        }),
        Kind::TooMany => sort.map_or("too many items".into(), |sort| excess_of(sort, parts, bytes)),
        Kind::BadRing => bytes.and_then(|bytes| ring::unsound(parts, bytes)).unwrap_or_else(|| SOUND_RINGS.into()),
        Kind::IdTwice => match bytes.and_then(|bytes| first_with_id(parts, bytes)) {
            Some(number) => format!("record {number} has the same id"),
            None => "an earlier record has the same id".into(),
        },
        Kind::Dangling => reference(parts, sort),
        Kind::Condition => condition(parts),
        Kind::SumDiffers => "its counts must add up to num_bikes_available".into(),
    }
}

/// What a reference must name.
fn reference(parts: Parts, sort: Option<Sort>) -> String {
    let file = target(parts).and_then(file_name).unwrap_or("its file");
    match sort {
        Some(Sort::Ids(_)) => format!("each must be the id of a record of {file}"),
        _ => format!("must be the id of a record of {file}"),
    }
}

/// What a value has to be by its type. An item that is blamed by its number has to be an object.
fn type_of(sort: Sort, parts: Parts) -> &'static str {
    match sort {
        Sort::Records(_) if parts.record > 0 => "an object",
        Sort::Items(_) if parts.sub > 0 => "an object",
        Sort::Object => "an object",
        Sort::Records(_) | Sort::Items(_) => "an array",
        Sort::Ids(_) => "an array of strings",
        Sort::Coordinates => "arrays of polygons, rings and positions, with numbers in them",
        Sort::Id | Sort::Text | Sort::Exact(_) | Sort::Listed(_) | Sort::Currency | Sort::Date => "a string",
        Sort::Boolean => "true or false",
        Sort::Whole => "an integer",
        Sort::Positive | Sort::Between(..) | Sort::Money => "a number",
        Sort::Price => "a number, or a string that holds one",
    }
}

/// What a value has to be among those of its type.
fn range_of(sort: Sort) -> String {
    match sort {
        Sort::Exact(word) => format!("{word:?}"),
        Sort::Listed(words) => format!("one of {}", words.join(", ")),
        Sort::Currency => "three capital letters".into(),
        Sort::Date => "a day that the calendar has, written YYYY-MM-DD".into(),
        Sort::Id => "at most 100 bytes long".into(),
        Sort::Ids(_) => "ids of at most 100 bytes each".into(),
        Sort::Whole | Sort::Positive => "a number of 0 or more".into(),
        Sort::Between(least, most) => format!("a number from {least} to {most}"),
        Sort::Money => "a multiple of 0.0001 from -1000000 to 1000000".into(),
        Sort::Price => "a multiple of 0.0001 from 0 to 1000000".into(),
        _ => "within its limits".into(),
    }
}

fn excess_of(sort: Sort, parts: Parts, bytes: Option<&[u8]>) -> String {
    match sort {
        Sort::Records(most) => format!("too many records: at most {most} are allowed"),
        Sort::Items(most) | Sort::Ids(most) => format!("too many items: at most {most} are allowed"),
        Sort::Coordinates if parts.sub > 0 => "too many positions in a ring: at most 256 are allowed".into(),
        Sort::Coordinates => bytes
            .and_then(|bytes| ring::excess(parts, bytes))
            .unwrap_or_else(|| "too many polygons or rings: at most 15 of each are allowed".into()),
        _ => "too many items".into(),
    }
}

/// The file that a reference goes to, if that is what is blamed.
pub fn target(parts: Parts) -> Option<u8> {
    match parts.field {
        _ if parts.rule() != Some(Kind::Dangling) => None,
        38 | 45 | 78 => Some(1),
        30 | 47 => Some(2),
        14 | 48 => Some(5),
        25 => Some(8),
        _ => None,
    }
}

fn condition(parts: Parts) -> String {
    let [types, stations, statuses, _, plans, ..] = FILE_NAMES;
    match (parts.file, parts.field) {
        (2, 0) => format!("absent, but required since {statuses} is given"),
        (3, 0) => format!("absent, but required since {stations} is given"),
        (4, 0) => format!("absent, but required since {stations} is absent too"),
        (7, 0) => "absent, but required in every set: deliver it, with system_id, language, name and timezone".into(),
        (1, 13) => "required unless propulsion_type is human, but missing".into(),
        (1, 14) => format!("required since {plans} is given, but missing"),
        (3, 32) => "required since the station has a capacity, but missing".into(),
        (3, 37) | (4, 45) => format!("required since {types} is given, but missing"),
        (4, 41 | 42) => "required unless station_id is given, but missing".into(),
        (4, 46) => "required unless the propulsion_type of its vehicle type is human, but missing".into(),
        _ => "required here, but missing".into(),
    }
}
