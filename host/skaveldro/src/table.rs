//! Kinds and fields, written by scripts/table from crates/word/specs/Kinds.antt and crates/schema/specs/Table23.antt.

use crate::names::Sort::*;
use crate::names::{Field, Sort};

/// The kinds of rule that a set can break.
#[derive(Clone, Copy, Debug, PartialEq, Eq, PartialOrd, Ord, Hash)]
pub enum Kind {
    /// The file is too long.
    TooLong = 1,
    /// The file is no JSON text.
    NotJson = 2,
    /// A surrogate escape without its other half.
    Unpaired = 3,
    /// A bracket past the deepest level.
    TooDeep = 4,
    /// A listed name twice in one object.
    NameTwice = 5,
    /// A required member is not there.
    Missing = 6,
    /// A value of the wrong type.
    WrongType = 7,
    /// A number that is not in the form of listed numbers.
    NumberForm = 8,
    /// A value out of range, or none of those listed.
    OutOfRange = 9,
    /// Too many items.
    TooMany = 10,
    /// A polygon, ring or position that is none.
    BadRing = 11,
    /// An id used before in its file.
    IdTwice = 12,
    /// A reference to nothing.
    Dangling = 13,
    /// A condition that is not met.
    Condition = 14,
    /// A sum that differs.
    SumDiffers = 15,
}

impl Kind {
    /// All kinds, by number from 1.
    pub const ALL: [Kind; 15] = [
        Kind::TooLong,
        Kind::NotJson,
        Kind::Unpaired,
        Kind::TooDeep,
        Kind::NameTwice,
        Kind::Missing,
        Kind::WrongType,
        Kind::NumberForm,
        Kind::OutOfRange,
        Kind::TooMany,
        Kind::BadRing,
        Kind::IdTwice,
        Kind::Dangling,
        Kind::Condition,
        Kind::SumDiffers,
    ];

    /// A few words on the kind.
    pub fn name(self) -> &'static str {
        match self {
            Kind::TooLong => "the file is too long",
            Kind::NotJson => "the file is no JSON text",
            Kind::Unpaired => "a surrogate escape without its other half",
            Kind::TooDeep => "a bracket past the deepest level",
            Kind::NameTwice => "a listed name twice in one object",
            Kind::Missing => "a required member is not there",
            Kind::WrongType => "a value of the wrong type",
            Kind::NumberForm => "a number that is not in the form of listed numbers",
            Kind::OutOfRange => "a value out of range, or none of those listed",
            Kind::TooMany => "too many items",
            Kind::BadRing => "a polygon, ring or position that is none",
            Kind::IdTwice => "an id used before in its file",
            Kind::Dangling => "a reference to nothing",
            Kind::Condition => "a condition that is not met",
            Kind::SumDiffers => "a sum that differs",
        }
    }
}

const fn field(number: u8, within: u8, name: &'static str, sort: Sort) -> Field {
    Field { number, within, name, sort }
}

/// The fields of each file, in the table's order.
pub(crate) const FIELDS: [&[Field]; 8] = [
    &[
        field(1, 0, "version", Exact("2.3")),
        field(2, 0, "last_updated", Whole),
        field(3, 0, "ttl", Whole),
        field(4, 0, "data", Object),
        field(5, 4, "vehicle_types", Records(4095)),
        field(10, 5, "vehicle_type_id", Id),
        field(11, 5, "form_factor", Listed(&["bicycle", "cargo_bicycle", "car", "moped", "scooter", "scooter_standing", "scooter_seated", "other"])),
        field(12, 5, "propulsion_type", Listed(&["human", "electric_assist", "electric", "combustion", "combustion_diesel", "hybrid", "plug_in_hybrid", "hydrogen_fuel_cell"])),
        field(13, 5, "max_range_meters", Positive),
        field(14, 5, "default_pricing_plan_id", Id),
    ],
    &[
        field(1, 0, "version", Exact("2.3")),
        field(2, 0, "last_updated", Whole),
        field(3, 0, "ttl", Whole),
        field(4, 0, "data", Object),
        field(5, 4, "stations", Records(4095)),
        field(20, 5, "station_id", Id),
        field(21, 5, "name", Text),
        field(22, 5, "lat", Between(-90, 90)),
        field(23, 5, "lon", Between(-180, 180)),
        field(24, 5, "capacity", Whole),
        field(25, 5, "region_id", Id),
    ],
    &[
        field(1, 0, "version", Exact("2.3")),
        field(2, 0, "last_updated", Whole),
        field(3, 0, "ttl", Whole),
        field(4, 0, "data", Object),
        field(5, 4, "stations", Records(4095)),
        field(30, 5, "station_id", Id),
        field(31, 5, "num_bikes_available", Whole),
        field(32, 5, "num_docks_available", Whole),
        field(33, 5, "is_installed", Boolean),
        field(34, 5, "is_renting", Boolean),
        field(35, 5, "is_returning", Boolean),
        field(36, 5, "last_reported", Whole),
        field(37, 5, "vehicle_types_available", Items(64)),
        field(38, 37, "vehicle_type_id", Id),
        field(39, 37, "count", Whole),
    ],
    &[
        field(1, 0, "version", Exact("2.3")),
        field(2, 0, "last_updated", Whole),
        field(3, 0, "ttl", Whole),
        field(4, 0, "data", Object),
        field(5, 4, "bikes", Records(4095)),
        field(40, 5, "bike_id", Id),
        field(41, 5, "lat", Between(-90, 90)),
        field(42, 5, "lon", Between(-180, 180)),
        field(43, 5, "is_reserved", Boolean),
        field(44, 5, "is_disabled", Boolean),
        field(45, 5, "vehicle_type_id", Id),
        field(46, 5, "current_range_meters", Positive),
        field(47, 5, "station_id", Id),
        field(48, 5, "pricing_plan_id", Id),
        field(49, 5, "current_fuel_percent", Between(0, 1)),
    ],
    &[
        field(1, 0, "version", Exact("2.3")),
        field(2, 0, "last_updated", Whole),
        field(3, 0, "ttl", Whole),
        field(4, 0, "data", Object),
        field(5, 4, "plans", Records(4095)),
        field(50, 5, "plan_id", Id),
        field(51, 5, "name", Text),
        field(52, 5, "currency", Currency),
        field(53, 5, "price", Price),
        field(54, 5, "is_taxable", Boolean),
        field(55, 5, "description", Text),
        field(56, 5, "per_km_pricing", Items(16)),
        field(57, 56, "start", Whole),
        field(58, 56, "rate", Money),
        field(59, 56, "interval", Whole),
        field(60, 56, "end", Whole),
        field(61, 5, "per_min_pricing", Items(16)),
        field(62, 61, "start", Whole),
        field(63, 61, "rate", Money),
        field(64, 61, "interval", Whole),
        field(65, 61, "end", Whole),
        field(66, 5, "surge_pricing", Boolean),
    ],
    &[
        field(1, 0, "version", Exact("2.3")),
        field(2, 0, "last_updated", Whole),
        field(3, 0, "ttl", Whole),
        field(4, 0, "data", Object),
        field(5, 4, "geofencing_zones", Object),
        field(6, 5, "type", Exact("FeatureCollection")),
        field(7, 5, "features", Records(4095)),
        field(70, 7, "type", Exact("Feature")),
        field(71, 7, "geometry", Object),
        field(72, 71, "type", Exact("MultiPolygon")),
        field(73, 71, "coordinates", Coordinates),
        field(74, 7, "properties", Object),
        field(75, 74, "start", Whole),
        field(76, 74, "end", Whole),
        field(77, 74, "rules", Items(32)),
        field(78, 77, "vehicle_type_id", Ids(64)),
        field(79, 77, "ride_allowed", Boolean),
        field(80, 77, "ride_through_allowed", Boolean),
        field(81, 77, "maximum_speed_kph", Whole),
        field(82, 77, "station_parking", Boolean),
    ],
    &[
        field(1, 0, "version", Exact("2.3")),
        field(2, 0, "last_updated", Whole),
        field(3, 0, "ttl", Whole),
        field(4, 0, "data", Object),
        field(90, 4, "system_id", Text),
        field(91, 4, "language", Text),
        field(92, 4, "name", Text),
        field(93, 4, "timezone", Text),
        field(94, 4, "start_date", Date),
    ],
    &[
        field(1, 0, "version", Exact("2.3")),
        field(2, 0, "last_updated", Whole),
        field(3, 0, "ttl", Whole),
        field(4, 0, "data", Object),
        field(5, 4, "regions", Records(4095)),
        field(100, 5, "region_id", Id),
        field(101, 5, "name", Text),
    ],
];
