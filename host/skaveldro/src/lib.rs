//! Skaveldro's questions in Rust, answered by the proved library.
//!
//! A file is its bytes; one without bytes is absent. Any bytes may be given: every function answers, none panics, and none reads or
//! writes past what it is lent. The functions are [`verdict`], [`read_word`], [`quote`], [`zone_rule`] and [`show_record`].
//!
//! ```
//! let bikes = br#"{"version":"2.3","last_updated":0,"ttl":0,"data":{"bikes":[{}]}}"#;
//! let files: skaveldro::Files = [b"", b"", b"", bikes, b"", b"", b"", b""];
//! let skaveldro::Verdict::Refused { word, parts } = skaveldro::verdict(files) else { panic!() };
//! assert_eq!(word.to_string(), "1462800100000000");
//! assert_eq!((parts.file_name(), parts.field_name(), parts.record), (Some("free_bike_status.json"), Some("bike_id"), 1));
//! ```
//!
//! Only [`raw`] speaks with the library; everything else is safe. A verdict needs up to 512 KB of stack, the other calls
//! less, and none allocates.

#![deny(unsafe_code)]

mod answer;
pub mod names;
mod numbers;
mod parts;
mod quote;
pub mod raw;
mod show;
#[rustfmt::skip]
mod table;
mod verdict;
mod word;
mod zone;

pub use names::Kind;
pub use parts::Parts;
pub use quote::{quote, Fare, Quote};
pub use show::{show_record, Shown};
pub use verdict::{verdict, Verdict};
pub use word::{read_word, Reading, Word};
pub use zone::{zone_rule, Point, Rule, Ruling};

/// How many files a set has.
pub const FILES: usize = 8;

/// The files of a set by number, 1 to 8: vehicle_types, station_information, station_status, free_bike_status, system_pricing_plans,
/// geofencing_zones, system_information, system_regions. One without bytes is absent.
pub type Files<'a> = [&'a [u8]; FILES];

/// The most bytes that a file may have.
pub const MOST_BYTES: usize = 1_048_575;
