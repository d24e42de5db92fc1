//! Every question of Skaveldro answered a second time, in plain Rust over a parsed tree.
//!
//! Nothing here is shared with the proved library: the rules were read again from the scope paper and written down in another shape,
//! so that a mistake in one of the two shows up as a difference. It is also the yardstick of the benchmarks, so it runs in linear time.
//!
//! The way through a set: [`json`] (stage A), [`table`] and [`stage_b`] (one file's fields), [`stage_c`] (what the files say of each other),
//! all three put in order by [`verdict()`]; [`clean()`] judges a file alone for the questions that ask one: [`quote()`], [`zone_rule()`] and
//! [`show_record()`].

#![forbid(unsafe_code)]

pub mod clean;
pub mod coordinates;
pub mod date;
pub mod decimal;
pub mod fault;
pub mod json;
pub mod quote;
pub mod scalar;
pub mod show;
pub mod stage_b;
pub mod stage_c;
pub mod table;
pub mod verdict;
pub mod word;
pub mod zone;

pub use clean::{clean, Clean};
pub use quote::{quote, Quote};
pub use show::{show_record, Shown};
pub use verdict::{verdict, write_verdict};
pub use word::{read_word, Parts, Verdict};
pub use zone::{zone_rule, Rule, Ruling};

/// How many files a set has.
pub const FILES: usize = 8;

/// The greatest field number that a word may have; no field has a greater one.
pub const LAST_FIELD: u8 = 110;

/// The files of a set in the fixed order; an empty one is absent.
pub type Files<'a> = [&'a [u8]; FILES];

/// The kinds of fault by their numbers.
pub mod kind {
    pub const TOO_LONG: u8 = 1;
    pub const NOT_JSON: u8 = 2;
    pub const SURROGATE: u8 = 3;
    pub const TOO_DEEP: u8 = 4;
    pub const TWICE: u8 = 5;
    pub const MISSING: u8 = 6;
    pub const TYPE: u8 = 7;
    pub const FORM: u8 = 8;
    pub const RANGE: u8 = 9;
    pub const TOO_MANY: u8 = 10;
    pub const RING: u8 = 11;
    pub const ID_USED: u8 = 12;
    pub const REFERENCE: u8 = 13;
    pub const CONDITION: u8 = 14;
    pub const SUM: u8 = 15;
}

/// The most of everything that a file may hold.
pub mod ceiling {
    pub const BYTES: usize = 1_048_575;
    pub const DEPTH: usize = 16;
    pub const RECORDS: usize = 4_095;
    pub const SEGMENTS: usize = 16;
    pub const POLYGONS: usize = 15;
    /// Rings of one polygon.
    pub const RINGS: usize = 8;
    /// Rings of a zone, over all its polygons.
    pub const ZONE_RINGS: usize = 15;
    pub const RULES: usize = 32;
    pub const POSITIONS: usize = 256;
    pub const ITEMS: usize = 64;
    pub const ID: usize = 100;
}
