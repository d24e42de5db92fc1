//! What a verdict word says.

use crate::names::{self, Kind};

/// The parts of a verdict word: all zero for an accepted set, else the first broken rule of it.
#[derive(Clone, Copy, Debug, Default, PartialEq, Eq, PartialOrd, Ord, Hash)]
pub struct Parts {
    /// The file, 1 to 8.
    pub file: u8,
    /// The kind of rule, 1 to 15.
    pub kind: u8,
    /// The field of the table, 0 being the file itself or its top value.
    pub field: u8,
    /// The record from 1, 0 being the header.
    pub record: u16,
    /// The item, rule or position in the record, from 1, where one is blamed.
    pub sub: u16,
    /// For kinds 1 to 4, the place in the file's bytes.
    pub offset: u32,
}

impl Parts {
    /// Are these the parts of an accepted set's word?
    pub fn is_accepted(self) -> bool {
        self == Parts::default()
    }

    /// The standard name of the file.
    pub fn file_name(self) -> Option<&'static str> {
        names::file_name(self.file)
    }

    /// The kind of rule that is broken.
    pub fn rule(self) -> Option<Kind> {
        Kind::of(self.kind)
    }

    /// The JSON name of the field; none for the top value.
    pub fn field_name(self) -> Option<&'static str> {
        names::field(self.file, self.field).map(|field| field.name)
    }
}
