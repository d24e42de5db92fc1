//! One file judged alone, and the records of a file that passed.

use crate::fault::Fault;
use crate::json::{parse, Object, Refusal, Value};
use crate::stage_b::stage_b;
use crate::table::{id_field, name_of, way_to_records};
use crate::{decimal, kind, Parts};
use std::collections::HashSet;

/// A file that is through stages A and B.
#[derive(Clone, Debug)]
pub struct Clean<'a> {
    pub file: u8,
    /// The file's top value; none when the file is absent.
    pub tree: Option<Value<'a>>,
}

/// A listed object of a sound file, whose members are asked for by their field numbers.
#[derive(Clone, Copy, Debug)]
pub struct Row<'t, 'a> {
    pub file: u8,
    pub object: &'t Object<'a>,
}

/// A file by itself: the tree of a clean one, the parts of its first fault otherwise.
pub fn clean(file: u8, bytes: &[u8]) -> Result<Clean<'_>, Parts> {
    let clean = Clean { file, tree: read(file, bytes)? };
    if let Some(fault) = clean.tree.as_ref().and_then(|tree| stage_b(file, tree)) {
        return Err(fault.parts(file));
    }
    match repeated_id(&clean) {
        Some(fault) => Err(fault.parts(file)),
        None => Ok(clean),
    }
}

/// Stage A of a file of a set.
pub fn read(file: u8, bytes: &[u8]) -> Result<Option<Value<'_>>, Parts> {
    if bytes.is_empty() {
        return Ok(None);
    }
    match parse(bytes) {
        Ok(tree) => Ok(Some(tree)),
        Err(Refusal { kind, offset }) => Err(Parts { file, kind, offset: offset as u32, ..Parts::default() }),
    }
}

/// Kind 12: the first record whose id a record before it has.
pub fn repeated_id(clean: &Clean) -> Option<Fault> {
    let field = id_field(clean.file)?;
    let mut seen = HashSet::new();
    let (_, record) = clean.rows().zip(1..).find(|(row, _)| row.text(field).is_some_and(|id| !seen.insert(id)))?;
    Some(Fault { record, field, sub: 0, kind: kind::ID_USED })
}

impl<'a> Clean<'a> {
    /// The file's records in order.
    pub fn rows<'t>(&'t self) -> impl Iterator<Item = Row<'t, 'a>> {
        let step = |value: &'t Value<'a>, &field| value.as_object()?.given(name_of(self.file, field));
        let array = way_to_records(self.file).and_then(|way| way.iter().try_fold(self.tree.as_ref()?, step));
        objects(self.file, array)
    }
}

impl<'t, 'a> Row<'t, 'a> {
    /// The value of a field that is given.
    pub fn value(self, field: u8) -> Option<&'t Value<'a>> {
        self.object.given(name_of(self.file, field))
    }

    pub fn has(self, field: u8) -> bool {
        self.value(field).is_some()
    }

    pub fn text(self, field: u8) -> Option<&'t [u8]> {
        self.value(field)?.as_text()
    }

    pub fn flag(self, field: u8) -> Option<bool> {
        self.value(field)?.as_bool()
    }

    /// The exact value of a number, or of a price spelled as a string.
    pub fn decimal(self, field: u8) -> Option<i128> {
        let value = self.value(field)?;
        decimal::decimal(value.as_number().or(value.as_text())?)
    }

    pub fn integer(self, field: u8) -> Option<u64> {
        u64::try_from(self.decimal(field)? / decimal::ONE).ok()
    }

    /// The object that a field holds.
    pub fn inner(self, field: u8) -> Option<Row<'t, 'a>> {
        self.value(field)?.as_object().map(|object| Row { file: self.file, object })
    }

    /// The objects of the array that a field holds.
    pub fn items(self, field: u8) -> impl Iterator<Item = Row<'t, 'a>> {
        objects(self.file, self.value(field))
    }
}

fn objects<'t, 'a>(file: u8, array: Option<&'t Value<'a>>) -> impl Iterator<Item = Row<'t, 'a>> {
    let items = array.map(Value::items).unwrap_or_default();
    items.iter().filter_map(Value::as_object).map(move |object| Row { file, object })
}
