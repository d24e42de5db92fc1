//! Stage B: one file's tree held to the field table, kinds 5 to 11.

use crate::fault::{Fault, Least, Place};
use crate::json::{Object, Value};
use crate::table::{top_of, Field, Form, Need};
use crate::{ceiling, coordinates, kind, scalar};

/// The least fault of a file's tree by itself.
pub fn stage_b(file: u8, top: &Value) -> Option<Fault> {
    let mut least = Least::default();
    judge(top_of(file), top, Place { record: 0, sub: 0 }, &mut least);
    least.0
}

/// Judges a value that stands for a field.
fn judge(field: &Field, value: &Value, place: Place, least: &mut Least) {
    match (field.form, value) {
        (Form::Object(fields), Value::Object(object)) => judge_members(fields, object, place, least),
        (Form::Records(fields), Value::Array(records)) => {
            if records.len() > ceiling::RECORDS {
                least.blame(place, field.number, kind::TOO_MANY);
            }
            for (record, number) in records.iter().zip(1..=ceiling::RECORDS) {
                judge_item(field, fields, record, Place { record: number, sub: 0 }, least);
            }
        }
        (Form::Items(most, fields), Value::Array(items)) => {
            if items.len() > most {
                least.blame(place, field.number, kind::TOO_MANY);
            }
            for (item, number) in items.iter().zip(1..) {
                judge_item(field, fields, item, Place { sub: number, ..place }, least);
            }
        }
        (Form::Ids(most), Value::Array(items)) => {
            if items.len() > most {
                least.blame(place, field.number, kind::TOO_MANY);
            }
            for kind in items.iter().filter_map(|item| scalar::fault(Form::Id, item)) {
                least.blame(place, field.number, kind);
            }
        }
        (Form::Coordinates, _) => {
            coordinates::judge(value, &mut |sub, kind| least.blame(Place { sub, ..place }, field.number, kind))
        }
        _ => {
            if let Some(kind) = scalar::fault(field.form, value) {
                least.blame(place, field.number, kind);
            }
        }
    }
}

/// Judges an item that has to be an object; if it is none, its array's field is blamed.
fn judge_item(array: &Field, fields: &[Field], item: &Value, place: Place, least: &mut Least) {
    match item {
        Value::Object(object) => judge_members(fields, object, place, least),
        _ => least.blame(place, array.number, kind::TYPE),
    }
}

fn judge_members(fields: &[Field], object: &Object, place: Place, least: &mut Least) {
    for field in fields {
        let mut values = object.all(field.name);
        match (values.next(), values.next()) {
            (Some(_), Some(_)) => least.blame(place, field.number, kind::TWICE),
            (Some(value), None) if !value.is_blank() => judge(field, value, place, least),
            _ if field.need == Need::Required => least.blame(place, field.number, kind::MISSING),
            _ => {}
        }
    }
}
