//! The objects of a file that the field table speaks of.

use crate::tree::{Members, Tree};
use reference::fault::Place;
use reference::table::{name_of, top_of, way_to_records, Field, Form};

/// What is done at an object: its place, the rows that the table has for it, its members.
pub type Act<'a> = dyn FnMut(Place, &'static [Field], &mut Members) + 'a;

/// Visits every object for which the table lists members, outer ones first. Of repeated members all are visited.
pub fn visit(file: u8, tree: &mut Tree, act: &mut Act) {
    visit_value(top_of(file).form, tree, Place { record: 0, sub: 0 }, act);
}

fn visit_value(form: Form, tree: &mut Tree, place: Place, act: &mut Act) {
    match (form, tree) {
        (Form::Object(fields), Tree::Object(members)) => {
            act(place, fields, members);
            for (name, value) in &mut members.0 {
                if let Some(field) = fields.iter().find(|field| field.name == name) {
                    visit_value(field.form, value, place, act);
                }
            }
        }
        (Form::Records(fields), Tree::Array(records)) => {
            for (item, record) in records.iter_mut().zip(1..) {
                visit_value(Form::Object(fields), item, Place { record, sub: 0 }, act);
            }
        }
        (Form::Items(_, fields), Tree::Array(items)) => {
            for (item, sub) in items.iter_mut().zip(1..) {
                visit_value(Form::Object(fields), item, Place { sub, ..place }, act);
            }
        }
        _ => {}
    }
}

/// The array of a file's records; nothing for a file that has none.
pub fn records_mut(file: u8, tree: &mut Tree) -> Option<&mut Vec<Tree>> {
    way_to_records(file)?.iter().try_fold(tree, |tree, &field| tree.members_mut()?.get_mut(name_of(file, field)))?.items_mut()
}

/// The records of a file.
pub fn records(file: u8, tree: &Tree) -> &[Tree] {
    let array =
        way_to_records(file).and_then(|way| way.iter().try_fold(tree, |tree, &field| tree.members()?.get(name_of(file, field))));
    array.map(Tree::items).unwrap_or_default()
}
