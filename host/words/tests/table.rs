//! The host's table of fields, which is written from the proved one, against the reference's, which is written by hand from the rules.

use reference::table::{top_of, Field, Form};
use skaveldro::names::{field, sort_of, Sort};
use skaveldro::FILES;

/// The names and sorts are those of the table that the reference was written from.
#[test]
fn the_reference_has_the_same_table() {
    fn same(form: Form, sort: Sort) -> bool {
        match (form, sort) {
            (Form::Exact(word), Sort::Exact(other)) => word == other,
            (Form::Word(words), Sort::Listed(others)) => words == others,
            (Form::Number(0, i64::MAX), Sort::Positive) => true,
            (Form::Number(from, to), Sort::Between(other_from, other_to)) => (from, to) == (other_from, other_to),
            (Form::Items(most, _), Sort::Items(other)) | (Form::Ids(most), Sort::Ids(other)) => most == other,
            (Form::Records(_), Sort::Records(other)) => other == reference::ceiling::RECORDS,
            (Form::Object(_), Sort::Object) => true,
            (Form::Coordinates, Sort::Coordinates) | (Form::Id, Sort::Id) | (Form::Text, Sort::Text) => true,
            (Form::Currency, Sort::Currency)
            | (Form::Date, Sort::Date)
            | (Form::Boolean, Sort::Boolean)
            | (Form::Integer, Sort::Whole) => true,
            (Form::Money, Sort::Money) | (Form::Price, Sort::Price) => true,
            _ => false,
        }
    }
    fn compare(file: u8, row: &Field, seen: &mut Vec<u8>) {
        seen.push(row.number);
        let sort = sort_of(file, row.number).expect("the field has a sort");
        assert!(same(row.form, sort), "file {file}, field {}: {:?}, {sort:?}", row.number, row.form);
        for member in row.form.members() {
            let named = field(file, member.number).expect("the field has a name");
            assert_eq!((named.name, named.within), (member.name, row.number), "file {file}, field {}", member.number);
            compare(file, member, seen);
        }
    }
    for file in 1..=FILES as u8 {
        let mut seen = Vec::new();
        compare(file, top_of(file), &mut seen);
        for number in 1..=u8::MAX {
            assert_eq!(field(file, number).is_some(), seen.contains(&number), "file {file}, field {number}");
        }
    }
}
