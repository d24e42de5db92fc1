//! Stage B: one field of one object broken.

use super::coordinates::break_coordinates;
use crate::listed::visit;
use crate::rng::Rng;
use crate::tree::{Members, Tree};
use crate::Draft;
use reference::table::{top_of, Field, Form, Need};
use reference::{ceiling, kind, Parts};

/// All rows of a file's table but the top value's. Coordinates and dates come up more often, since they have more rules than the others.
fn rows(file: u8) -> Vec<&'static Field> {
    fn collect(fields: &'static [Field], rows: &mut Vec<&'static Field>) {
        for field in fields {
            let weight = match field.form {
                Form::Coordinates => 20,
                Form::Date => 6,
                _ => 1,
            };
            rows.extend(std::iter::repeat_n(field, weight));
            collect(field.form.members(), rows);
        }
    }
    let mut rows = Vec::new();
    collect(top_of(file).form.members(), &mut rows);
    rows
}

/// Breaks some field in some object that lists it, if the set has one.
pub fn break_some_field(draft: &mut Draft, rng: &mut Rng) -> Option<Parts> {
    // Zones have the most rules.
    let file = rng.one_of(&[1, 2, 3, 4, 5, 6, 6, 7, 8]);
    let tree = draft[usize::from(file) - 1].as_mut()?;
    if rng.chance(2) {
        *tree = wrong_type(top_of(file).form, rng);
        return Some(Parts { file, kind: kind::TYPE, ..Parts::default() });
    }
    let field = rng.one_of(&rows(file));
    let lists = |fields: &[Field]| fields.iter().any(|other| other.number == field.number);
    let mut count = 0;
    visit(file, tree, &mut |_, fields, _| count += usize::from(lists(fields)));
    if count == 0 {
        return None;
    }
    let chosen = rng.below(count);
    let (mut seen, mut parts) = (0, None);
    visit(file, tree, &mut |place, fields, members| {
        if lists(fields) {
            if seen == chosen {
                let broken = break_member(field, members, rng);
                parts = broken.map(|broken| Parts {
                    file,
                    kind: broken.kind,
                    field: field.number,
                    record: broken.record.unwrap_or(place.record) as u16,
                    sub: broken.sub.unwrap_or(place.sub) as u16,
                    offset: 0,
                });
            }
            seen += 1;
        }
    });
    parts
}

/// What was broken, and where if not at the object's own place.
pub struct Broken {
    kind: u8,
    record: Option<usize>,
    sub: Option<usize>,
}

impl Broken {
    pub fn of(kind: u8) -> Broken {
        Broken { kind, record: None, sub: None }
    }

    pub fn at_sub(kind: u8, sub: usize) -> Broken {
        Broken { sub: Some(sub), ..Broken::of(kind) }
    }
}

fn break_member(field: &Field, members: &mut Members, rng: &mut Rng) -> Option<Broken> {
    match rng.below(6) {
        0 => {
            let value = members.get(field.name).cloned().unwrap_or(Tree::text(""));
            members.set(field.name, value.clone());
            members.push(field.name, if rng.flip() { value } else { Tree::Null });
            Some(Broken::of(kind::TWICE))
        }
        1 if field.need == Need::Required => {
            match rng.flip() {
                true => members.remove(field.name),
                false => members.set(field.name, Tree::text("")),
            }
            Some(Broken::of(kind::MISSING))
        }
        2 => {
            members.set(field.name, wrong_type(field.form, rng));
            Some(Broken::of(kind::TYPE))
        }
        _ => {
            if !members.gives(field.name) {
                members.set(field.name, Tree::Array(Vec::new()));
            }
            break_value(field, members.get_mut(field.name)?, rng)
        }
    }
}

/// Breaks a rule about what a field holds.
fn break_value(field: &Field, value: &mut Tree, rng: &mut Rng) -> Option<Broken> {
    match field.form {
        Form::Object(_) => None,
        Form::Records(_) => Some(break_records(value.items_mut()?, rng)),
        Form::Items(most, _) => Some(break_items(value.items_mut()?, most, rng)),
        Form::Ids(most) => Some(break_ids(value.items_mut()?, most, rng)),
        Form::Coordinates => break_coordinates(value.items_mut()?, rng),
        _ => {
            let (wrong, kind) = rng.pick(&wrong_values(field.form)?).clone();
            *value = wrong;
            Some(Broken::of(kind))
        }
    }
}

/// A value that the form's type rules out.
pub fn wrong_type(form: Form, rng: &mut Rng) -> Tree {
    let mut wrong = vec![Tree::Null];
    let mut allow = |values: &[Tree], fits: bool| {
        if !fits {
            wrong.extend_from_slice(values);
        }
    };
    let is_text =
        matches!(form, Form::Id | Form::Text | Form::Exact(_) | Form::Word(_) | Form::Currency | Form::Date | Form::Price);
    let is_number = matches!(form, Form::Integer | Form::Number(..) | Form::Money | Form::Price);
    allow(&[Tree::text("x"), Tree::text("2.3"), Tree::text("0")], is_text);
    allow(&[Tree::number("0"), Tree::number("2.3"), Tree::number("1e999")], is_number);
    allow(&[Tree::Bool(true), Tree::Bool(false)], matches!(form, Form::Boolean));
    allow(&[Tree::Object(Members::default())], matches!(form, Form::Object(_)));
    allow(&[Tree::Array(Vec::new())], matches!(form, Form::Records(_) | Form::Items(..) | Form::Ids(_) | Form::Coordinates));
    allow(&[Tree::number("1.0"), Tree::number("1.5e1")], !matches!(form, Form::Integer));
    rng.pick(&wrong).clone()
}

/// Values of the right type that break another rule, with their kinds.
pub fn wrong_values(form: Form) -> Option<Vec<(Tree, u8)>> {
    let number = |spelling: &str, kind: u8| (Tree::number(spelling), kind);
    let text = |text: &str| (Tree::text(text), kind::RANGE);
    let forms = || {
        vec![
            number("1e0", kind::FORM),
            number("0E5", kind::FORM),
            number("1000000000000", kind::FORM),
            number("-1000000000000", kind::FORM),
        ]
    };
    let places = || vec![number("1.0000000000000000000", kind::FORM), number("1.5e-1", kind::FORM)];
    let mut wrong = Vec::new();
    match form {
        Form::Id => wrong.extend([text(&"x".repeat(101)), text(&"é".repeat(51)), text(&"\u{1}".repeat(150))]),
        Form::Exact(right) => {
            wrong.extend([text(&right.to_uppercase().replace('.', ",")), text(&format!("{right} ")), text("x")])
        }
        Form::Word(words) => wrong.extend([text("tricycle"), text(&format!(" {}", words[0])), text(&words[0][1..])]),
        Form::Currency => wrong.extend([text("EURO"), text("eur"), text("EU"), text("EÉ"), text("E R")]),
        Form::Date => wrong.extend(WRONG_DATES.map(text)),
        Form::Integer => {
            wrong.extend(forms());
            wrong.extend([number("-1", kind::RANGE), number("-999999999999", kind::RANGE)]);
        }
        Form::Number(least, most) => {
            wrong.extend(forms());
            wrong.extend(places());
            wrong.push(number(&format!("{}", least - 1), kind::RANGE));
            wrong.push(number(&format!("-{}.000000000000000001", -least), kind::RANGE));
            if most < i64::MAX {
                wrong.push(number(&format!("{most}.000000000000000001"), kind::RANGE));
                wrong.push(number(&format!("{most}.00000001"), kind::RANGE));
            }
        }
        Form::Money | Form::Price => {
            wrong.extend(forms());
            wrong.extend(places());
            for spelling in ["0.00001", "1000000.0001", "-1000000.0001", "0.000000000000000001"] {
                wrong.push(number(spelling, kind::RANGE));
            }
            if matches!(form, Form::Price) {
                wrong.extend([
                    number("-0.0001", kind::RANGE),
                    text("-0"),
                    text("1e1"),
                    text(" 1"),
                    text("01"),
                    text("1."),
                    text("1000000.0001"),
                ]);
                wrong.push((Tree::text("1234567890123"), kind::FORM));
            }
        }
        _ => return None,
    }
    Some(wrong)
}

/// Strings that are no dates: days that the calendar does not have, at the ends of its months and in years that only look leap, and other
/// spellings of days that it has.
const WRONG_DATES: [&str; 36] = [
    "0001-02-29",
    "0100-02-29",
    "1900-02-29",
    "2023-02-29",
    "2100-02-29",
    "9999-02-29",
    "0000-02-30",
    "2000-02-30",
    "2024-02-30",
    "2024-01-32",
    "2024-04-31",
    "2024-06-31",
    "2024-09-31",
    "2024-11-31",
    "2024-12-32",
    "2024-00-10",
    "2024-13-10",
    "2024-20-10",
    "2024-05-00",
    "0000-00-00",
    "2024-05-99",
    "2024-05-1",
    "2024-5-10",
    "24-05-10",
    "2024-05-100",
    "02024-05-10",
    "2024-05-10 ",
    " 2024-05-10",
    "2024-05-10\u{0}",
    "2024/05/10",
    "2024-05/10",
    "20240510",
    "2024-05-1o",
    "+024-05-10",
    "２024-05-10",
    "10-05-2024",
];

/// A value that is no object and no array.
pub fn no_object(rng: &mut Rng) -> Tree {
    rng.pick(&[Tree::Null, Tree::text(""), Tree::number(0), Tree::Bool(true)]).clone()
}

fn break_records(records: &mut Vec<Tree>, rng: &mut Rng) -> Broken {
    if rng.flip() {
        records.resize(ceiling::RECORDS + 1, Tree::Null);
        return Broken::of(kind::TOO_MANY);
    }
    let index = rng.below(ceiling::RECORDS.min(records.len() + 1));
    replace(records, index, no_object(rng));
    Broken { kind: kind::TYPE, record: Some(index + 1), sub: None }
}

fn break_items(items: &mut Vec<Tree>, most: usize, rng: &mut Rng) -> Broken {
    if rng.flip() {
        let item = items.first().cloned().unwrap_or(Tree::Null);
        items.resize(most + 1, item);
        return Broken::of(kind::TOO_MANY);
    }
    let index = rng.below(most.min(items.len() + 1));
    replace(items, index, no_object(rng));
    Broken::at_sub(kind::TYPE, index + 1)
}

/// Puts an item in the place of another, or at the end.
fn replace(items: &mut Vec<Tree>, index: usize, item: Tree) {
    match items.get_mut(index) {
        Some(old) => *old = item,
        None => items.push(item),
    }
}

fn break_ids(ids: &mut Vec<Tree>, most: usize, rng: &mut Rng) -> Broken {
    if rng.chance(30) {
        ids.resize(most + 1, Tree::text("x"));
        return Broken::of(kind::TOO_MANY);
    }
    let (wrong, kind) = if rng.flip() { (Tree::Null, kind::TYPE) } else { (Tree::Text("x".repeat(101)), kind::RANGE) };
    ids.truncate(most - 1);
    ids.insert(rng.below(ids.len() + 1), wrong);
    Broken::of(kind)
}
