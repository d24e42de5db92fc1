//! Stage C: a rule between records or files broken.

use crate::listed::{records, records_mut};
use crate::rng::Rng;
use crate::tree::{Members, Tree};
use crate::Draft;
use reference::table::{id_field, name_of};
use reference::{ceiling, kind, Parts};

/// Breaks some rule that stage C judges, if the set can break the one that is drawn.
pub fn break_some_rule(draft: &mut Draft, rng: &mut Rng) -> Option<Parts> {
    match rng.below(5) {
        0 => break_presence(draft, rng),
        1 => break_id(draft, rng),
        2 => break_reference(draft, rng),
        3 => break_condition(draft, rng),
        _ => break_sum(draft, rng),
    }
}

/// Kind 14 of a whole file.
fn break_presence(draft: &mut Draft, rng: &mut Rng) -> Option<Parts> {
    let file = rng.one_of(&[2, 3, 4, 7]);
    let wanted = match file {
        2 => draft[2].is_some(),
        3 => draft[1].is_some(),
        4 => draft[1].is_none(),
        _ => true,
    };
    let present = draft[usize::from(file) - 1].is_some();
    (wanted && present).then(|| {
        draft[usize::from(file) - 1] = None;
        Parts { file, kind: kind::CONDITION, ..Parts::default() }
    })
}

/// Kind 12: an earlier record once more at the end.
fn break_id(draft: &mut Draft, rng: &mut Rng) -> Option<Parts> {
    let file = rng.one_of(&[1, 2, 3, 4, 5, 8]);
    let field = id_field(file)?;
    let records = records_mut(file, draft[usize::from(file) - 1].as_mut()?)?;
    if records.is_empty() || records.len() == ceiling::RECORDS {
        return None;
    }
    records.push(rng.pick(records).clone());
    Some(Parts { file, kind: kind::ID_USED, field, record: records.len() as u16, ..Parts::default() })
}

/// The number of some record of a file.
fn pick_record(draft: &Draft, file: u8, rng: &mut Rng) -> Option<u16> {
    let count = records(file, draft[usize::from(file) - 1].as_ref()?).len();
    (count > 0).then(|| 1 + rng.below(count) as u16)
}

fn record_mut(draft: &mut Draft, file: u8, number: u16) -> Option<&mut Members> {
    records_mut(file, draft[usize::from(file) - 1].as_mut()?)?.get_mut(usize::from(number) - 1)?.members_mut()
}

/// Kind 13: an id that no record has.
fn break_reference(draft: &mut Draft, rng: &mut Rng) -> Option<Parts> {
    let (file, field) = rng.one_of(&[(1, 14), (2, 25), (3, 30), (3, 38), (4, 45), (4, 47), (4, 48), (6, 78)]);
    let nobody = Tree::text(rng.one_of(&["nobody", "T0", "\u{0}"]));
    let record = pick_record(draft, file, rng)?;
    let members = record_mut(draft, file, record)?;
    let mut sub = 0;
    match field {
        38 => {
            let items = members.get_mut(name_of(3, 37))?.items_mut()?;
            let index = rng.below(items.len().max(1));
            items.get_mut(index)?.members_mut()?.set(name_of(3, 38), nobody);
            sub = index as u16 + 1;
        }
        78 => {
            let rules = members.get_mut(name_of(6, 74))?.members_mut()?.get_mut(name_of(6, 77))?.items_mut()?;
            let index = rng.below(rules.len().max(1));
            let rule = rules.get_mut(index)?.members_mut()?;
            let mut ids = rule.get(name_of(6, 78)).map(Tree::items).unwrap_or_default().to_vec();
            ids.truncate(ceiling::ITEMS - 1);
            let nobody = if rng.flip() { Tree::text("") } else { nobody };
            ids.insert(rng.below(ids.len() + 1), nobody);
            rule.set(name_of(6, 78), Tree::Array(ids));
            sub = index as u16 + 1;
        }
        _ => members.set(name_of(file, field), nobody),
    }
    Some(Parts { file, kind: kind::REFERENCE, field, record, sub, offset: 0 })
}

/// Kind 14: a field left out that its record needs.
fn break_condition(draft: &mut Draft, rng: &mut Rng) -> Option<Parts> {
    let (file, field) = rng.one_of(&[(1, 13), (1, 14), (3, 32), (3, 37), (4, 41), (4, 42), (4, 45), (4, 46)]);
    let record = pick_record(draft, file, rng)?;
    let members = record_mut(draft, file, record)?.clone();
    let needed = match field {
        13 => has_motor(&members),
        14 => draft[4].is_some(),
        32 => another_is(draft, 2, members.get(name_of(3, 30)), |station| station.gives(name_of(2, 24))),
        37 | 45 => draft[0].is_some(),
        46 => another_is(draft, 1, members.get(name_of(4, 45)), has_motor),
        _ => !members.gives(name_of(4, 47)),
    };
    if !needed {
        return None;
    }
    let members = record_mut(draft, file, record)?;
    match rng.flip() {
        true => members.remove(name_of(file, field)),
        false => members.set(name_of(file, field), Tree::text("")),
    }
    Some(Parts { file, kind: kind::CONDITION, field, record, ..Parts::default() })
}

/// Does another file have a record of that id of which something holds?
fn another_is(draft: &Draft, file: u8, id: Option<&Tree>, holds: fn(&Members) -> bool) -> bool {
    let others = draft[usize::from(file) - 1].as_ref().map(|tree| records(file, tree)).unwrap_or_default();
    others.iter().filter_map(Tree::members).any(|other| other.get(name_of(file, file * 10)) == id && holds(other))
}

fn has_motor(vehicle_type: &Members) -> bool {
    let propulsion = vehicle_type.get(name_of(1, 12)).and_then(Tree::as_text);
    propulsion.is_some_and(|word| !word.eq_ignore_ascii_case("human"))
}

/// Kind 15: one bike more or less than the counts add up to.
fn break_sum(draft: &mut Draft, rng: &mut Rng) -> Option<Parts> {
    let record = pick_record(draft, 3, rng)?;
    let members = record_mut(draft, 3, record)?;
    let Tree::Array(items) = members.get(name_of(3, 37))? else { return None };
    let count = |item: &Tree| item.members()?.get(name_of(3, 39))?.as_number()?.parse::<u64>().ok();
    let sum: u64 = items.iter().map(count).sum::<Option<u64>>()?;
    let other = if sum == 0 || (sum < 999_999_999_999 && rng.flip()) { sum + 1 } else { sum - 1 };
    members.set(name_of(3, 31), Tree::number(other));
    Some(Parts { file: 3, kind: kind::SUM, field: 37, record, ..Parts::default() })
}
