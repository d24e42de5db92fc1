//! The same trees in other bytes: members in another order, unlisted ones added, other blanks and escapes.

use crate::rng::Rng;
use crate::spelling::{shortest, varied};
use crate::tree::{Members, Tree};
use crate::{Draft, Set, FILES};
use reference::json::parse;
use reference::table::{name_of, top_of, Field, Form};
use reference::{ceiling, LAST_FIELD};

/// A set that says the same in other bytes, so that verdict, quotes and zone rules stay what they are. Files that are not through stage A
/// stay as they are.
pub fn respell(set: &Set, seed: u64) -> Set {
    let mut rng = Rng::new(seed);
    let mut other = set.clone();
    for (bytes, file) in other.iter_mut().zip(1..) {
        if let Ok(tree) = parse(bytes) {
            *bytes = write_file(file, Tree::from(&tree), Names::ALL, &mut rng);
        }
    }
    other
}

/// Writes a set in one of its many spellings.
pub fn write(draft: Draft, rng: &mut Rng) -> Set {
    let mut file = 0;
    draft.map(|tree| {
        file += 1;
        tree.map_or(Vec::new(), |tree| write_file(file, tree, Names::OLDER, rng))
    })
}

/// The listed names that are drawn for members of objects whose table has them not: those of the first files, by field numbers up to one.
#[derive(Clone, Copy)]
struct Names {
    files: i64,
    last: u8,
}

impl Names {
    const ALL: Names = Names { files: FILES as i64, last: LAST_FIELD };
    /// A set is first written with names of files 1 to 6, so that these files stay the same for a seed and what is measured on them can
    /// be compared.
    const OLDER: Names = Names { files: 6, last: 82 };
}

fn write_file(file: u8, mut tree: Tree, names: Names, rng: &mut Rng) -> Vec<u8> {
    let often = rng.one_of(&[0, 1, 10]);
    let spare = ceiling::BYTES.saturating_sub(shortest(&tree).len());
    Vary { file, names, rng, often, spare }.vary(Some(top_of(file).form), &mut tree, 1);
    varied(&tree, ceiling::BYTES, rng)
}

struct Vary<'r> {
    file: u8,
    names: Names,
    rng: &'r mut Rng,
    /// How often a member is added, in a hundred.
    often: usize,
    /// Bytes that may still be added.
    spare: usize,
}

/// The most brackets within a member that is added.
const NESTING: usize = 6;

impl Vary<'_> {
    /// Shuffles the members of every object in a value of that depth, and adds some that the table does not list for it.
    /// `form` is what the table has for the value, if it has anything.
    fn vary(&mut self, form: Option<Form>, tree: &mut Tree, depth: usize) {
        match tree {
            Tree::Object(members) => {
                let fields = match form {
                    Some(Form::Object(fields)) => fields,
                    _ => &[],
                };
                for (name, value) in &mut members.0 {
                    let listed = fields.iter().find(|field| field.name == name);
                    self.vary(listed.map(|field| field.form), value, depth + 1);
                }
                self.add(fields, members, NESTING.min(ceiling::DEPTH - depth));
                self.rng.shuffle(&mut members.0);
            }
            Tree::Array(items) => {
                let item_form = match form {
                    Some(Form::Records(fields) | Form::Items(_, fields)) => Some(Form::Object(fields)),
                    _ => None,
                };
                for item in items {
                    self.vary(item_form, item, depth + 1);
                }
            }
            _ => {}
        }
    }

    /// Adds members that the table does not list.
    fn add(&mut self, fields: &[Field], members: &mut Members, nesting: usize) {
        while self.rng.chance(self.often) {
            let name = self.name();
            let value = self.value(nesting);
            let length = shortest(&Tree::object([(&name, value.clone())])).len();
            if length <= self.spare && fields.iter().all(|field| field.name != name) {
                self.spare -= length;
                members.push(&name, value);
            }
        }
    }

    /// A name that some other object's table lists, one close to it, or any other.
    fn name(&mut self) -> String {
        let file = if self.rng.flip() { self.file } else { self.rng.between(1, self.names.files) as u8 };
        let listed = name_of(file, self.rng.below(usize::from(self.names.last) + 1) as u8);
        match self.rng.below(6) {
            0..=2 => listed.into(),
            3 => listed.to_uppercase(),
            4 => format!("{listed} "),
            _ => self.rng.one_of(&["", "x", "\\u006cat", "\"", "é", "😀", "brand_assets"]).to_string(),
        }
    }

    fn value(&mut self, nesting: usize) -> Tree {
        let count = self.rng.below(3);
        match self.rng.below(if nesting == 0 { 5 } else { 8 }) {
            0 => Tree::Null,
            1 => Tree::Bool(self.rng.flip()),
            2 => {
                Tree::number(self.rng.one_of(&["0", "-0", "1e400", "-12.5E-7", "123456789012345678901234567890", "90.00000001"]))
            }
            3 | 4 => Tree::text(self.rng.one_of(&["", "2.3", "bikes", "}]", "\u{0}", "\\ud800"])),
            5 | 6 => Tree::Object(Members((0..count).map(|_| (self.name(), self.value(nesting - 1))).collect())),
            _ => Tree::Array((0..count).map(|_| self.value(nesting - 1)).collect()),
        }
    }
}
