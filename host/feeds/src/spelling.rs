//! Trees into bytes: the shortest spelling, or one of the many longer ones.

use crate::rng::Rng;
use crate::tree::Tree;

/// The shortest bytes of a tree.
pub fn shortest(tree: &Tree) -> Vec<u8> {
    let mut writer = Writer { bytes: Vec::new(), waste: None };
    writer.value(tree);
    writer.bytes
}

/// Some bytes of a tree, of at most the given length; the shortest spelling has to fit.
pub fn varied(tree: &Tree, most: usize, rng: &mut Rng) -> Vec<u8> {
    let shortest = shortest(tree).len();
    let spare = most.saturating_sub(shortest);
    let blanks = rng.one_of(&[0, 0, 2, 10, 60]);
    let escapes = rng.one_of(&[0, 1, 5, 60]);
    let mut writer = Writer { bytes: Vec::with_capacity(shortest), waste: Some(Waste { rng, spare, blanks, escapes }) };
    writer.blanks();
    writer.value(tree);
    writer.blanks();
    writer.bytes
}

/// Where and how much a spelling is longer than it needs to be.
struct Waste<'r> {
    rng: &'r mut Rng,
    /// Bytes that may still be added.
    spare: usize,
    /// How often blanks stand between tokens, in a hundred.
    blanks: usize,
    /// How often a character is escaped that need not be, in a hundred.
    escapes: usize,
}

struct Writer<'r> {
    bytes: Vec<u8>,
    waste: Option<Waste<'r>>,
}

impl Waste<'_> {
    /// An escape that may stand for a character, now and then.
    fn escape(&mut self, character: char, needed: usize) -> Option<String> {
        let escape = self.rng.chance(self.escapes).then(|| escape(character, self.rng))?;
        self.spare = self.spare.checked_sub(escape.len().saturating_sub(needed))?;
        Some(escape)
    }
}

impl Writer<'_> {
    fn blanks(&mut self) {
        let Some(waste) = &mut self.waste else { return };
        while waste.spare > 0 && waste.rng.chance(waste.blanks) {
            self.bytes.push(waste.rng.one_of(b"  \n\t\r"));
            waste.spare -= 1;
        }
    }

    fn value(&mut self, tree: &Tree) {
        match tree {
            Tree::Null => self.bytes.extend(b"null"),
            Tree::Bool(true) => self.bytes.extend(b"true"),
            Tree::Bool(false) => self.bytes.extend(b"false"),
            Tree::Number(spelling) => self.bytes.extend(spelling.as_bytes()),
            Tree::Text(text) => self.text(text),
            Tree::Array(items) => self.list(b"[]", items, |writer, item| writer.value(item)),
            Tree::Object(members) => self.list(b"{}", &members.0, |writer, (name, value)| {
                writer.text(name);
                writer.blanks();
                writer.bytes.push(b':');
                writer.blanks();
                writer.value(value);
            }),
        }
    }

    fn list<T>(&mut self, brackets: &[u8; 2], items: &[T], write: impl Fn(&mut Self, &T)) {
        self.bytes.push(brackets[0]);
        self.blanks();
        for (index, item) in items.iter().enumerate() {
            if index > 0 {
                self.bytes.push(b',');
                self.blanks();
            }
            write(self, item);
            self.blanks();
        }
        self.bytes.push(brackets[1]);
    }

    fn text(&mut self, text: &str) {
        self.bytes.push(b'"');
        for character in text.chars() {
            let needed = needed(character);
            let longer = self.waste.as_mut().and_then(|waste| waste.escape(character, needed.len()));
            self.bytes.extend(longer.unwrap_or(needed).as_bytes());
        }
        self.bytes.push(b'"');
    }
}

/// The shortest spelling of a character in a string.
fn needed(character: char) -> String {
    match short_escape(character) {
        Some(escape) => escape.into(),
        None if character < ' ' => format!("\\u{:04x}", character as u32),
        None => character.into(),
    }
}

fn short_escape(character: char) -> Option<&'static str> {
    Some(match character {
        '"' => "\\\"",
        '\\' => "\\\\",
        '\u{8}' => "\\b",
        '\u{C}' => "\\f",
        '\n' => "\\n",
        '\r' => "\\r",
        '\t' => "\\t",
        _ => return None,
    })
}

/// A `\u` escape, or a pair of them, with digits in either case; or the one escape that is never needed.
fn escape(character: char, rng: &mut Rng) -> String {
    if character == '/' && rng.flip() {
        return "\\/".into();
    }
    let unit = |unit: &u16| if rng.flip() { format!("\\u{unit:04x}") } else { format!("\\u{unit:04X}") };
    character.encode_utf16(&mut [0; 2]).iter().map(unit).collect()
}

#[cfg(test)]
mod tests {
    use super::*;
    use reference::json::parse;

    #[test]
    fn every_spelling_is_of_the_same_tree() {
        let names = ["a", "\u{0}\u{1f}\u{7f}", "\"\\/\n\u{8}", "é€😀\u{10FFFF}\u{FEFF}"];
        let texts = Tree::Array(names.iter().map(|name| Tree::text(name)).collect());
        let tree = Tree::object([(names[1], texts), (names[2], Tree::Null), (names[3], Tree::number("-0.50e+3"))]);
        let least = shortest(&tree);
        assert_eq!(Tree::from(&parse(&least).unwrap()), tree);
        for seed in 0..500 {
            let spelled = varied(&tree, least.len() + 40, &mut Rng::new(seed));
            assert!(least.len() <= spelled.len() && spelled.len() <= least.len() + 40);
            assert_eq!(Tree::from(&parse(&spelled).unwrap()), tree, "{}", String::from_utf8_lossy(&spelled));
        }
    }
}
