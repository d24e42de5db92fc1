//! Single values that keep their rules, usual ones mixed with those at the borders.

use crate::rng::Rng;
use crate::tree::Tree;
use reference::date::days_of;

const MILLION: i64 = 1_000_000;

/// An integer of 0 or more, mostly up to `usual`.
pub fn integer(rng: &mut Rng, usual: i64) -> Tree {
    match rng.below(40) {
        0 => Tree::number("-0"),
        1 => Tree::number("999999999999"),
        _ => Tree::number(rng.between(0, usual)),
    }
}

/// A number of 0 or more.
pub fn quantity(rng: &mut Rng) -> Tree {
    match rng.below(12) {
        0 => Tree::number("-0.000"),
        1 => Tree::number("999999999999.999999999999999999"),
        2 => Tree::number("0.000000000000000001"),
        _ => {
            let (value, places) = (rng.between(0, 100 * MILLION), rng.below(19));
            Tree::Number(fixed(value, places))
        }
    }
}

/// A number from 0 to 1.
pub fn fraction(rng: &mut Rng) -> Tree {
    match rng.below(8) {
        0 => Tree::number("1.000000000000000000"),
        1 => Tree::number("0"),
        _ => Tree::Number(fixed(rng.between(0, MILLION), 6)),
    }
}

/// A coordinate of at most so many degrees in size.
pub fn degrees(rng: &mut Rng, limit: i64) -> Tree {
    match rng.below(20) {
        0 => Tree::number(limit),
        1 => Tree::Number(format!("-{limit}.000000000")),
        _ => coordinate(rng, limit, None),
    }
}

/// A coordinate of at most so many degrees in size that rounds to the given millionths, or to any.
pub fn coordinate(rng: &mut Rng, limit: i64, millionths: Option<i64>) -> Tree {
    let value = millionths.unwrap_or_else(|| rng.between(-limit * MILLION, limit * MILLION));
    if value.abs() == limit * MILLION && rng.flip() {
        return Tree::Number(rounding_to(value, "5"));
    }
    if value.abs() < limit * MILLION && rng.chance(20) {
        let decimals: String = (0..rng.between(1, 12)).map(|_| rng.one_of(&['0', '1', '5', '9'])).collect();
        return Tree::Number(rounding_to(value, &decimals));
    }
    let mut spelling = fixed(value, 6);
    if rng.chance(70) {
        spelling = spelling.trim_end_matches('0').trim_end_matches('.').into();
    }
    Tree::Number(spelling)
}

/// A coordinate that lies halfway between two millionths and rounds to the given one, if that is not zero.
pub fn halfway(millionths: i64) -> Tree {
    Tree::Number(rounding_to(millionths, "50"))
}

/// A spelling that has these decimals behind the sixth and rounds to so many millionths: from below in size where they come to half a
/// millionth, from above where they do not. What rounds to zero has a first decimal of 4 at most, and may have either sign.
fn rounding_to(value: i64, decimals: &str) -> String {
    let size = value.abs();
    let spelling = match (decimals >= "5", size) {
        (false, _) => fixed(size, 6) + decimals,
        (true, 0) => fixed(0, 6) + "4" + &decimals[1..],
        (true, _) => fixed(size - 1, 6) + decimals,
    };
    let negative = value < 0 || (value == 0 && decimals.len() % 2 == 1);
    if negative {
        format!("-{spelling}")
    } else {
        spelling
    }
}

/// Money of `least` to a million, as a number.
pub fn money(rng: &mut Rng, least: i64) -> Tree {
    Tree::Number(money_spelling(rng, least))
}

/// Money of 0 or more, as a number or a string.
pub fn price(rng: &mut Rng) -> Tree {
    let spelling = money_spelling(rng, 0);
    match rng.flip() {
        true => Tree::Number(spelling),
        false => Tree::Text(spelling),
    }
}

fn money_spelling(rng: &mut Rng, least: i64) -> String {
    let mut spelling = match rng.below(20) {
        0 => fixed(MILLION * 10_000, 4),
        1 => fixed(least * 10_000, 4),
        _ => fixed(rng.between(least.max(-20) * 10_000, 20 * 10_000), 4),
    };
    for _ in 0..rng.below(3) {
        spelling.push('0');
    }
    spelling
}

/// `value` divided by a power of ten, with all its places.
pub fn fixed(value: i64, places: usize) -> String {
    let sign = if value < 0 { "-" } else { "" };
    let digits = format!("{:0width$}", value.unsigned_abs(), width = places + 1);
    let (whole, rest) = digits.split_at(digits.len() - places);
    match rest.is_empty() {
        true => format!("{sign}{whole}"),
        false => format!("{sign}{whole}.{rest}"),
    }
}

/// A date: mostly of a year that is leap or only looks so, and often the first or the last day of a month.
pub fn date(rng: &mut Rng) -> Tree {
    let year = match rng.below(3) {
        0 => rng.below(10_000) as u32,
        _ => rng.one_of(&[0, 4, 100, 400, 1900, 1999, 2000, 2023, 2024, 2100, 9600, 9999]),
    };
    let month = if rng.flip() { 2 } else { 1 + rng.below(12) as u32 };
    let last = days_of(year, month);
    let day = match rng.below(3) {
        0 => 1 + rng.below(last as usize) as u32,
        1 => 1,
        _ => last,
    };
    Tree::Text(format!("{year:04}-{month:02}-{day:02}"))
}

/// One of the words in letters of either case.
pub fn word(rng: &mut Rng, words: &[&str]) -> Tree {
    let word = rng.one_of(words);
    match rng.below(3) {
        0 => Tree::Text(word.chars().map(|letter| if rng.flip() { letter.to_ascii_uppercase() } else { letter }).collect()),
        _ => Tree::text(word),
    }
}

/// A string of at least one character.
pub fn prose(rng: &mut Rng) -> Tree {
    let length = rng.between(1, 20);
    Tree::Text((0..length).map(|_| character(rng)).collect())
}

/// An id of at most so many bytes, which no other number has.
pub fn id(rng: &mut Rng, letter: char, number: usize, most: usize) -> String {
    let mut id = format!("{letter}{number}");
    let length = match rng.below(8) {
        0 => most,
        1..=3 => rng.below(most + 1),
        _ => 0,
    };
    if id.len() < length {
        id.push(':');
    }
    while id.len() < length {
        let next = character(rng);
        id.push(if id.len() + next.len_utf8() <= length { next } else { 'x' });
    }
    id
}

fn character(rng: &mut Rng) -> char {
    match rng.below(30) {
        0 => rng.one_of(&['"', '\\', '/', '\n', '\t', '\u{0}', '\u{1f}', '\u{7f}']),
        1 => rng.one_of(&['é', 'ß', '€', '\u{FEFF}', '\u{FFFF}', '😀', '\u{10FFFF}']),
        2 => rng.one_of(&['{', '}', '[', ']', ',', ':', ' ']),
        _ => rng.between(i64::from(b'a'), i64::from(b'z')) as u8 as char,
    }
}
