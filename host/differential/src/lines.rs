//! Questions as lines of text, and their answers: the protocol of the program `answers`.
//!
//! Byte strings are lowercase hex, `-` being the one of no bytes. A line that is no question is answered `error`.
//!
//! | question | answer |
//! |---|---|
//! | `verdict LENGTH F1 .. F8` | `2`, `0 WORD` or `1 WORD` |
//! | `word BYTES` | `3` or `0 PARTS` |
//! | `quote F5 ID SECONDS METRES` | `4`, `5 PARTS`, `6` or `0 AMOUNT PAST_MINUTES PAST_KILOMETRES` |
//! | `zone F6 LAT LON TYPE MOMENT` | `8`, `5 PARTS`, `9` or `0 RIDE THROUGH SPEED PARKING` |
//! | `show F1 .. F8 FILE RECORD` | `10`, `5 PARTS` or `0 START END` |
//!
//! `LENGTH` is that of the lent buffer; `PARTS` are file, kind, field, record, sub and offset in decimal; yes and no are 1 and 0; a value
//! that is not given is `-`. A number past 64 bits is read as the greatest, or least, of them.

use crate::answer::Answer;
use crate::question::{Question, Side};
use reference::{Files, FILES};

/// The answer to a line.
pub fn answer(side: Side, line: &str) -> String {
    read_and_answer(side, line).unwrap_or_else(|| "error".into())
}

fn read_and_answer(side: Side, line: &str) -> Option<String> {
    let words: Vec<&str> = line.split(' ').collect();
    let (&question, given) = words.split_first()?;
    match (question, given) {
        ("verdict", [length, files @ ..]) => {
            let (length, files) = (number(length)?, set(files)?);
            Some(spell_verdict(side, length, files.each_ref().map(Vec::as_slice)))
        }
        ("word", [bytes]) => Some(spell(side, Question::Word { bytes: &unhex(bytes)? })),
        ("quote", [plans, id, seconds, metres]) => {
            let (plans, id) = (&unhex(plans)?, &unhex(id)?);
            Some(spell(side, Question::Quote { plans, id, seconds: number(seconds)?, metres: number(metres)? }))
        }
        ("zone", [zones, lat, lon, type_id, moment]) => {
            let (zones, type_id) = (&unhex(zones)?, &unhex(type_id)?);
            let (lat, lon, moment) = (signed(lat)?, signed(lon)?, number(moment)?);
            Some(spell(side, Question::Zone { zones, lon, lat, type_id, moment }))
        }
        ("show", [files @ .., file, record]) => {
            let (files, file, record) = (set(files)?, number(file)?, number(record)?);
            let index = usize::try_from(file).ok()?.wrapping_sub(1);
            let bytes = files.get(index).map_or(&[][..], Vec::as_slice);
            Some(spell(side, Question::Show { file, record, bytes }))
        }
        _ => None,
    }
}

/// A buffer that is longer than a word makes no difference, so that none longer than this is made.
const LONGEST: u64 = 64;

fn spell_verdict(side: Side, length: u64, files: Files) -> String {
    let mut buffer = vec![0; length.min(LONGEST) as usize];
    match side.tell(Question::Verdict { files }, &mut buffer) {
        2 => "2".into(),
        number => format!("{number} {}", hex(&buffer[..8])),
    }
}

fn spell(side: Side, question: Question) -> String {
    let Answer { number, values } = side.answer(question);
    let given: Vec<String> = match (question, number) {
        (_, 5) | (Question::Word { .. }, 0) => values[..6].iter().map(u64::to_string).collect(),
        (Question::Quote { .. }, 0) => {
            vec![values[6].cast_signed().to_string(), values[7].to_string(), values[8].to_string()]
        }
        (Question::Zone { .. }, 0) => {
            let optional = |index: usize| if values[index] == 0 { "-".into() } else { values[index + 1].to_string() };
            vec![values[6].to_string(), values[7].to_string(), optional(8), optional(10)]
        }
        _ => values.iter().skip(6).map(u64::to_string).collect(),
    };
    [vec![number.to_string()], given].concat().join(" ")
}

fn number(word: &str) -> Option<u64> {
    let is_number = !word.is_empty() && word.bytes().all(|byte| byte.is_ascii_digit());
    is_number.then(|| word.parse().unwrap_or(u64::MAX))
}

fn signed(word: &str) -> Option<i64> {
    let (digits, bound) = match word.strip_prefix('-') {
        Some(digits) => (digits, i64::MIN),
        None => (word, i64::MAX),
    };
    number(digits)?;
    Some(word.parse().unwrap_or(bound))
}

/// The files of a set, where there are as many words as it has files.
fn set(files: &[&str]) -> Option<[Vec<u8>; FILES]> {
    let files: Option<Vec<Vec<u8>>> = files.iter().map(|file| unhex(file)).collect();
    files?.try_into().ok()
}

fn unhex(word: &str) -> Option<Vec<u8>> {
    if word == "-" {
        return Some(Vec::new());
    }
    let digit = |byte: u8| match byte {
        b'0'..=b'9' => Some(byte - b'0'),
        b'a'..=b'f' => Some(byte - b'a' + 10),
        _ => None,
    };
    let pair = |pair: &[u8]| match *pair {
        [high, low] => Some(digit(high)? << 4 | digit(low)?),
        _ => None,
    };
    (!word.is_empty()).then(|| word.as_bytes().chunks(2).map(pair).collect())?
}

fn hex(bytes: &[u8]) -> String {
    bytes.iter().map(|byte| format!("{byte:02x}")).collect()
}
