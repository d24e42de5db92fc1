//! Verdict words.

use crate::answer::{room, Answer};
use crate::numbers::{GIVEN, NO_WORD};
use crate::{raw, Parts};
use std::fmt;
use std::str::FromStr;

/// A verdict word: eight bytes that can be kept and read back later. Shown and read as 16 hexadecimal digits.
#[derive(Clone, Copy, PartialEq, Eq, Hash)]
pub struct Word(pub [u8; 8]);

/// What bytes say as a verdict word.
#[derive(Clone, Copy, Debug, PartialEq, Eq, Hash)]
pub enum Reading {
    /// 3: they are no word.
    NoWord,
    /// 0: its parts.
    Parts(Parts),
}

/// Reads any bytes as a verdict word.
pub fn read_word(bytes: &[u8]) -> Reading {
    let answer = Answer::<{ room(6) }>::to(|buffer| raw::read_word(bytes, buffer));
    match answer.number {
        NO_WORD => Reading::NoWord,
        GIVEN => Reading::Parts(answer.parts()),
        _ => answer.unknown(),
    }
}

impl Word {
    /// The word of every accepted set.
    pub const ACCEPTED: Word = Word([0x10, 0, 0, 0, 0, 0, 0, 0]);

    /// What the word says.
    pub fn read(self) -> Reading {
        read_word(&self.0)
    }
}

impl Reading {
    /// The number of the answer.
    pub fn number(self) -> u8 {
        match self {
            Reading::NoWord => NO_WORD,
            Reading::Parts(_) => GIVEN,
        }
    }
}

impl fmt::Display for Word {
    fn fmt(&self, out: &mut fmt::Formatter) -> fmt::Result {
        self.0.iter().try_for_each(|byte| write!(out, "{byte:02x}"))
    }
}

impl fmt::Debug for Word {
    fn fmt(&self, out: &mut fmt::Formatter) -> fmt::Result {
        write!(out, "Word({self})")
    }
}

/// The text is not 16 hexadecimal digits.
#[derive(Clone, Copy, Debug, PartialEq, Eq)]
pub struct NotHex;

impl fmt::Display for NotHex {
    fn fmt(&self, out: &mut fmt::Formatter) -> fmt::Result {
        out.write_str("a verdict word is 16 hexadecimal digits")
    }
}

impl std::error::Error for NotHex {}

impl FromStr for Word {
    type Err = NotHex;

    /// The digits of a word; blanks between them are passed over.
    fn from_str(text: &str) -> Result<Word, NotHex> {
        let digits: Option<Vec<u8>> =
            text.chars().filter(|digit| *digit != ' ').map(|digit| digit.to_digit(16).map(|value| value as u8)).collect();
        let digits: [u8; 16] = digits.and_then(|digits| digits.try_into().ok()).ok_or(NotHex)?;
        Ok(Word(std::array::from_fn(|index| digits[2 * index] << 4 | digits[2 * index + 1])))
    }
}
