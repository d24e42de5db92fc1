//! The verdict on a feed set.

use crate::numbers::{ACCEPTED, NOT_ACCEPTED};
use crate::{raw, read_word, Files, Parts, Reading, Word};

/// The judgement on a feed set.
#[derive(Clone, Copy, Debug, PartialEq, Eq, Hash)]
pub enum Verdict {
    /// 0: the set keeps every rule.
    Accepted,
    /// 1: the first rule that it breaks, and the word that says so.
    Refused { word: Word, parts: Parts },
}

/// Judges a feed set.
pub fn verdict(files: Files) -> Verdict {
    let mut buffer = [0; 8];
    match raw::verdict(files, &mut buffer) {
        ACCEPTED => Verdict::Accepted,
        NOT_ACCEPTED => {
            let Reading::Parts(parts) = read_word(&buffer) else { unreachable!("a verdict's word is a word") };
            Verdict::Refused { word: Word(buffer), parts }
        }
        number => unreachable!("the library answered {number}"),
    }
}

impl Verdict {
    /// The number of the answer.
    pub fn number(self) -> u8 {
        match self {
            Verdict::Accepted => ACCEPTED,
            Verdict::Refused { .. } => NOT_ACCEPTED,
        }
    }

    /// The word to keep.
    pub fn word(self) -> Word {
        match self {
            Verdict::Accepted => Word::ACCEPTED,
            Verdict::Refused { word, .. } => word,
        }
    }

    /// What the word says.
    pub fn parts(self) -> Parts {
        match self {
            Verdict::Accepted => Parts::default(),
            Verdict::Refused { parts, .. } => parts,
        }
    }
}
