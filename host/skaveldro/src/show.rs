//! Where a record stands.

use crate::answer::{room, Answer};
use crate::numbers::{GIVEN, NOT_CLEAN, NO_RECORD};
use crate::{raw, Parts};

/// The answer to a question for a record.
#[derive(Clone, Copy, Debug, PartialEq, Eq, Hash)]
pub enum Shown {
    /// 10: there is no such file, or the file has no such record.
    NoRecord,
    /// 5: the file is not clean, and why.
    NotClean(Parts),
    /// 0: the record's bytes are those at `from` up to `upto`, both brackets in them.
    Record { from: usize, upto: usize },
}

/// Where the record of that number, from 1, stands in the bytes of that file, 1 to 8. File 7 has no records.
pub fn show_record(file: u64, record: u64, bytes: &[u8]) -> Shown {
    let answer = Answer::<{ room(8) }>::to(|buffer| raw::show_record(file, record, bytes, buffer));
    match answer.number {
        NO_RECORD => Shown::NoRecord,
        NOT_CLEAN => Shown::NotClean(answer.parts()),
        GIVEN => Shown::Record { from: answer.small(6), upto: answer.small(7) },
        _ => answer.unknown(),
    }
}

impl Shown {
    /// The number of the answer.
    pub fn number(self) -> u8 {
        match self {
            Shown::NoRecord => NO_RECORD,
            Shown::NotClean(_) => NOT_CLEAN,
            Shown::Record { .. } => GIVEN,
        }
    }
}
