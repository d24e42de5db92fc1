//! The questions, and the two that can be asked.

use crate::answer::{of_library, of_reference, Answer};
use reference::Files;
use skaveldro::{raw, Point, Reading};
use std::fmt;

/// A question with the bytes that it is about.
#[derive(Clone, Copy)]
pub enum Question<'a> {
    Verdict { files: Files<'a> },
    Word { bytes: &'a [u8] },
    Quote { plans: &'a [u8], id: &'a [u8], seconds: u64, metres: u64 },
    Zone { zones: &'a [u8], lon: i64, lat: i64, type_id: &'a [u8], moment: u64 },
    Show { file: u64, record: u64, bytes: &'a [u8] },
}

/// Who answers.
#[derive(Clone, Copy, Debug, PartialEq, Eq)]
pub enum Side {
    Library,
    Reference,
}

impl Question<'_> {
    pub fn name(&self) -> &'static str {
        match self {
            Question::Verdict { .. } => "verdict",
            Question::Word { .. } => "word",
            Question::Quote { .. } => "quote",
            Question::Zone { .. } => "zone",
            Question::Show { .. } => "show",
        }
    }

    /// The room that an answer with values needs.
    pub fn room(&self) -> usize {
        match self {
            Question::Verdict { .. } => 8,
            Question::Word { .. } => 48,
            Question::Quote { .. } => 72,
            Question::Zone { .. } => 96,
            Question::Show { .. } => 64,
        }
    }
}

impl Side {
    /// The answer, asked with room for every value.
    pub fn answer(self, question: Question) -> Answer {
        match self {
            Side::Library => library(question),
            Side::Reference => reference(question),
        }
    }

    /// The number of the answer, with its values in a buffer of any length.
    pub fn tell(self, question: Question, buffer: &mut [u8]) -> u8 {
        match (self, question) {
            (Side::Library, Question::Verdict { files }) => raw::verdict(files, buffer),
            (Side::Library, Question::Word { bytes }) => raw::read_word(bytes, buffer),
            (Side::Library, Question::Quote { plans, id, seconds, metres }) => raw::quote(plans, id, seconds, metres, buffer),
            (Side::Library, Question::Zone { zones, lon, lat, type_id, moment }) => {
                raw::zone_rule(zones, lon, lat, type_id, moment, buffer)
            }
            (Side::Library, Question::Show { file, record, bytes }) => raw::show_record(file, record, bytes, buffer),
            (Side::Reference, Question::Verdict { files }) => reference::write_verdict(buffer, files),
            (Side::Reference, _) => write(&reference(question), buffer),
        }
    }
}

/// The table's order of checking, whatever the buffer: 2 is answered last, where there are values and no room for them.
fn write(answer: &Answer, buffer: &mut [u8]) -> u8 {
    let bytes = answer.bytes();
    match buffer.get_mut(..bytes.len()) {
        Some(start) => {
            start.copy_from_slice(&bytes);
            answer.number
        }
        None => 2,
    }
}

fn library(question: Question) -> Answer {
    match question {
        Question::Verdict { files } => {
            let verdict = skaveldro::verdict(files);
            of_library::verdict(verdict.number(), verdict.word().0)
        }
        Question::Word { bytes } => of_library::word(match skaveldro::read_word(bytes) {
            Reading::NoWord => None,
            Reading::Parts(parts) => Some(parts),
        }),
        Question::Quote { plans, id, seconds, metres } => of_library::quote(skaveldro::quote(plans, id, seconds, metres)),
        Question::Zone { zones, lon, lat, type_id, moment } => {
            of_library::ruling(skaveldro::zone_rule(zones, Point { lon, lat }, type_id, moment))
        }
        Question::Show { file, record, bytes } => of_library::shown(skaveldro::show_record(file, record, bytes)),
    }
}

fn reference(question: Question) -> Answer {
    match question {
        Question::Verdict { files } => {
            let verdict = reference::verdict(files);
            of_reference::verdict(u8::from(verdict.parts().kind != 0), verdict.word())
        }
        Question::Word { bytes } => of_reference::word(reference::read_word(bytes)),
        Question::Quote { plans, id, seconds, metres } => of_reference::quote(reference::quote(plans, id, seconds, metres)),
        Question::Zone { zones, lon, lat, type_id, moment } => {
            of_reference::ruling(reference::zone_rule(zones, lon, lat, type_id, moment))
        }
        Question::Show { file, record, bytes } => of_reference::shown(reference::show_record(file, record, bytes)),
    }
}

/// What is asked, without the files.
impl fmt::Display for Question<'_> {
    fn fmt(&self, out: &mut fmt::Formatter) -> fmt::Result {
        match self {
            Question::Verdict { .. } => write!(out, "verdict"),
            Question::Word { bytes } => write!(out, "word {bytes:02x?}"),
            Question::Quote { id, seconds, metres, .. } => write!(out, "quote {id:02x?}, {seconds} s, {metres} m"),
            Question::Zone { lon, lat, type_id, moment, .. } => write!(out, "zone {lon} {lat}, {type_id:02x?} at {moment}"),
            Question::Show { file, record, .. } => write!(out, "show record {record} of file {file}"),
        }
    }
}
