//! What is measured.

use crate::rapidjson::{Reads, READS};
use crate::set::Bench;
use skaveldro::Point;
use std::hint::black_box;

/// A question, asked so that all of its work is done.
#[derive(Clone, Copy, PartialEq, Eq)]
pub enum Question {
    /// Stage A: the verdict on the set with file 6, the last of the large ones, cut off at its end.
    StageA,
    /// Stages A and B: the verdict on the set with a value of another type at the end of file 6.
    StagesAB,
    Verdict,
    /// A quote, which judges file 5 and reads the plan.
    Quote,
    /// A zone rule where none applies, so that every zone is looked at.
    Zone,
    /// The bike of the greatest number there may be, so that file 4 is judged and every record of it passed.
    Show,
    /// A word read back.
    Word,
}

/// The record that is asked for, and the word that is read.
const RECORD: u64 = reference::ceiling::RECORDS as u64;
const WORD: [u8; 8] = [0x14, 0x62, 0x80, 0x03, 0, 0, 0, 0];

/// Who is asked.
#[derive(Clone, Copy, PartialEq, Eq)]
pub enum Side {
    Library,
    Reference,
    /// RapidJSON's reader, for stage A, where the bench was built with it.
    RapidJson,
}

impl Side {
    pub const ALL: [Side; 3] = [Side::Library, Side::Reference, Side::RapidJson];
    pub const NAMES: [&str; 3] = ["library", "reference", "rapidjson"];

    pub fn named(name: &str) -> Option<Side> {
        Side::ALL.into_iter().find(|side| side.name() == name)
    }

    pub fn name(self) -> &'static str {
        Side::NAMES[self as usize]
    }
}

impl Question {
    pub const ALL: [Question; 7] = [
        Question::StageA,
        Question::StagesAB,
        Question::Verdict,
        Question::Quote,
        Question::Zone,
        Question::Show,
        Question::Word,
    ];
    /// Those that read files, which takes a time that can be measured.
    pub const TIMED: [Question; 6] =
        [Question::StageA, Question::StagesAB, Question::Verdict, Question::Quote, Question::Zone, Question::Show];
    pub const NAMES: [&str; 7] = ["stage-a", "stages-ab", "verdict", "quote", "zone", "show", "word"];

    pub fn named(name: &str) -> Option<Question> {
        Question::ALL.into_iter().find(|question| question.name() == name)
    }

    pub fn name(self) -> &'static str {
        Question::NAMES[self as usize]
    }

    /// How many bytes the question reads.
    pub fn bytes(self, set: &Bench) -> usize {
        match self {
            Question::StageA | Question::StagesAB | Question::Verdict => set.files(self).map(<[u8]>::len).iter().sum(),
            Question::Quote => set.files[4].len(),
            Question::Zone => set.files[5].len(),
            Question::Show => set.files[3].len(),
            Question::Word => WORD.len(),
        }
    }

    /// Asks once; the number of the answer, if that side can be asked this.
    pub fn ask(self, side: Side, set: &Bench) -> Option<u8> {
        match side {
            Side::Library => Some(asked_library(self, black_box(set))),
            Side::Reference => Some(asked_reference(self, black_box(set))),
            Side::RapidJson if self == Question::StageA => Some(asked_rapidjson(READS?, black_box(set))),
            Side::RapidJson => None,
        }
    }
}

/// The library asked. The name is what instruction counting looks for; to keep one counts as unsafe, since two could be the same.
#[inline(never)]
#[no_mangle]
#[allow(unsafe_code)]
fn asked_library(question: Question, set: &Bench) -> u8 {
    let Bench { files, ride, place, .. } = set;
    match question {
        Question::StageA | Question::StagesAB | Question::Verdict => skaveldro::verdict(set.files(question)).number(),
        Question::Quote => skaveldro::quote(&files[4], &ride.plan, ride.seconds, ride.metres).number(),
        Question::Zone => {
            let point = Point { lon: place.lon, lat: place.lat };
            skaveldro::zone_rule(&files[5], point, &place.vehicle_type, place.moment).number()
        }
        Question::Show => skaveldro::show_record(4, RECORD, &files[3]).number(),
        Question::Word => skaveldro::read_word(&WORD).number(),
    }
}

/// The reference asked; as numbers of its answers, those that this bench meets.
#[inline(never)]
#[no_mangle]
#[allow(unsafe_code)]
fn asked_reference(question: Question, set: &Bench) -> u8 {
    use reference::{quote, read_word, show_record, verdict, zone_rule, Quote, Ruling, Shown, Verdict};
    let Bench { files, ride, place, .. } = set;
    match question {
        Question::StageA | Question::StagesAB | Question::Verdict => u8::from(verdict(set.files(question)) != Verdict::Accepted),
        Question::Quote => match quote(&files[4], &ride.plan, ride.seconds, ride.metres) {
            Quote::Fare { .. } => 0,
            _ => 1,
        },
        Question::Zone => match zone_rule(&files[5], place.lon, place.lat, &place.vehicle_type, place.moment) {
            Ruling::NoRule => 9,
            _ => 0,
        },
        Question::Show => match show_record(4, RECORD, &files[3]) {
            Shown::Record(..) => 0,
            _ => 10,
        },
        Question::Word => read_word(&WORD).map_or(3, |_| 0),
    }
}

/// RapidJSON asked for stage A: 1 where it reads every text to its end, that of file 6 being cut off there.
#[inline(never)]
#[no_mangle]
#[allow(unsafe_code)]
fn asked_rapidjson(reads: Reads, set: &Bench) -> u8 {
    u8::from(set.texts.iter().all(|text| reads(text) == text.count_bytes()))
}
