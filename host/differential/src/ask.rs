//! Both sides asked the same.

use crate::answer::Answer;
use crate::case::{Case, Scale};
use crate::question::{Question, Side};
use crate::tally::Tally;
use feeds::questions::{Questions, Ride, Where, Which};
use feeds::{files, Rng, Set};
use reference::FILES;

/// A question on which the two differ.
#[derive(Debug)]
pub struct Difference {
    pub case: Case,
    pub question: String,
    pub library: String,
    pub reference: String,
}

type Held<T> = Result<T, Difference>;

/// How many rides, places and records are asked about.
fn questions_of(scale: Scale) -> usize {
    match scale {
        Scale::Few => 3,
        Scale::Some => 4,
        Scale::Many | Scale::Full => 6,
    }
}

/// Asks both about a case's set, and about the same set in other bytes, where verdict, quotes and zone rules have to stay.
pub fn ask(case: Case) -> Held<Tally> {
    let (set, other) = case.sets();
    let mut asked = Asked { case, rng: Rng::new(case.seed.rotate_left(32)), tally: Tally::of_one_set() };
    let mut questions = Questions::about(&set, case.seed);
    let verdict = asked.twice(Question::Verdict { files: files(&set) }, Question::Verdict { files: files(&other) })?;
    let bytes = verdict.bytes().try_into().expect("a verdict's value is its word");
    asked.held(Question::Word { bytes: &questions.word(bytes) })?;
    for _ in 0..questions_of(case.scale) {
        let ride = questions.ride();
        asked.twice(quote(&set, &ride), quote(&other, &ride))?;
        let place = questions.place();
        asked.twice(zone(&set, &place), zone(&other, &place))?;
        let which = questions.record();
        let index = asked.file_for(which);
        asked.held(show(&set, which, index))?;
        asked.held(show(&other, which, index))?;
    }
    Ok(asked.tally)
}

fn quote<'a>(set: &'a Set, ride: &'a Ride) -> Question<'a> {
    Question::Quote { plans: &set[4], id: &ride.plan, seconds: ride.seconds, metres: ride.metres }
}

fn zone<'a>(set: &'a Set, place: &'a Where) -> Question<'a> {
    let Where { lon, lat, vehicle_type, moment } = place;
    Question::Zone { zones: &set[5], lon: *lon, lat: *lat, type_id: vehicle_type, moment: *moment }
}

/// A record of that file, out of the bytes of the set's file at an index; no bytes where it has none.
fn show(set: &Set, which: Which, index: usize) -> Question<'_> {
    let bytes = set.get(index).map_or(&[][..], Vec::as_slice);
    Question::Show { file: which.file, record: which.number, bytes }
}

struct Asked {
    case: Case,
    rng: Rng,
    tally: Tally,
}

impl Asked {
    /// Where the bytes of a file stand in a set, or now and then those of another file.
    fn file_for(&mut self, which: Which) -> usize {
        match self.rng.chance(95) {
            true => (which.file as usize).wrapping_sub(1),
            false => self.rng.below(FILES),
        }
    }

    /// Holds the library's answer to the reference's, and to its own answer for the same in other bytes.
    fn twice(&mut self, question: Question, in_other_bytes: Question) -> Held<Answer> {
        let answer = self.held(question)?;
        self.same(format!("{question}, in other bytes"), Side::Library.answer(in_other_bytes), answer.clone())?;
        Ok(answer)
    }

    /// Holds the library's answer to the reference's, and now and then what it does to a buffer of any length as well.
    fn held(&mut self, question: Question) -> Held<Answer> {
        let library = Side::Library.answer(question);
        self.same(question.to_string(), library.clone(), Side::Reference.answer(question))?;
        match (question, library.number) {
            (Question::Verdict { .. }, 1) => self.tally.count("verdict refuses, by kind", library.bytes()[1] >> 4),
            (_, number) => self.tally.count(question.name(), number),
        }
        if self.rng.chance(15) {
            self.told(question)?;
        }
        Ok(library)
    }

    fn told(&mut self, question: Question) -> Held<()> {
        let is_short = self.rng.flip();
        let length = if is_short { self.rng.below(question.room()) } else { question.room() + self.rng.below(12) };
        let tell = |side: Side| {
            let mut buffer = vec![0xAA; length];
            (side.tell(question, &mut buffer), buffer)
        };
        let library = tell(Side::Library);
        if is_short {
            self.tally.count("into a short buffer", library.0);
        }
        self.same(format!("{question}, into {length} bytes"), library, tell(Side::Reference))
    }

    fn same<T: PartialEq + std::fmt::Debug>(&self, question: String, library: T, reference: T) -> Held<()> {
        if library == reference {
            return Ok(());
        }
        let (library, reference) = (format!("{library:?}"), format!("{reference:?}"));
        Err(Difference { case: self.case, question, library, reference })
    }
}
