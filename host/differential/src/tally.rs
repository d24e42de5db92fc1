//! What a run has met.

use std::collections::BTreeMap;
use std::fmt;

/// How often each answer was given, by question and number; a verdict that refuses, by its kind.
#[derive(Clone, Debug, Default, PartialEq, Eq)]
pub struct Tally {
    pub sets: usize,
    answers: BTreeMap<(&'static str, u64), usize>,
}

impl Tally {
    /// Of a set that nothing has been asked about yet.
    pub fn of_one_set() -> Tally {
        Tally { sets: 1, ..Tally::default() }
    }

    pub fn count(&mut self, question: &'static str, number: impl Into<u64>) {
        *self.answers.entry((question, number.into())).or_default() += 1;
    }

    pub fn add(&mut self, other: &Tally) {
        self.sets += other.sets;
        for (&answer, count) in &other.answers {
            *self.answers.entry(answer).or_default() += count;
        }
    }

    /// How many questions were asked.
    pub fn questions(&self) -> usize {
        self.answers.values().sum()
    }

    /// How often this answer was given.
    pub fn of(&self, question: &'static str, number: u64) -> usize {
        self.answers.get(&(question, number)).copied().unwrap_or(0)
    }
}

impl fmt::Display for Tally {
    fn fmt(&self, out: &mut fmt::Formatter) -> fmt::Result {
        let mut last = "";
        for ((question, number), count) in &self.answers {
            if *question != last {
                write!(out, "{}{question}:", if last.is_empty() { "" } else { "\n" })?;
                last = question;
            }
            write!(out, " {number}×{count}")?;
        }
        Ok(())
    }
}
