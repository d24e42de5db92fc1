//! Faults of one file and the order in which they are named.

use crate::Parts;

/// A broken rule of stage B or C. Faults of a file are ordered by record, field, sub, kind.
#[derive(Clone, Copy, Debug, PartialEq, Eq, PartialOrd, Ord)]
pub struct Fault {
    pub record: usize,
    pub field: u8,
    pub sub: usize,
    pub kind: u8,
}

impl Fault {
    /// The parts that name this fault of that file. Only the least fault of a file is asked for: an excess is blamed
    /// before any of the numbers that it makes too large for a word.
    pub fn parts(self, file: u8) -> Parts {
        let small = |number: usize| u16::try_from(number).expect("the least fault is within the ceilings");
        Parts { file, kind: self.kind, field: self.field, record: small(self.record), sub: small(self.sub), offset: 0 }
    }
}

/// The record, 0 being the header, and the numbered item in it where a value stands.
#[derive(Clone, Copy, Debug)]
pub struct Place {
    pub record: usize,
    pub sub: usize,
}

/// The least of the faults blamed so far.
#[derive(Debug, Default)]
pub struct Least(pub Option<Fault>);

impl Least {
    pub fn blame(&mut self, Place { record, sub }: Place, field: u8, kind: u8) {
        let fault = Fault { record, field, sub, kind };
        if self.0.is_none_or(|least| fault < least) {
            self.0 = Some(fault);
        }
    }
}
