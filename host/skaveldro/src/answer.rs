//! The numbers that an answer's buffer holds.

use crate::Parts;

/// Numbers of eight bytes each, the least significant byte first. In every answer the first six are the parts of a word.
pub struct Answer<const LENGTH: usize> {
    pub number: u8,
    bytes: [u8; LENGTH],
}

/// The room that so many numbers need.
pub const fn room(numbers: usize) -> usize {
    8 * numbers
}

impl<const LENGTH: usize> Answer<LENGTH> {
    /// What a question writes into a buffer of this length.
    pub fn to(ask: impl FnOnce(&mut [u8]) -> u8) -> Self {
        let mut bytes = [0; LENGTH];
        let number = ask(&mut bytes);
        Answer { number, bytes }
    }

    /// The number at an index.
    pub fn at(&self, index: usize) -> u64 {
        let bytes = self.bytes[8 * index..].first_chunk().expect("the index is within the answer");
        u64::from_le_bytes(*bytes)
    }

    pub fn is(&self, index: usize) -> bool {
        self.at(index) != 0
    }

    pub fn parts(&self) -> Parts {
        Parts {
            file: self.small(0),
            kind: self.small(1),
            field: self.small(2),
            record: self.small(3),
            sub: self.small(4),
            offset: self.small(5),
        }
    }

    /// A number that the word's widths bound.
    pub fn small<T: TryFrom<u64>>(&self, index: usize) -> T {
        T::try_from(self.at(index)).ok().expect("a number of an answer is within its width")
    }

    /// For a number that is none of the question's.
    pub fn unknown(&self) -> ! {
        unreachable!("the library answered {}", self.number)
    }
}
