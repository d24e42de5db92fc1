//! The verdict and its word of 64 bits.

use crate::{FILES, LAST_FIELD};

/// What a verdict names: all zero when the set is accepted.
#[derive(Clone, Copy, Debug, Default, PartialEq, Eq, PartialOrd, Ord, Hash)]
pub struct Parts {
    pub file: u8,
    pub kind: u8,
    pub field: u8,
    pub record: u16,
    pub sub: u16,
    pub offset: u32,
}

/// The judgement on a feed set.
#[derive(Clone, Copy, Debug, PartialEq, Eq, Hash)]
pub enum Verdict {
    Accepted,
    Refused(Parts),
}

const FORM: u64 = 1;

impl Verdict {
    /// The parts of the verdict's word.
    pub fn parts(self) -> Parts {
        match self {
            Verdict::Accepted => Parts::default(),
            Verdict::Refused(parts) => parts,
        }
    }

    /// The verdict's word.
    pub fn word(self) -> [u8; 8] {
        self.parts().word()
    }
}

impl Parts {
    /// The word of these parts: behind the form, each part in the bits that its row has, the highest first.
    pub fn word(self) -> [u8; 8] {
        let fields = [
            (4, u64::from(self.file)),
            (4, u64::from(self.kind)),
            (8, u64::from(self.field)),
            (12, u64::from(self.record)),
            (12, u64::from(self.sub)),
            (20, u64::from(self.offset)),
        ];
        let pack = |word: u64, (width, value): (u32, u64)| {
            assert!(value >> width == 0, "{self:?} does not fit a word");
            word << width | value
        };
        fields.into_iter().fold(FORM, pack).to_be_bytes()
    }

    /// Do the parts keep the rules of a word?
    fn is_sound(self) -> bool {
        match self.kind {
            0 => self == Parts::default(),
            1..=4 => self.has_file() && self.field == 0 && self.record == 0 && self.sub == 0,
            _ => self.has_file() && self.field <= LAST_FIELD && self.offset == 0,
        }
    }

    fn has_file(self) -> bool {
        (1..=FILES).contains(&usize::from(self.file))
    }
}

/// The parts of a word; nothing if the bytes are no word.
pub fn read_word(bytes: &[u8]) -> Option<Parts> {
    let word = u64::from_be_bytes(bytes.try_into().ok()?);
    let bits = |low: u32, width: u32| word >> low & ((1 << width) - 1);
    let parts = Parts {
        file: bits(56, 4) as u8,
        kind: bits(52, 4) as u8,
        field: bits(44, 8) as u8,
        record: bits(32, 12) as u16,
        sub: bits(20, 12) as u16,
        offset: bits(0, 20) as u32,
    };
    (bits(60, 4) == FORM && parts.is_sound()).then_some(parts)
}

#[cfg(test)]
mod tests {
    use super::*;

    #[test]
    fn worked_readings_k_and_l() {
        let k = Parts { file: 4, kind: 6, field: 40, record: 3, ..Parts::default() };
        assert_eq!(k.word(), [0x14, 0x62, 0x80, 0x03, 0, 0, 0, 0]);
        assert_eq!(read_word(&k.word()), Some(k));
        assert_eq!(Verdict::Accepted.word(), [0x10, 0, 0, 0, 0, 0, 0, 0]);
        assert_eq!(read_word(&[0x10, 0, 0, 0, 0, 0, 0, 0]), Some(Parts::default()));
    }

    #[test]
    fn each_part_at_its_width_comes_back() {
        for parts in [
            Parts { file: 8, kind: 15, field: 110, record: 4095, sub: 4095, offset: 0 },
            Parts { file: 1, kind: 2, offset: 0xF_FFFF, ..Parts::default() },
            Parts { file: 1, kind: 1, offset: 7, ..Parts::default() },
        ] {
            assert_eq!(read_word(&parts.word()), Some(parts));
        }
    }

    #[test]
    fn what_is_no_word() {
        let none = |parts: Parts| assert_eq!(read_word(&parts.word()), None, "{parts:?}");
        none(Parts { file: 1, ..Parts::default() });
        none(Parts { offset: 1, ..Parts::default() });
        none(Parts { kind: 6, ..Parts::default() });
        none(Parts { file: 9, kind: 6, ..Parts::default() });
        none(Parts { file: 1, kind: 6, field: 111, ..Parts::default() });
        none(Parts { file: 1, kind: 6, offset: 1, ..Parts::default() });
        none(Parts { file: 1, kind: 4, field: 1, ..Parts::default() });
        none(Parts { file: 1, kind: 4, record: 1, ..Parts::default() });
        none(Parts { file: 1, kind: 4, sub: 1, ..Parts::default() });
        assert_eq!(read_word(&[0x20, 0, 0, 0, 0, 0, 0, 0]), None);
        assert_eq!(read_word(&[0x10, 0, 0, 0, 0, 0, 0]), None);
        assert_eq!(read_word(&[0x10, 0, 0, 0, 0, 0, 0, 0, 0]), None);
    }
}
