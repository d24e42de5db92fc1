//! Answers of both sides as numbers, the way the library writes them.

/// An answer: its number, and the values that it writes into a buffer. A refusal has none.
#[derive(Clone, Debug, PartialEq, Eq, Hash)]
pub struct Answer {
    pub number: u8,
    pub values: Vec<u64>,
}

impl Answer {
    /// The bytes of the values.
    pub fn bytes(&self) -> Vec<u8> {
        self.values.iter().flat_map(|value| value.to_le_bytes()).collect()
    }

    /// An answer that gives values.
    fn giving(number: u8, parts: [u64; 6], further: &[u64]) -> Answer {
        Answer { number, values: [&parts, further].concat() }
    }

    /// An answer that gives none: no byte of a buffer changes, and none is needed.
    fn refusal(number: u8) -> Answer {
        Answer { number, values: Vec::new() }
    }
}

/// The numbers of a type of either crate. Both crates have the same shapes under names of their own, and neither knows the other.
macro_rules! answers_of {
    ($name:ident, $side:ident, $fare:pat => $fare_values:expr, $record:pat => $record_values:expr) => {
        pub mod $name {
            use super::Answer;
            use $side::{Parts, Quote, Ruling, Shown};

            fn parts(parts: Parts) -> [u64; 6] {
                let Parts { file, kind, field, record, sub, offset } = parts;
                [file.into(), kind.into(), field.into(), record.into(), sub.into(), offset.into()]
            }

            /// The value of a verdict is the word, whose first byte is the least significant one of the number.
            pub fn verdict(number: u8, word: [u8; 8]) -> Answer {
                Answer { number, values: vec![u64::from_le_bytes(word)] }
            }

            pub fn word(parts_read: Option<Parts>) -> Answer {
                match parts_read {
                    Some(read) => Answer::giving(0, parts(read), &[]),
                    None => Answer::refusal(3),
                }
            }

            pub fn quote(quote: Quote) -> Answer {
                match quote {
                    Quote::TooLong => Answer::refusal(4),
                    Quote::NotClean(found) => Answer::giving(5, parts(found), &[0; 3]),
                    Quote::NoPlan => Answer::refusal(6),
                    $fare => Answer::giving(0, [0; 6], &$fare_values),
                }
            }

            pub fn ruling(ruling: Ruling) -> Answer {
                match ruling {
                    Ruling::OffMap => Answer::refusal(8),
                    Ruling::NotClean(found) => Answer::giving(5, parts(found), &[0; 6]),
                    Ruling::NoRule => Answer::refusal(9),
                    Ruling::Is(rule) => {
                        let (ride, through) = (rule.ride.into(), rule.through.into());
                        let (limited, speed) = (rule.speed.is_some().into(), rule.speed.unwrap_or(0));
                        let (parks, parking) = (rule.parking.is_some().into(), rule.parking.unwrap_or(false).into());
                        Answer::giving(0, [0; 6], &[ride, through, limited, speed, parks, parking])
                    }
                }
            }

            pub fn shown(shown: Shown) -> Answer {
                match shown {
                    Shown::NotClean(found) => Answer::giving(5, parts(found), &[0; 2]),
                    $record => Answer::giving(0, [0; 6], &$record_values),
                    _ => Answer::refusal(10),
                }
            }
        }
    };
}

answers_of!(
    of_library, skaveldro,
    Quote::Fare(fare) => [fare.amount.cast_unsigned(), fare.past_minutes.into(), fare.past_kilometres.into()],
    Shown::Record { from, upto } => [from as u64, upto as u64]
);
answers_of!(
    of_reference, reference,
    Quote::Fare { amount, past_minutes, past_kilometres } =>
        [amount.cast_unsigned(), past_minutes.into(), past_kilometres.into()],
    Shown::Record(start, end) => [start as u64, end as u64]
);
