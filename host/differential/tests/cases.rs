//! A short run, and what a run meets.

#![forbid(unsafe_code)]

use differential::ask::ask;
use differential::case::{Case, Scale, Sort};
use differential::tally::Tally;

/// Every answer of every question turns up.
#[test]
fn every_answer_is_met() {
    let mut total = Tally::default();
    for seed in 0..400 {
        for sort in [Sort::Sound, Sort::Broken, Sort::Damaged] {
            let case = Case { scale: Scale::Few, sort, seed };
            total.add(&ask(case).unwrap_or_else(|difference| panic!("{difference:?}")));
        }
    }
    let met = |question, numbers: &[u64]| {
        for &number in numbers {
            assert!(total.of(question, number) > 0, "{question} {number}");
        }
    };
    met("verdict", &[0]);
    met("verdict refuses, by kind", &[1, 2, 3, 4, 5, 6, 7, 8, 9, 10, 11, 12, 13, 14, 15]);
    met("word", &[0, 3]);
    met("quote", &[0, 4, 5, 6]);
    met("zone", &[0, 5, 8, 9]);
    met("show", &[0, 5, 10]);
    met("into a short buffer", &[2, 3, 4, 6, 8, 9, 10]);
    assert_eq!(total.sets, 1200);
}

#[test]
fn cases_by_name() {
    let case = Case { scale: Scale::Some, sort: Sort::Damaged, seed: 7 };
    assert_eq!(case.to_string(), "some-damaged-7");
    assert_eq!("some-damaged-7".parse(), Ok(case));
    for text in ["", "some", "some-damaged", "some-damaged-x", "all-damaged-7", "some-odd-7"] {
        assert_eq!(text.parse::<Case>(), Err(()));
    }
}
