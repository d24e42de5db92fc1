//! Generated sets held to the reference.

#![forbid(unsafe_code)]

use feeds::questions::Questions;
use feeds::{broken, damaged, files, respell, sound, Set, Size};
use reference::json::{parse, Refusal};
use reference::{ceiling, quote, show_record, verdict, zone_rule, Parts, Quote, Ruling, Shown, Verdict};
use std::collections::HashSet;

#[test]
fn sound_sets_are_accepted() {
    for seed in 0..2000 {
        assert_eq!(verdict(files(&sound(seed, &Size::FEW))), Verdict::Accepted, "seed {seed}");
    }
    for seed in 0..20 {
        assert_eq!(verdict(files(&sound(seed, &Size::SOME))), Verdict::Accepted, "seed {seed}");
    }
}

#[test]
fn sets_near_the_ceilings_are_accepted() {
    for size in [Size::MANY, Size::FULL] {
        let set = sound(7, &size);
        assert_eq!(verdict(files(&set)), Verdict::Accepted);
        assert!(set.iter().all(|file| file.len() <= ceiling::BYTES));
        assert!(set.iter().filter(|file| file.len() > 900_000).count() >= 3);
    }
}

#[test]
fn positions_lie_halfway_and_at_the_ends_of_the_map() {
    let (mut halves, mut ends) = (0, 0);
    for seed in 0..300 {
        let zones = sound(seed, &Size::FEW)[5].clone();
        for number in String::from_utf8(zones).unwrap().split(|c: char| !"+-.0123456789eE".contains(c)) {
            let behind_the_sixth = number.split_once('.').and_then(|(_, decimals)| decimals.get(6..));
            halves += usize::from(behind_the_sixth.is_some_and(|decimals| decimals.trim_end_matches('0') == "5"));
            ends += usize::from(number.contains("179.9999995"));
        }
    }
    assert!(halves > 200 && ends > 10, "{halves} halves, {ends} of them at 180 degrees");
}

#[test]
fn a_broken_rule_is_named() {
    let mut seen = HashSet::new();
    for seed in 0..8000 {
        let (set, broken) = broken(seed, &Size::FEW, 1);
        let expected = broken.first().map_or(Verdict::Accepted, |&parts| Verdict::Refused(parts));
        assert_eq!(verdict(files(&set)), expected, "seed {seed}");
        seen.extend(broken.iter().map(|parts| (parts.kind, parts.field)));
    }
    for kind in 5..=15 {
        assert!(seen.iter().any(|&(other, _)| other == kind), "kind {kind}");
    }
    for field in (0..=7).chain(10..=14).chain(20..=25).chain(30..=66).chain(70..=82).chain(90..=94).chain(100..=101) {
        assert!(seen.iter().any(|&(_, other)| other == field), "field {field}");
    }
}

#[test]
fn several_broken_rules_are_refused() {
    for seed in 0..3000 {
        let (set, broken) = broken(seed, &Size::FEW, 2 + seed as usize % 2);
        assert_eq!(verdict(files(&set)) == Verdict::Accepted, broken.is_empty(), "seed {seed}");
    }
    for seed in 0..10 {
        let (set, broken) = broken(seed, &Size::SOME, 3);
        assert_eq!(verdict(files(&set)) == Verdict::Accepted, broken.is_empty(), "seed {seed}");
    }
}

#[test]
fn damage_of_all_sorts() {
    let mut kinds = HashSet::new();
    for seed in 0..3000 {
        kinds.insert(verdict(files(&damaged(seed, &Size::FEW))).parts().kind);
    }
    for kind in 0..=4 {
        assert!(kinds.contains(&kind), "kind {kind}");
    }
}

#[test]
fn the_offset_of_kind_2_rests_on_the_bytes_before_it() {
    for seed in 0..2000 {
        let set = damaged(seed, &Size::FEW);
        for bytes in &set {
            let Err(Refusal { kind: 2, offset }) = parse(bytes) else { continue };
            // Up to there it is a JSON text or the beginning of one; with one byte more it is neither.
            let cut_off = Refusal { kind: 2, offset };
            assert!(parse(&bytes[..offset]).err().is_none_or(|refusal| refusal == cut_off), "seed {seed}");
            assert_eq!(parse(&bytes[..bytes.len().min(offset + 1)]), Err(cut_off), "seed {seed}");
        }
    }
}

/// All answers that hold for a set whichever way it is spelled.
fn answers(set: &Set, seed: u64) -> (Verdict, Vec<Quote>, Vec<Ruling>) {
    let mut questions = Questions::about(set, seed);
    ask(set, &mut questions)
}

fn ask(set: &Set, questions: &mut Questions) -> (Verdict, Vec<Quote>, Vec<Ruling>) {
    let rides = (0..4).map(|_| questions.ride()).map(|ride| quote(&set[4], &ride.plan, ride.seconds, ride.metres)).collect();
    let rulings = (0..4)
        .map(|_| questions.place())
        .map(|place| zone_rule(&set[5], place.lon, place.lat, &place.vehicle_type, place.moment))
        .collect();
    (verdict(files(set)), rides, rulings)
}

#[test]
fn other_spellings_have_the_same_answers() {
    for seed in 0..3000 {
        let (set, _) = broken(seed, &Size::FEW, seed as usize % 4);
        let other = respell(&set, seed + 1);
        assert_eq!(answers(&set, seed), ask(&other, &mut Questions::about(&set, seed)), "seed {seed}");
    }
    for seed in 0..10 {
        let (set, _) = broken(seed, &Size::SOME, seed as usize % 2);
        let other = respell(&set, seed + 1);
        assert_eq!(answers(&set, seed), ask(&other, &mut Questions::about(&set, seed)), "seed {seed}");
    }
}

#[test]
fn questions_meet_every_answer() {
    let (mut quotes, mut rulings, mut shown) = (HashSet::new(), HashSet::new(), HashSet::new());
    for seed in 0..1500 {
        let set = match seed % 3 {
            0 => sound(seed, &Size::FEW),
            1 => broken(seed, &Size::FEW, 1).0,
            _ => damaged(seed, &Size::FEW),
        };
        let mut questions = Questions::about(&set, seed);
        let (_, rides, places) = ask(&set, &mut questions);
        quotes.extend(rides.into_iter().map(|ride| match ride {
            Quote::NotClean(_) => Quote::NotClean(Parts::default()),
            Quote::Fare { past_minutes, past_kilometres, .. } => Quote::Fare { amount: 0, past_minutes, past_kilometres },
            other => other,
        }));
        rulings.extend(places.into_iter().map(|place| match place {
            Ruling::NotClean(_) => Ruling::NotClean(Parts::default()),
            Ruling::Is(rule) => Ruling::Is(reference::Rule { speed: rule.speed.map(|_| 0), ..rule }),
            other => other,
        }));
        shown.extend((0..4).map(|_| questions.record()).map(|which| {
            let bytes = set.get((which.file as usize).wrapping_sub(1)).map_or(&[][..], Vec::as_slice);
            match show_record(which.file, which.number, bytes) {
                Shown::NotClean(_) => Shown::NotClean(Parts::default()),
                Shown::Record(start, end) => {
                    assert_eq!((bytes[start], bytes[end - 1]), (b'{', b'}'));
                    Shown::Record(0, 0)
                }
                other => other,
            }
        }));
    }
    // Too long, not clean, no plan, and fares with either mark or none.
    assert_eq!(quotes.len(), 3 + 4);
    // Off the map, not clean, no rule, and rules with each mixture of values.
    assert_eq!(rulings.len(), 3 + 2 * 2 * 2 * 3);
    assert_eq!(shown.len(), 4);
}
