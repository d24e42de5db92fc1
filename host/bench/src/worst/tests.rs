//! Each set held to the ceilings and to the reference.

use super::*;
use reference::{kind, verdict};
use std::collections::HashSet;

#[test]
fn sets_are_within_the_ceilings_and_sound_or_refused_as_meant() {
    for worst in &ALL {
        let files = (worst.make)().files;
        assert!(files.iter().all(|file| file.len() <= ceiling::BYTES), "{}", worst.name);
        assert!(files.iter().any(|file| file.len() > ceiling::BYTES * 9 / 10), "{}", worst.name);
        let expected = match worst.name {
            "statuses" => (3, kind::ID_USED, 30, 2),
            "empty-bikes" => (4, kind::TOO_MANY, 5, 0),
            "empty-plans" => (5, kind::TOO_MANY, 5, 0),
            "empty-rings" => (6, kind::TOO_MANY, 73, 2),
            _ => (0, 0, 0, 0),
        };
        let parts = verdict(feeds::files(&files)).parts();
        assert_eq!((parts.file, parts.kind, parts.field, parts.record), expected, "{}", worst.name);
    }
}

#[test]
fn questions_about_clean_files_are_answered() {
    for worst in ALL.iter().filter(|worst| !worst.name.starts_with("empty")) {
        let Made { files, ride, place } = (worst.make)();
        if worst.questions.contains(&Quote) {
            let quote = reference::quote(&files[4], &ride.plan, ride.seconds, ride.metres);
            assert!(matches!(quote, reference::Quote::Fare { .. }), "{}: {quote:?}", worst.name);
        }
        if worst.questions.contains(&Zone) {
            let ruling = reference::zone_rule(&files[5], place.lon, place.lat, &place.vehicle_type, place.moment);
            assert!(matches!(ruling, reference::Ruling::NoRule | reference::Ruling::Is(_)), "{}: {ruling:?}", worst.name);
        }
    }
}

#[test]
fn sets_are_made_alike_each_time() {
    for worst in &ALL {
        assert!((worst.make)().files == (worst.make)().files, "{}", worst.name);
    }
}

#[test]
fn ids_share_a_digest_and_differ() {
    for prefix in ["", PREFIX] {
        let ids = digests::colliding(prefix);
        let digest = |id: &String| id.bytes().fold(2_166_136_261, digests::mixed);
        assert_eq!(ids.iter().map(digest).collect::<HashSet<_>>().len(), 1);
        assert_eq!(ids.iter().collect::<HashSet<_>>().len(), IDS);
        assert!(ids.iter().all(|id| id.len() <= ceiling::ID));
    }
}

#[test]
fn ids_differ_in_their_last_bytes() {
    let ids = alike();
    assert!(ids.iter().all(|id| id.len() == ceiling::ID && id[..98] == ids[0][..98]));
    assert_eq!(ids.iter().collect::<HashSet<_>>().len(), IDS);
}
