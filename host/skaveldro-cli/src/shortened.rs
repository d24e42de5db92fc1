//! Names that leave out words of a standard name.

use crate::standard::{stem, LATER_NAMES};
use skaveldro::names::FILE_NAMES;

/// Other files of GBFS that share words with these.
const OTHER_NAMES: [&str; 3] = ["system_hours", "system_calendar", "system_alerts"];

/// The file whose name a name with the ending `.json` is short for, if there is just one.
pub fn shortened(name: &str) -> Option<u8> {
    let name = name.to_lowercase();
    let words = name.strip_suffix(".json")?;
    let words: Vec<&str> =
        words.split(|letter: char| !letter.is_alphanumeric()).filter(|word| word.contains(char::is_alphabetic)).collect();
    let standard = FILE_NAMES.map(stem).into_iter().zip((1..).map(Some));
    let later = LATER_NAMES.map(|(whole, file)| (whole, Some(file)));
    let names = standard.chain(later).chain(OTHER_NAMES.map(|whole| (whole, None)));
    let mut fitting = names.filter(|(whole, _)| leaves_out(&words, whole));
    match (fitting.next(), fitting.next()) {
        (Some((_, file)), None) => file,
        _ => None,
    }
}

/// Are these the words of a whole name, in their order, with none or some left out?
fn leaves_out(words: &[&str], whole: &str) -> bool {
    let mut whole = whole.split('_');
    words.iter().all(|word| whole.any(|other| is_form(word, other)))
}

/// Is a word another in the singular or plural, or the first four or more letters of it?
fn is_form(word: &str, whole: &str) -> bool {
    word.trim_end_matches('s') == whole.trim_end_matches('s') || word.len() >= 4 && whole.starts_with(word)
}

#[cfg(test)]
mod tests {
    use super::*;

    #[test]
    fn names_with_words_left_out() {
        for (name, file) in [
            ("vehicle_types.json", 1),
            ("types.json", 1),
            ("station_info.json", 2),
            ("free_bikes.json", 4),
            ("free_bike.json", 4),
            ("Bikes.JSON", 4),
            ("free-bikes-2024-05-23.json", 4),
            ("pricing_plans.json", 5),
            ("plans.json", 5),
            ("plan.json", 5),
            ("geofencing.json", 6),
            ("zones.json", 6),
            ("system_info.json", 7),
            ("regions.json", 8),
            ("system_region.json", 8),
        ] {
            assert_eq!(shortened(name), Some(file), "{name}");
        }
    }

    /// Nothing is guessed where several names fit, or none.
    #[test]
    fn names_that_may_be_several() {
        for name in [
            "stations.json",
            "status.json",
            "vehicles.json",
            "system.json",
            "info.json",
            "information.json",
            "plans_pricing.json",
            "my_plans.json",
            "plans.txt",
            "plans",
            "2024.json",
            ".json",
            "",
        ] {
            assert_eq!(shortened(name), None, "{name}");
        }
    }
}
