//! Generated systems and regions: days at the borders of the calendar, spelled with escapes too, and references to regions, whole and broken.

mod counts;

use counts::Counts;
use feeds::listed::records;
use feeds::tree::Tree;
use feeds::{broken, sound, Set, Size};
use reference::json::parse;
use reference::table::name_of;
use reference::{clean, kind, Parts};

/// The text of a member of file 7's `data`, where it is one.
fn said(set: &Set, field: u8) -> Option<String> {
    let tree = Tree::from(&parse(&set[6]).ok()?);
    let data = tree.members()?.get(name_of(7, 4))?.members()?;
    data.get(name_of(7, field))?.as_text().map(String::from)
}

#[test]
fn days_at_the_borders_of_the_calendar() {
    let mut counts = Counts::default();
    for set in (0..3000).map(|seed| sound(seed, &Size::FEW)) {
        let date = said(&set, 94);
        let is = |test: fn(&str) -> bool| date.as_deref().is_some_and(test);
        counts.count("absent", date.is_none());
        counts.count("given as nothing", is(str::is_empty));
        counts.count("a leap day", is(|date| date.ends_with("-02-29")));
        counts.count("a leap day of a century", is(|date| date.ends_with("00-02-29")));
        counts.count("the end of February in a century that is not leap", is(|date| date.ends_with("00-02-28")));
        counts.count("a day of the year 0000", is(|date| date.starts_with("0000-")));
        counts.count("a day of the year 9999", is(|date| date.starts_with("9999-")));
        counts.count("the end of a month of 30 days", is(|date| ["-04-30", "-11-30"].iter().any(|end| date.ends_with(end))));
        counts.count("the end of a year", is(|date| date.ends_with("-12-31")));
        // A date that is not in the bytes as it is has escapes in it.
        let has_escapes = |date: &str| !set[6].windows(date.len()).any(|bytes| bytes == date.as_bytes());
        counts.count("escapes", date.is_some_and(|date| !date.is_empty() && has_escapes(&date)));
    }
    counts.all_over(10);
}

#[test]
fn days_that_there_are_not() {
    let mut counts = Counts::default();
    for seed in 0..12_000 {
        let (set, broken) = broken(seed, &Size::FEW, 1);
        let [Parts { file: 7, kind: kind::RANGE, field: 94, .. }] = broken[..] else { continue };
        let date = said(&set, 94).expect("the date is a string");
        counts.count("a 29th of February", date.ends_with("-02-29"));
        counts.count("a 29th of February of a century", date.ends_with("00-02-29"));
        counts.count("a 30th of February", date.ends_with("-02-30"));
        counts.count("a 31st of a month of 30 days", date.ends_with("-04-31") || date.ends_with("-11-31"));
        counts.count("month 0", date.contains("-00-"));
        counts.count("month 13", date.contains("-13-"));
        counts.count("day 0", date.ends_with("-00"));
        counts.count("nine bytes", date.len() == 9);
        counts.count("eleven bytes", date.len() == 11);
        counts.count("ten bytes with another sign between", date.len() == 10 && date.contains('/'));
    }
    counts.all_over(0);
}

#[test]
fn stations_name_regions() {
    let mut counts = Counts::default();
    for set in (0..2000).map(|seed| sound(seed, &Size::FEW)) {
        let stations = clean(2, &set[1]).expect("the set keeps every rule");
        let regions = clean(8, &set[7]).expect("the set keeps every rule");
        counts.count("no file of regions", set[7].is_empty());
        counts.count("a file of no regions", !set[7].is_empty() && regions.rows().next().is_none());
        counts.count("a station in a region", stations.rows().any(|station| station.has(25)));
        counts.count("a station in none", stations.rows().any(|station| !station.has(25)));
        let named: Vec<&[u8]> = stations.rows().filter_map(|station| station.text(25)).collect();
        counts.count("two stations in one region", named.iter().enumerate().any(|(n, id)| named[..n].contains(id)));
        counts
            .count("a region of no station", regions.rows().any(|region| !named.contains(&region.text(100).unwrap_or_default())));
    }
    counts.all_over(50);
}

#[test]
fn rules_of_systems_and_regions_are_broken() {
    let mut counts = Counts::default();
    for seed in 0..12_000 {
        let (set, broken) = broken(seed, &Size::FEW, 1);
        let [Parts { file, kind, field, record, .. }] = broken[..] else { continue };
        let is = |wanted| (file, kind, field) == wanted;
        counts.count("no system", is((7, kind::CONDITION, 0)));
        counts.count("a region of nobody", is((2, kind::REFERENCE, 25)));
        counts.count("a region of nobody, and no file of regions", is((2, kind::REFERENCE, 25)) && set[7].is_empty());
        counts.count("a region twice", is((8, kind::ID_USED, 100)));
        let regions = parse(&set[7]).map_or(0, |tree| records(8, &Tree::from(&tree)).len());
        counts.count("not the second of them", is((8, kind::ID_USED, 100)) && regions == usize::from(record) && record > 2);
        counts.count("a long id of a region", is((8, kind::RANGE, 100)));
        counts.count("a long id of a station's region", is((2, kind::RANGE, 25)));
        counts.count("a system without its id", is((7, kind::MISSING, 90)));
        counts.count("a date that is none by its type", is((7, kind::TYPE, 94)));
    }
    counts.all_over(3);
}
