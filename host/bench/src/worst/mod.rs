//! The worst sets: what someone who chose the bytes could make within the ceilings, each for one thing that a question could take long
//! over.

mod digests;
mod records;

use crate::questions::Question::{self, Quote, Verdict, Zone};
use feeds::questions::{Ride, Where};
use feeds::Set;
use records::{escaped, file, plain, slashed, stuffed, File, Spelling};
use reference::ceiling;

/// A set by its name, and the questions that it is made for.
pub struct Worst {
    pub name: &'static str,
    pub questions: &'static [Question],
    make: fn() -> Made,
}

/// A set with what is asked about it.
pub struct Made {
    pub files: Set,
    pub ride: Ride,
    pub place: Where,
}

pub const ALL: [Worst; 30] = [
    // Ids that differ and share a digest which the library once took, of 8 bytes and of 100 bytes, 92 of which they share.
    Worst { name: "digests", questions: &[Verdict, Quote], make: || referring(&digests::colliding(""), plain) },
    Worst { name: "digests-long", questions: &[Verdict, Quote], make: || referring(&digests::colliding(PREFIX), plain) },
    // Ids of which all but one differ in the last two of 100 bytes, and that one in its first, so that the others have one key: plain; spelled
    // with escapes, as all else is; and spelled with escapes where types have them, but plain where zones name these.
    Worst { name: "keys", questions: &[Verdict, Quote], make: || referring(&one_key(PREFIX), plain) },
    Worst { name: "keys-escaped", questions: &[Verdict, Quote], make: || referring(&one_key(PREFIX), escaped) },
    Worst { name: "keys-spelled", questions: &[Verdict], make: || zones(&one_key(PREFIX), escaped) },
    // The same with ids of slashes, which types have with a backslash before each, and with ids of characters of three bytes: plain; and
    // spelled with escapes where types have them.
    Worst { name: "keys-slashed", questions: &[Verdict], make: || zones(&one_key(&"/".repeat(98)), slashed) },
    Worst { name: "keys-wide", questions: &[Verdict], make: || zones(&one_key(&"€".repeat(32)), plain) },
    Worst { name: "keys-wide-spelled", questions: &[Verdict], make: || zones(&one_key(&"€".repeat(32)), escaped) },
    // Ids of 100 bytes that differ in the last two: plain; spelled with escapes, as all else is; and spelled with escapes where types have
    // them, but plain where zones name these.
    Worst { name: "prefixes", questions: &[Verdict, Quote, Zone], make: || referring(&alike(), plain) },
    Worst { name: "escapes", questions: &[Verdict, Quote, Zone], make: || referring(&alike(), escaped) },
    Worst { name: "spellings", questions: &[Verdict], make: || zones(&alike()[..257], escaped) },
    // The shortest ids, in files that are spelled with escapes throughout: names and words more than anything.
    Worst { name: "names", questions: &[Verdict, Quote, Zone], make: || referring(&short(), escaped) },
    // References from zone rules to types, as many as fit.
    Worst { name: "zones", questions: &[Verdict, Zone], make: || zones(&short(), plain) },
    // References from stations to regions, as many as fit, by ids of 100 bytes that differ in the last two.
    Worst { name: "regions", questions: &[Verdict], make: regions },
    // A type, a station and a plan as long as their files can be, named by all others.
    Worst { name: "huge", questions: &[Verdict, Quote], make: huge },
    // A station as long as its file can be, named by all statuses: refused, since only one may name it.
    Worst { name: "statuses", questions: &[Verdict], make: statuses },
    // One record a file, with as many unlisted members as fit before the listed ones.
    Worst { name: "members", questions: &[Verdict, Quote, Zone], make: || single(UNLISTED, plain) },
    // A status and a bike, which have the most listed names, with as many unlisted members as fit: plain, and with names that are
    // decoded before they are known to be none of the table's.
    Worst { name: "rows", questions: &[Verdict], make: || two(UNLISTED) },
    Worst { name: "rows-escaped", questions: &[Verdict], make: || two(r#""\u0069\u0073\u005f":0,"#) },
    // One record a file, with an unlisted member that holds arrays in arrays, or as many of the least arrays as fit.
    Worst { name: "nested", questions: &[Verdict, Quote, Zone], make: || single("[[[[[[[]]]]]]],", array) },
    Worst { name: "arrays", questions: &[Verdict, Quote, Zone], make: || single("[],", array) },
    // One record a file, filled up with blanks.
    Worst { name: "blanks", questions: &[Verdict, Quote, Zone], make: || single("    ", plain) },
    // As many as fit of the least items of field 37, segments, rules, rings and of numbers with 18 decimals.
    Worst { name: "items", questions: &[Verdict], make: items },
    Worst { name: "segments", questions: &[Verdict, Quote], make: segments },
    Worst { name: "rules", questions: &[Verdict, Zone], make: rules },
    Worst { name: "rings", questions: &[Verdict, Zone], make: || rings("[[[0,0],[0,1],[1,0],[0,0]]]", ceiling::POLYGONS) },
    Worst { name: "numbers", questions: &[Verdict, Zone], make: || rings(&digits(), 3) },
    // As many as fit of bikes or plans with no members, and of rings with no positions: refused, by stage B, which looks at each of them.
    Worst { name: "empty-bikes", questions: &[Verdict], make: empty_bikes },
    Worst { name: "empty-plans", questions: &[Verdict, Quote], make: empty_plans },
    Worst { name: "empty-rings", questions: &[Verdict, Zone], make: empty_rings },
];

impl Made {
    pub fn named(name: &str) -> Option<Made> {
        let worst = ALL.iter().find(|worst| worst.name == name)?;
        Some((worst.make)())
    }
}

/// What long ids begin with: all but two of their bytes.
const PREFIX: &str = "station-and-vehicle-and-plan-and-bike-of-one-city-and-one-operator-and-one-year-and-one-number-xyz";

/// The least member that no table lists.
const UNLISTED: &str = r#""":0,"#;

/// One more id than a file has records.
const IDS: usize = ceiling::RECORDS + 1;

/// Letters, digits and two signs: none is spelled with an escape.
const LETTERS: &[u8; 64] = b"ABCDEFGHIJKLMNOPQRSTUVWXYZabcdefghijklmnopqrstuvwxyz0123456789-_";

/// A number in so many letters.
fn numbered(number: usize, length: usize) -> String {
    (0..length).rev().map(|place| char::from(LETTERS[number >> (6 * place) & 63])).collect()
}

/// Ids of two bytes.
fn short() -> Vec<String> {
    (0..IDS).map(|number| numbered(number, 2)).collect()
}

/// Ids that differ in the two bytes behind a front.
fn behind(front: &str) -> Vec<String> {
    short().iter().map(|id| format!("{front}{id}")).collect()
}

/// Ids of 100 bytes that differ in the last two.
fn alike() -> Vec<String> {
    behind(PREFIX)
}

/// Ids that differ behind a front, but for the first, which begins otherwise: so no front is common to all, and the others have one key.
fn one_key(front: &str) -> Vec<String> {
    std::iter::once("-".into()).chain(behind(front).into_iter().skip(1)).collect()
}

/// A set of files 1 to 6 and the file of the system, without regions; a ride by a plan, and a place in the zone of `records::zone`.
fn asked(files: [File; 6], plan: &str, vehicle_type: &str) -> Made {
    let [types, stations, statuses, bikes, plans, zones] = files;
    Made {
        files: [types, stations, statuses, bikes, plans, zones, records::system(), File::ABSENT].map(File::bytes),
        ride: Ride { plan: plan.into(), seconds: 2_678_400, metres: 1_000_000 },
        place: Where { lon: 300_000, lat: 600_000, vehicle_type: vehicle_type.into(), moment: 1 },
    }
}

/// As many records with these ids as fit, which refer to one another in turns. The last id is nobody's: it is the type that is asked for.
fn referring(ids: &[String], spelled: Spelling) -> Made {
    let plans = file(5, spelled, ids.iter().map(|id| records::plan(id, "")));
    let types = file(1, spelled, ids.iter().enumerate().map(|(n, id)| records::vehicle_type(id, &ids[n % plans.records])));
    let stations = file(2, spelled, ids.iter().map(|id| records::station(id, "")));
    let status = |(n, id): (usize, &String)| records::status(id, &records::item(&ids[n % types.records]), "");
    let statuses = file(3, spelled, ids.iter().take(stations.records).enumerate().map(status));
    let bike = |(n, id): (usize, &String)| {
        let [vehicle_type, station, plan] = [&types, &stations, &plans].map(|named| ids[n % named.records].as_str());
        records::bike(id, vehicle_type, station, plan)
    };
    let bikes = file(4, spelled, ids.iter().enumerate().map(bike));
    let zones = naming(&ids[..types.records], spelled);
    let plan = ids[plans.records - 1].clone();
    asked([types, stations, statuses, bikes, plans, zones], &plan, &ids[IDS - 1])
}

/// Zones with eight rules each, of which each names as many types as it may, in turns.
fn naming(types: &[String], spelled: Spelling) -> File {
    let mut turns = types.iter().cycle();
    let mut rule = || {
        let named: Vec<String> = turns.by_ref().take(ceiling::ITEMS).map(|id| format!("\"{id}\"")).collect();
        records::rule(&format!(r#""vehicle_type_id":[{}]"#, named.join(",")))
    };
    let zones = std::iter::repeat_with(|| records::zone(&(0..8).map(|_| rule()).collect::<Vec<_>>().join(",")));
    file(6, spelled, zones.take(ceiling::RECORDS))
}

/// Types of all ids but the last, their file spelled in one way, and zones that name them as often as fits, plain. The last id is the type
/// that is asked for.
fn zones(ids: &[String], spelled: Spelling) -> Made {
    let (nobody, ids) = ids.split_last().expect("one id is nobody's");
    let types = file(1, spelled, ids.iter().map(|id| records::vehicle_type(id, "")));
    let zones = naming(&ids[..types.records], plain);
    asked([types, File::ABSENT, File::ABSENT, file(4, plain, []), File::ABSENT, zones], "", nobody)
}

fn regions() -> Made {
    let ids = alike();
    let regions = file(8, plain, ids.iter().map(|id| records::region(id)));
    let station = |(n, id): (usize, &String)| records::station(id, &format!(r#""region_id":"{}","#, ids[n % regions.records]));
    let stations = file(2, plain, ids.iter().enumerate().map(station));
    let absent = || File::ABSENT;
    let mut made = asked([absent(), stations, file(3, plain, []), absent(), absent(), one_rule()], "", "");
    made.files[7] = regions.bytes();
    made
}

fn huge() -> Made {
    let types = stuffed(1, UNLISTED, |more| records::vehicle_type_with("t", "p", more));
    let stations = stuffed(2, UNLISTED, |more| records::station("s", more));
    let plans = stuffed(5, UNLISTED, |more| records::plan("p", more));
    let statuses = file(3, plain, [records::status("s", &records::item("t"), "")]);
    let bikes = file(4, plain, short().iter().map(|id| records::bike(id, "t", "s", "p")));
    let zones = naming(&["t".into()], plain);
    asked([types, stations, statuses, bikes, plans, zones], "p", "t")
}

fn statuses() -> Made {
    let stations = stuffed(2, UNLISTED, |more| records::station("s", more));
    let statuses = file(3, plain, (0..ceiling::RECORDS).map(|_| records::status("s", "", "")));
    asked([File::ABSENT, stations, statuses, File::ABSENT, File::ABSENT, one_rule()], "", "")
}

/// A file of zones with a rule for everybody.
fn one_rule() -> File {
    file(6, plain, [records::zone(&records::rule(""))])
}

/// One record a file, each filled up with a piece, repeated as often as fits and made into members that stand before the listed ones.
fn single(piece: &str, members: fn(&str) -> String) -> Made {
    let types = stuffed(1, piece, |pieces| records::vehicle_type_with("t", "p", &members(pieces)));
    let stations = stuffed(2, piece, |pieces| records::station("s", &members(pieces)));
    let statuses = stuffed(3, piece, |pieces| records::status("s", &records::item("t"), &members(pieces)));
    let bikes = stuffed(4, piece, |pieces| records::bike_with("b", "t", "s", "p", &members(pieces)));
    let plans = stuffed(5, piece, |pieces| records::plan("p", &members(pieces)));
    let zones = stuffed(6, piece, |pieces| records::zone(&records::rule_with("", &members(pieces))));
    asked([types, stations, statuses, bikes, plans, zones], "p", "t")
}

/// An unlisted member that holds an array of items, of which each ends with a comma.
fn array(items: &str) -> String {
    format!(r#""":[{}],"#, items.trim_end_matches(','))
}

/// A status and a bike, each filled up with a piece that stands before its listed members.
fn two(piece: &str) -> Made {
    let stations = file(2, plain, [records::station("s", "")]);
    let statuses = stuffed(3, piece, |more| records::status("s", "", more));
    let bikes = stuffed(4, piece, |more| records::bike_with("b", "", "s", "", more));
    asked([File::ABSENT, stations, statuses, bikes, File::ABSENT, one_rule()], "", "")
}

fn items() -> Made {
    let ids = short();
    let types = file(1, plain, ids.iter().map(|id| records::vehicle_type(id, "")));
    let stations = file(2, plain, ids.iter().map(|id| records::station(id, "")));
    let mut turns = ids[..types.records].iter().cycle();
    let mut items = || turns.by_ref().take(ceiling::ITEMS).map(|id| records::item(id)).collect::<Vec<_>>().join(",");
    let statuses = file(3, plain, ids.iter().take(stations.records).map(|id| records::status(id, &items(), "")));
    asked([types, stations, statuses, File::ABSENT, File::ABSENT, one_rule()], "", "")
}

fn segments() -> Made {
    let segments = [r#"{"start":0,"rate":0,"interval":0}"#; ceiling::SEGMENTS].join(",");
    let pricing = format!(r#""per_km_pricing":[{segments}],"per_min_pricing":[{segments}],"#);
    let ids = alike();
    let plans = file(5, plain, ids.iter().map(|id| records::plan(id, &pricing)));
    let plan = ids[plans.records - 1].clone();
    asked([File::ABSENT, File::ABSENT, File::ABSENT, file(4, plain, []), plans, one_rule()], &plan, "")
}

fn rules() -> Made {
    let rules = vec![records::rule(""); ceiling::RULES].join(",");
    let zones = file(6, plain, (0..ceiling::RECORDS).map(|_| records::zone(&rules)));
    asked([File::ABSENT, File::ABSENT, File::ABSENT, file(4, plain, []), File::ABSENT, zones], "", "")
}

/// Zones of so many polygons of one sort. The first zone has a rule.
fn rings(polygon: &str, polygons: usize) -> Made {
    let area = vec![polygon; polygons].join(",");
    let zones = (0..ceiling::RECORDS).map(|_| records::zone_of(&area, "{}"));
    let zones = file(6, plain, std::iter::once(records::zone(&records::rule(""))).chain(zones));
    asked([File::ABSENT, File::ABSENT, File::ABSENT, file(4, plain, []), File::ABSENT, zones], "", "")
}

/// Records with no members, more than a file may have.
fn empty(number: usize) -> File {
    stuffed(number, "{},", |pieces| format!("{pieces}{{}}"))
}

fn empty_bikes() -> Made {
    asked([File::ABSENT, File::ABSENT, File::ABSENT, empty(4), File::ABSENT, one_rule()], "", "")
}

fn empty_plans() -> Made {
    asked([File::ABSENT, File::ABSENT, File::ABSENT, file(4, plain, []), empty(5), one_rule()], "", "")
}

fn empty_rings() -> Made {
    let area = |pieces: &str| format!("[{pieces}[]]");
    let zones = stuffed(6, "[],", |pieces| [records::zone(&records::rule("")), records::zone_of(&area(pieces), "{}")].join(","));
    asked([File::ABSENT, File::ABSENT, File::ABSENT, file(4, plain, []), File::ABSENT, zones], "", "")
}

/// A polygon along a parabola, of as many positions as a ring may have, with numbers of 18 decimals.
fn digits() -> String {
    let decimals = |millionths: usize| format!("{millionths:06}000000000001");
    let position = |n: usize| format!("[-179.{},-89.{}]", decimals(n), decimals(n * n));
    let way: Vec<String> = (1..ceiling::POSITIONS).map(position).collect();
    format!("[[{},{}]]", way.join(","), way[0])
}

#[cfg(test)]
mod tests;
