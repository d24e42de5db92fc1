//! Verdicts on small sets: a sound set of all files, changed in one place at a time.

#![forbid(unsafe_code)]

use reference::{verdict, Parts, Verdict, FILES};

const HEAD: &str = r#""version":"2.3","last_updated":1,"ttl":60"#;
const TYPES: &str = r#"{"vehicle_type_id":"t","form_factor":"Bicycle","propulsion_type":"HUMAN","default_pricing_plan_id":"p"}"#;
const ELECTRIC: &str = r#"{"vehicle_type_id":"e","form_factor":"moped","propulsion_type":"electric","max_range_meters":1.5,"default_pricing_plan_id":"p"}"#;
const STATION: &str = r#"{"station_id":"s","name":"S","lat":90,"lon":-180,"capacity":0,"region_id":"r"}"#;
const STATUS: &str = r#"{"station_id":"s","num_bikes_available":3,"num_docks_available":0,"is_installed":true,"is_renting":true,
    "is_returning":true,"last_reported":0,"vehicle_types_available":[{"vehicle_type_id":"t","count":1},{"vehicle_type_id":"e","count":2}]}"#;
const BIKE: &str = r#"{"bike_id":"b","lat":1.5,"lon":2.5,"is_reserved":false,"is_disabled":false,"vehicle_type_id":"e",
    "current_range_meters":0,"pricing_plan_id":"p","current_fuel_percent":0.5}"#;
const PLAN: &str = r#"{"plan_id":"p","name":"P","currency":"EUR","price":"2.50","is_taxable":true,"description":"D",
    "per_min_pricing":[{"start":0,"rate":1,"interval":1}]}"#;
const ZONE: &str = r#"{"type":"Feature","geometry":{"type":"MultiPolygon","coordinates":[[[[0,0],[0,2],[2,2],[0,0]]]]},
    "properties":{"rules":[{"vehicle_type_id":["t"],"ride_allowed":true,"ride_through_allowed":true}]}}"#;
const SYSTEM: &str = r#""system_id":"y","language":"de","name":"Y","timezone":"Europe/Zurich","start_date":"2000-02-29""#;
const REGION: &str = r#"{"region_id":"r","name":"R"}"#;

fn file(array: &str, records: &[&str]) -> String {
    format!(r#"{{{HEAD},"data":{{"{array}":[{}]}}}}"#, records.join(","))
}

fn system() -> String {
    format!(r#"{{{HEAD},"data":{{{SYSTEM}}}}}"#)
}

fn sound() -> [String; FILES] {
    [
        file("vehicle_types", &[TYPES, ELECTRIC]),
        file("stations", &[STATION]),
        file("stations", &[STATUS]),
        file("bikes", &[BIKE]),
        file("plans", &[PLAN]),
        format!(r#"{{{HEAD},"data":{{"geofencing_zones":{{"type":"FeatureCollection","features":[{ZONE}]}}}}}}"#),
        system(),
        file("regions", &[REGION]),
    ]
}

fn judge(set: &[String; FILES]) -> Parts {
    verdict(set.each_ref().map(|file| file.as_bytes())).parts()
}

/// The verdict on the sound set with one text of a file replaced, as (file, kind, field, record, sub).
fn changed(file: usize, from: &str, to: &str) -> (u8, u8, u8, u16, u16) {
    let mut set = sound();
    assert!(set[file - 1].contains(from), "{from} is not in file {file}");
    set[file - 1] = set[file - 1].replacen(from, to, 1);
    let Parts { file, kind, field, record, sub, offset } = judge(&set);
    assert_eq!(offset, 0);
    (file, kind, field, record, sub)
}

const ACCEPTED: (u8, u8, u8, u16, u16) = (0, 0, 0, 0, 0);

#[test]
fn the_sound_set_is_accepted() {
    assert_eq!(verdict(sound().each_ref().map(|file| file.as_bytes())), Verdict::Accepted);
}

#[test]
fn the_worked_run() {
    let bikes = br#"{"version":"2.3","last_updated":0,"ttl":0,"data":{"bikes":[{"bike_id":"a","is_reserved":false,"is_disabled":false},{"bike_id":"b","is_reserved":false,"is_disabled":false},{}]}}"#;
    let verdict = verdict([b"", b"", b"", bikes, b"", b"", b"", b""]);
    assert_eq!(verdict.word(), [0x14, 0x62, 0x80, 0x03, 0, 0, 0, 0]);
}

#[test]
fn stages_and_files_in_order() {
    let mut set = sound();
    set[5] = "[".into();
    set[0] = "{}".into();
    assert_eq!(judge(&set), Parts { file: 6, kind: 2, offset: 1, ..Parts::default() });
    set[5] = sound()[5].clone();
    assert_eq!(judge(&set), Parts { file: 1, kind: 6, field: 1, ..Parts::default() });
    assert_eq!(changed(6, r#""ttl":60"#, r#""ttl":null"#), (6, 7, 3, 0, 0));
    set[7] = "[".into();
    assert_eq!(judge(&set), Parts { file: 8, kind: 2, offset: 1, ..Parts::default() });
}

#[test]
fn headers() {
    for (from, to, expected) in [
        (r#""version":"2.3""#, r#""version":"2.2""#, (1, 9, 1, 0, 0)),
        (r#""version":"2.3","last_updated":1"#, r#""version":"","last_updated":-1"#, (1, 6, 1, 0, 0)),
        (r#""last_updated":1"#, r#""last_updated":1.0"#, (1, 7, 2, 0, 0)),
        (r#""ttl":60"#, r#""ttl":6e1"#, (1, 8, 3, 0, 0)),
        (r#""ttl":60"#, r#""ttl":60,"tt\u006c":60"#, (1, 5, 3, 0, 0)),
        (r#""ttl":60"#, r#""ttl":"","ttl":"""#, (1, 5, 3, 0, 0)),
        (r#""data":{"#, r#""data":"","x":{"#, (1, 6, 4, 0, 0)),
        (r#""vehicle_types":["#, r#""vehicle_types":{},"x":["#, (1, 7, 5, 0, 0)),
        (r#""vehicle_types":["#, r#""Vehicle_types":["#, (1, 6, 5, 0, 0)),
        (r#""vehicle_types":["#, r#""vehicle_types":[[],"#, (1, 7, 5, 1, 0)),
    ] {
        assert_eq!(changed(1, from, to), expected, "{to}");
    }
    assert_eq!(changed(6, r#""FeatureCollection""#, r#""featureCollection""#), (6, 9, 6, 0, 0));
    assert_eq!(changed(6, r#""features":["#, r#""features":["","#), (6, 7, 7, 1, 0));
}

#[test]
fn values_of_records() {
    assert_eq!(changed(1, "Bicycle", "tricycle"), (1, 9, 11, 1, 0));
    assert_eq!(changed(2, r#""lat":90"#, r#""lat":90.00000001"#), (2, 9, 22, 1, 0));
    assert_eq!(changed(2, r#""lat":90"#, r#""l\u0061t":91"#), (2, 9, 22, 1, 0));
    assert_eq!(changed(2, r#""name":"S""#, r#""name":"""#), (2, 6, 21, 1, 0));
    assert_eq!(changed(3, r#""count":2"#, r#""count":null"#), (3, 7, 39, 1, 2));
    assert_eq!(changed(4, r#":0.5"#, r#":1.000000000000000001"#), (4, 9, 49, 1, 0));
    assert_eq!(changed(5, r#""interval":1"#, r#""interval":1.0"#), (5, 7, 64, 1, 1));
    assert_eq!(changed(5, r#""per_min_pricing":["#, r#""per_min_pricing":[1,"#), (5, 7, 61, 1, 1));
    assert_eq!(changed(6, r#"["t"]"#, r#"["t",null]"#), (6, 7, 78, 1, 1));
    assert_eq!(changed(6, r#""ride_through_allowed":true"#, r#""ride_through_allowed":"""#), (6, 6, 80, 1, 1));
    assert_eq!(changed(6, "[0,2]", "[0,91]"), (6, 9, 73, 1, 2));
    assert_eq!(changed(2, r#""region_id":"r""#, r#""region_id":7"#), (2, 7, 25, 1, 0));
    assert_eq!(changed(2, r#""region_id":"r""#, r#""region_id":"""#), ACCEPTED);
    assert_eq!(changed(8, r#""region_id":"r""#, r#""region_id":"""#), (8, 6, 100, 1, 0));
    assert_eq!(changed(8, r#""name":"R""#, r#""name":null"#), (8, 7, 101, 1, 0));
    let long = "r".repeat(101);
    assert_eq!(changed(2, r#""region_id":"r""#, &format!(r#""region_id":"{long}""#)), (2, 9, 25, 1, 0));
    assert_eq!(changed(8, r#""region_id":"r""#, &format!(r#""region_id":"{long}""#)), (8, 9, 100, 1, 0));
}

#[test]
fn the_system() {
    for (from, to, expected) in [
        (r#""system_id":"y""#, r#""system_id":"""#, (7, 6, 90, 0, 0)),
        (r#""language":"de""#, r#""language":["de"]"#, (7, 7, 91, 0, 0)),
        (r#""name":"Y""#, r#""name":"Y","n\u0061me":"Y""#, (7, 5, 92, 0, 0)),
        (r#""timezone""#, r#""time_zone""#, (7, 6, 93, 0, 0)),
        (r#""2000-02-29""#, r#""1900-02-29""#, (7, 9, 94, 0, 0)),
        (r#""2000-02-29""#, "20000229", (7, 7, 94, 0, 0)),
        (r#""2000-02-29""#, "null", (7, 7, 94, 0, 0)),
        (r#""2000-02-29""#, r#""""#, ACCEPTED),
        (r#""2000-02-29""#, r#""200\u0030-02-29""#, ACCEPTED),
        (r#","start_date""#, r#","startdate""#, ACCEPTED),
        (r#""data":{"#, r#""data":{"regions":7,"#, ACCEPTED),
        (r#""data":{"#, r#""data":[],"x":{"#, (7, 7, 4, 0, 0)),
    ] {
        assert_eq!(changed(7, from, to), expected, "{to}");
    }
    // A system's id is a string like its name: it may be longer than an id.
    assert_eq!(changed(7, r#""system_id":"y""#, &format!(r#""system_id":"{}""#, "y".repeat(101))), ACCEPTED);
}

#[test]
fn a_name_twice_hides_what_lies_in_it() {
    assert_eq!(changed(5, r#""per_min_pricing":["#, r#""per_min_pricing":[7],"per_min_pricing":["#), (5, 5, 61, 1, 0));
    assert_eq!(changed(6, r#""geometry":{"#, r#""geometry":0,"geometry":{"type":7,"#), (6, 5, 71, 1, 0));
    assert_eq!(changed(6, r#""geometry":{"#, r#""x":0,"x":{"type":7,"type":8},"geometry":{"#), ACCEPTED);
}

#[test]
fn too_many() {
    let plans = |count: usize| {
        let records: Vec<String> = (0..count).map(|n| PLAN.replace("\"p\"", &format!("\"{n}\""))).collect();
        let mut set = [(); FILES].map(|()| String::new());
        set[3] = file("bikes", &[]);
        set[6] = system();
        set[4] = file("plans", &records.iter().map(String::as_str).collect::<Vec<_>>());
        judge(&set)
    };
    assert_eq!(plans(4095), Parts::default());
    assert_eq!(plans(4096), Parts { file: 5, kind: 10, field: 5, ..Parts::default() });
    let segments = |count: usize| format!(r#""per_min_pricing":[{}"#, r#"{"start":0,"rate":1,"interval":1},"#.repeat(count - 1));
    assert_eq!(changed(5, r#""per_min_pricing":["#, &segments(16)), ACCEPTED);
    assert_eq!(changed(5, r#""per_min_pricing":["#, &segments(17)), (5, 10, 61, 1, 0));
    let items = |count: usize| format!("[{}", r#"{"vehicle_type_id":"t","count":0},"#.repeat(count - 2));
    assert_eq!(changed(3, r#"_available":["#, &format!(r#"_available":{}"#, items(64))), ACCEPTED);
    assert_eq!(changed(3, r#"_available":["#, &format!(r#"_available":{}"#, items(65))), (3, 10, 37, 1, 0));
    let ids = |count: usize| format!("[{}\"t\"]", r#""t","#.repeat(count - 1));
    assert_eq!(changed(6, r#"["t"]"#, &ids(64)), ACCEPTED);
    assert_eq!(changed(6, r#"["t"]"#, &ids(65)), (6, 10, 78, 1, 1));
    assert_eq!(changed(6, r#"["t"]"#, &ids(65).replacen("\"t\"", "1", 1)), (6, 7, 78, 1, 1));
    let rules =
        |count: usize| format!(r#""rules":[{}"#, r#"{"ride_allowed":true,"ride_through_allowed":true},"#.repeat(count - 1));
    assert_eq!(changed(6, r#""rules":["#, &rules(32)), ACCEPTED);
    assert_eq!(changed(6, r#""rules":["#, &rules(33)), (6, 10, 77, 1, 0));
}

#[test]
fn ids_and_references() {
    assert_eq!(changed(1, r#""e""#, r#""\u0074""#), (1, 12, 10, 2, 0));
    assert_eq!(changed(1, r#""default_pricing_plan_id":"p""#, r#""default_pricing_plan_id":"P""#), (1, 13, 14, 1, 0));
    assert_eq!(changed(3, r#""station_id":"s""#, r#""station_id":"S""#), (3, 13, 30, 1, 0));
    assert_eq!(changed(3, r#""vehicle_type_id":"e""#, r#""vehicle_type_id":"x""#), (3, 13, 38, 1, 2));
    assert_eq!(changed(4, r#""bike_id":"b""#, r#""bike_id":"b","station_id":"b""#), (4, 13, 47, 1, 0));
    assert_eq!(changed(6, r#"["t"]"#, r#"["t",""]"#), (6, 13, 78, 1, 1));
    assert_eq!(changed(2, r#""region_id":"r""#, r#""region_id":"R""#), (2, 13, 25, 1, 0));
    assert_eq!(changed(2, r#""region_id":"r""#, r#""region_id":"\u0072""#), ACCEPTED);
    assert_eq!(changed(8, REGION, &format!("{REGION},{REGION}")), (8, 12, 100, 2, 0));
    let mut set = sound();
    set[7] = String::new();
    assert_eq!(judge(&set), Parts { file: 2, kind: 13, field: 25, record: 1, ..Parts::default() });
    // A station is blamed for the station's id before its region.
    set[1] = file("stations", &[STATION, STATION]);
    assert_eq!(judge(&set), Parts { file: 2, kind: 13, field: 25, record: 1, ..Parts::default() });
    set[1] = file("stations", &[&STATION.replace(r#","region_id":"r""#, ""), STATION]);
    assert_eq!(judge(&set), Parts { file: 2, kind: 12, field: 20, record: 2, ..Parts::default() });
}

#[test]
fn conditions() {
    assert_eq!(changed(1, r#""max_range_meters":1.5,"#, ""), (1, 14, 13, 2, 0));
    assert_eq!(changed(1, r#""default_pricing_plan_id":"p""#, r#""x":0"#), (1, 14, 14, 1, 0));
    assert_eq!(changed(3, r#""num_docks_available":0"#, r#""num_docks_available":"""#), (3, 14, 32, 1, 0));
    assert_eq!(changed(3, r#""vehicle_types_available""#, r#""Vehicle_types_available""#), (3, 14, 37, 1, 0));
    assert_eq!(changed(4, r#""lat":1.5"#, r#""x":0"#), (4, 14, 41, 1, 0));
    assert_eq!(changed(4, r#""lat":1.5"#, r#""station_id":"s""#), ACCEPTED);
    assert_eq!(changed(4, r#""vehicle_type_id":"e""#, r#""x":0"#), (4, 14, 45, 1, 0));
    assert_eq!(changed(4, r#""current_range_meters":0"#, r#""x":0"#), (4, 14, 46, 1, 0));
    assert_eq!(changed(3, r#""count":2"#, r#""count":3"#), (3, 15, 37, 1, 0));
}

#[test]
fn presence() {
    let without = |absent: &[usize]| {
        let mut set = [(); FILES].map(|()| String::new());
        if !absent.contains(&7) {
            set[6] = system();
        }
        for (index, array) in [(1, "stations"), (2, "stations"), (3, "bikes")] {
            if !absent.contains(&(index + 1)) {
                set[index] = file(array, &[]);
            }
        }
        let parts = judge(&set);
        (parts.file, parts.kind)
    };
    for (absent, expected) in [
        (&[][..], (0, 0)),
        (&[2], (2, 14)),
        (&[3], (3, 14)),
        (&[4], (0, 0)),
        (&[2, 3], (0, 0)),
        (&[2, 4], (2, 14)),
        (&[2, 3, 4], (4, 14)),
        (&[7], (7, 14)),
        (&[3, 7], (3, 14)),
        (&[2, 3, 4, 7], (4, 14)),
    ] {
        assert_eq!(without(absent), expected, "without {absent:?}");
    }
}

#[test]
fn an_absent_system_stands_behind_the_older_files_and_ahead_of_the_regions() {
    let mut set = sound();
    set[6] = String::new();
    assert_eq!(judge(&set), Parts { file: 7, kind: 14, ..Parts::default() });
    set[7] = file("regions", &[REGION, REGION]);
    assert_eq!(judge(&set), Parts { file: 7, kind: 14, ..Parts::default() });
    set[5] = set[5].replace(r#"["t"]"#, r#"["x"]"#);
    assert_eq!(judge(&set), Parts { file: 6, kind: 13, field: 78, record: 1, sub: 1, offset: 0 });
    set[7] = file("regions", &["7"]);
    assert_eq!(judge(&set), Parts { file: 8, kind: 7, field: 5, record: 1, ..Parts::default() });
}
