//! The worked readings of the scope paper, and the edges of the boundary, asked through the wrapper.

#![forbid(unsafe_code)]

use skaveldro::{
    quote, raw, read_word, show_record, verdict, zone_rule, Fare, Parts, Point, Quote, Reading, Ruling, Shown, Verdict, Word,
    FILES,
};

/// The verdict on a set that has only bikes.
fn on_bikes(bytes: &[u8]) -> Verdict {
    verdict([b"", b"", b"", bytes, b"", b"", b"", b""])
}

fn system(more: &str) -> Vec<u8> {
    file(&format!(r#""system_id":"s","language":"en","name":"n","timezone":"Etc/UTC"{more}"#))
}

fn file(data: &str) -> Vec<u8> {
    format!(r#"{{"version":"2.3","last_updated":0,"ttl":0,"data":{{{data}}}}}"#).into_bytes()
}

fn plans(price: &str, segments: &str) -> Vec<u8> {
    file(&format!(
        r#""plans":[{{"plan_id":"p","name":"n","currency":"EUR","price":{price},"is_taxable":false,"description":"d","per_min_pricing":[{segments}]}}]"#
    ))
}

/// One zone of one ring.
fn zones(ring: &str, rules: &str) -> Vec<u8> {
    zones_over(&format!("[[{ring}]]"), rules)
}

/// One zone by its polygons.
fn zones_over(polygons: &str, rules: &str) -> Vec<u8> {
    file(&format!(
        r#""geofencing_zones":{{"type":"FeatureCollection","features":[{{"type":"Feature","geometry":{{"type":"MultiPolygon","coordinates":[{polygons}]}},"properties":{{"rules":[{rules}]}}}}]}}"#
    ))
}

const CLOCKWISE: &str = "[0,0],[0,2],[2,2],[2,0],[0,0]";
const COUNTERCLOCKWISE: &str = "[0,0],[2,0],[2,2],[0,2],[0,0]";
const RULE: &str = r#"{"ride_allowed":true,"ride_through_allowed":false}"#;

fn degrees(lon: i64, lat: i64) -> Point {
    Point { lon: lon * 1_000_000, lat: lat * 1_000_000 }
}

#[test]
fn texts_a_to_e() {
    let brackets = [b'['; 17];
    let cases: [(&[u8], u8, u32); 5] =
        [(b"[1,]", 2, 3), (b"[01]", 2, 2), (br#""\ud800""#, 3, 1), (b" ", 2, 1), (&brackets, 4, 16)];
    for (bytes, kind, offset) in cases {
        assert_eq!(on_bikes(bytes).parts(), Parts { file: 4, kind, offset, ..Parts::default() });
    }
}

#[test]
fn fares_f_to_i() {
    let fare = |price, segments, seconds| match quote(&plans(price, segments), b"p", seconds, 0) {
        Quote::Fare(Fare { amount, past_minutes, past_kilometres: false }) => (amount, past_minutes),
        other => panic!("{other:?}"),
    };
    let f = r#"{"start":1,"rate":1,"interval":1},{"start":2,"rate":2,"interval":1}"#;
    for (seconds, amount) in [(59, 20000), (60, 30000), (105, 30000), (120, 60000), (180, 90000)] {
        assert_eq!(fare("2", f, seconds), (amount, false), "{seconds} s");
    }
    let g = r#"{"start":10,"rate":-0.5,"interval":0}"#;
    assert_eq!((fare("0", g, 599), fare("0", g, 600)), ((0, false), (0, false)));
    let h = r#"{"start":0,"rate":0.25,"interval":15,"end":45}"#;
    for (seconds, answer) in [(0, (12500, false)), (2699, (17500, false)), (2700, (17500, true))] {
        assert_eq!(fare("1", h, seconds), answer, "{seconds} s");
    }
    let i = r#"{"start":20,"rate":3,"interval":5,"end":20}"#;
    assert_eq!(fare("0", i, 1200), (0, true));
}

/// All money at its ceiling, sixteen segments of each sort, the longest ride.
#[test]
fn the_largest_amount() {
    let segments = [r#"{"start":0,"rate":1000000,"interval":1}"#; 16].join(",");
    let both = format!(r#"{segments}],"per_km_pricing":[{segments}"#);
    let fare = Fare { amount: 7_302_730_000_000_000, past_minutes: false, past_kilometres: false };
    assert_eq!(quote(&plans("1000000", &both), b"p", 2_678_400, 1_000_000), Quote::Fare(fare));
}

#[test]
fn points_j() {
    let is_held = |ring, point| match zone_rule(&zones(ring, RULE), point, b"", 0) {
        Ruling::Is(rule) => rule.ride && !rule.through && rule.speed.is_none() && rule.parking.is_none(),
        Ruling::NoRule => false,
        other => panic!("{other:?}"),
    };
    for (lon, lat, held) in [(1, 1, true), (2, 2, true), (3, 1, false)] {
        assert_eq!(is_held(CLOCKWISE, degrees(lon, lat)), held);
    }
    for (lon, lat, held) in [(3, 1, true), (2, 1, true), (1, 1, false)] {
        assert_eq!(is_held(COUNTERCLOCKWISE, degrees(lon, lat)), held);
    }
}

/// A park that bans riding and gives no speed, before the town around it, which gives one.
#[test]
fn a_park_and_its_town() {
    let zone = |ring: &str, rule: &str| {
        format!(
            r#"{{"type":"Feature","geometry":{{"type":"MultiPolygon","coordinates":[[[{ring}]]]}},"properties":{{"rules":[{rule}]}}}}"#
        )
    };
    let park = zone(CLOCKWISE, r#"{"ride_allowed":false,"ride_through_allowed":false}"#);
    let town =
        zone("[1,0],[1,4],[4,4],[4,0],[1,0]", r#"{"ride_allowed":true,"ride_through_allowed":true,"maximum_speed_kph":20}"#);
    let features = format!(r#""geofencing_zones":{{"type":"FeatureCollection","features":[{park},{town}]}}"#);
    let at = |lon| match zone_rule(&file(&features), degrees(lon, 1), b"", 0) {
        Ruling::Is(rule) => Some((rule.ride, rule.speed)),
        Ruling::NoRule => None,
        other => panic!("{other:?}"),
    };
    assert_eq!([0, 2, 3, 5].map(at), [Some((false, None)), Some((false, Some(20))), Some((true, Some(20))), None]);
}

/// A polygon with two holes, one of them wound the other way: their edges are in, their insides are not.
#[test]
fn a_zone_with_holes() {
    let holes = "[[1,1],[1,4],[4,4],[4,1],[1,1]],[[3,3],[7,3],[7,7],[3,7],[3,3]]";
    let zones = zones_over(&format!("[[[0,0],[0,9],[9,9],[9,0],[0,0]],{holes}]"), RULE);
    let held = |n: i64| match zone_rule(&zones, degrees(n, n), b"", 0) {
        Ruling::Is(_) => true,
        Ruling::NoRule => false,
        other => panic!("{other:?}"),
    };
    assert_eq!((-1..=10).filter(|&n| held(n)).collect::<Vec<_>>(), [0, 1, 3, 4, 7, 8, 9]);
}

/// A zone has at most 15 rings over all its polygons, a polygon at most 8.
#[test]
fn the_most_rings() {
    let rings = |counts: &[usize]| {
        let polygon = |&count: &usize| format!("[{}]", vec![format!("[{CLOCKWISE}]"); count].join(","));
        let polygons: Vec<String> = counts.iter().map(polygon).collect();
        match zone_rule(&zones_over(&polygons.join(","), RULE), degrees(0, 0), b"", 0) {
            Ruling::NotClean(Parts { file: 6, kind, field: 73, record: 1, sub, .. }) => Some((kind, sub)),
            Ruling::Is(_) => None,
            other => panic!("{other:?}"),
        }
    };
    assert_eq!([&[8][..], &[8, 7], &[1; 15]].map(rings), [None; 3]);
    assert_eq!([&[9][..], &[1, 9]].map(rings), [Some((11, 1)), Some((11, 6))]);
    assert_eq!([&[8, 8][..], &[16], &[1; 16]].map(rings), [Some((10, 0)); 3]);
}

/// A border half a millionth past two degrees lies a millionth past them.
#[test]
fn a_border_that_is_rounded() {
    let zones = zones("[0,0],[0,2],[2.0000005,2],[2.0000005,0],[0,0]", RULE);
    let held = |lon| matches!(zone_rule(&zones, Point { lon, lat: 1 }, b"", 0), Ruling::Is(_));
    assert_eq!([2_000_001, 2_000_002].map(held), [true, false]);
}

#[test]
fn words_k_and_l() {
    let bikes = file(
        r#""bikes":[{"bike_id":"a","is_reserved":false,"is_disabled":false},{"bike_id":"b","is_reserved":false,"is_disabled":false},{}]"#,
    );
    // Without a place the first two bikes lack lat and lon, which is judged after every file's fields.
    let parts = Parts { file: 4, kind: 6, field: 40, record: 3, ..Parts::default() };
    let word = Word([0x14, 0x62, 0x80, 0x03, 0, 0, 0, 0]);
    assert_eq!(on_bikes(&bikes), Verdict::Refused { word, parts });
    assert_eq!(word.read(), Reading::Parts(parts));
    let mut buffer = [0xAA; 9];
    assert_eq!(raw::verdict([b"", b"", b"", &file(r#""bikes":[]"#), b"", b"", &system(""), b""], &mut buffer), 0);
    assert_eq!(buffer, [0x10, 0, 0, 0, 0, 0, 0, 0, 0xAA]);
    assert_eq!(Word::ACCEPTED.read(), Reading::Parts(Parts::default()));
}

#[test]
fn refusals_by_number() {
    assert_eq!(read_word(b"").number(), 3);
    assert_eq!(quote(b"", b"p", 2_678_401, 0).number(), 4);
    assert_eq!(quote(b"[", b"p", 0, 0), Quote::NotClean(Parts { file: 5, kind: 2, offset: 1, ..Parts::default() }));
    assert_eq!(quote(b"", b"p", 0, 0).number(), 6);
    assert_eq!(zone_rule(b"", degrees(181, 0), b"", 0).number(), 8);
    assert_eq!(zone_rule(b"", degrees(-180, 90), b"", 0).number(), 9);
    assert_eq!(show_record(9, 1, b"").number(), 10);
    assert_eq!(show_record(1, 1, b"").number(), 10);
    assert_eq!(show_record(1, 1, b"[").number(), 5);
    assert_eq!([b"".as_slice(), &system("")].map(|bytes| show_record(7, 1, bytes).number()), [10, 10]);
    assert_eq!(show_record(7, 1, b"{}").number(), 5);
}

/// The system's own file is always called for, behind all faults of the older files and ahead of those of the regions.
#[test]
fn a_set_without_its_system() {
    let (bikes, no_id) =
        (file(r#""bikes":[]"#), file(r#""regions":[{"region_id":"r","name":"n"},{"region_id":"r","name":"n"}]"#));
    let judged = |bikes: &[u8], system: &[u8]| verdict([b"", b"", b"", bikes, b"", b"", system, &no_id]).parts();
    assert_eq!(judged(&bikes, b""), Parts { file: 7, kind: 14, ..Parts::default() });
    assert_eq!(judged(&bikes, &system("")), Parts { file: 8, kind: 12, field: 100, record: 2, ..Parts::default() });
    assert_eq!(judged(b"", b""), Parts { file: 4, kind: 14, ..Parts::default() });
}

/// A day that the Gregorian calendar has, in ten bytes once escapes are decoded.
#[test]
fn the_day_a_system_started() {
    let judged = |date: &str| match show_record(7, 1, &system(&format!(r#","start_date":{date}"#))) {
        Shown::NotClean(Parts { file: 7, kind, field: 94, record: 0, sub: 0, offset: 0 }) => kind,
        Shown::NoRecord => 0,
        other => panic!("{other:?}"),
    };
    for (date, kind) in [
        (r#""2024-02-29""#, 0),
        (r#""2000-02-29""#, 0),
        (r#""0000-02-29""#, 0),
        (r#""9999-12-31""#, 0),
        (r#""20\u00324-02-29""#, 0),
        (r#""""#, 0),
        (r#""1900-02-29""#, 9),
        (r#""2023-02-29""#, 9),
        (r#""2024-13-01""#, 9),
        (r#""2024-00-01""#, 9),
        (r#""2024-01-00""#, 9),
        (r#""2024-04-31""#, 9),
        (r#""2024-02-290""#, 9),
        (r#""2024-2-29""#, 9),
        ("20240229", 7),
        ("null", 7),
    ] {
        assert_eq!(judged(date), kind, "{date}");
    }
}

/// A station's region is one of file 8.
#[test]
fn the_region_of_a_station() {
    let stations =
        |region: &str| file(&format!(r#""stations":[{{"station_id":"s","name":"n","lat":0,"lon":0,"region_id":{region}}}]"#));
    let status = file(
        r#""stations":[{"station_id":"s","num_bikes_available":0,"is_installed":true,"is_renting":true,"is_returning":true,"last_reported":0}]"#,
    );
    let regions = file(r#""regions":[{"region_id":"north","name":"n"}]"#);
    let judged = |region, regions: &[u8]| verdict([b"", &stations(region), &status, b"", b"", b"", &system(""), regions]).parts();
    let dangling = Parts { file: 2, kind: 13, field: 25, record: 1, ..Parts::default() };
    assert_eq!(judged(r#""north""#, &regions), Parts::default());
    assert_eq!(judged(r#""""#, b""), Parts::default());
    assert_eq!(judged(r#""North""#, &regions), dangling);
    assert_eq!(judged(r#""north""#, b""), dangling);
    assert_eq!(judged("7", &regions), Parts { kind: 7, ..dangling });
}

#[test]
fn a_record_is_shown() {
    let bytes = plans("0", "");
    let Shown::Record { from, upto } = show_record(5, 1, &bytes) else { panic!() };
    assert!(bytes[from..upto].starts_with(br#"{"plan_id":"p""#) && bytes[from..upto].ends_with(b"}"));
}

/// Buffers of every length, for every answer: one that gives values needs room for them and writes no other byte; a refusal needs none and
/// writes nothing.
#[test]
fn buffers_of_every_length() {
    type Ask<'a> = (&'a str, u8, usize, &'a dyn Fn(&mut [u8]) -> u8);
    let (plans, zones) = (&plans("0", ""), &zones(CLOCKWISE, RULE));
    let asks: [Ask; 18] = [
        ("verdict", 0, 8, &|buffer| raw::verdict([b"", b"", b"", &file(r#""bikes":[]"#), b"", b"", &system(""), b""], buffer)),
        ("verdict", 1, 8, &|buffer| raw::verdict([b""; FILES], buffer)),
        ("word", 0, 48, &|buffer| raw::read_word(&[0x10, 0, 0, 0, 0, 0, 0, 0], buffer)),
        ("word", 3, 0, &|buffer| raw::read_word(b"", buffer)),
        ("quote", 0, 72, &|buffer| raw::quote(plans, b"p", 0, 0, buffer)),
        ("quote", 4, 0, &|buffer| raw::quote(b"[", b"p", 2_678_401, 0, buffer)),
        ("quote", 5, 72, &|buffer| raw::quote(b"[", b"", 0, 0, buffer)),
        ("quote", 6, 0, &|buffer| raw::quote(plans, b"q", 0, 0, buffer)),
        ("zone", 0, 96, &|buffer| raw::zone_rule(zones, 0, 0, b"", 0, buffer)),
        ("zone", 5, 96, &|buffer| raw::zone_rule(b"[", 0, 0, b"", 0, buffer)),
        ("zone", 8, 0, &|buffer| raw::zone_rule(b"[", 0, 90_000_001, b"", 0, buffer)),
        ("zone", 9, 0, &|buffer| raw::zone_rule(zones, -1, 0, b"", 0, buffer)),
        ("show", 0, 64, &|buffer| raw::show_record(5, 1, plans, buffer)),
        ("show", 5, 64, &|buffer| raw::show_record(1, 1, b"[", buffer)),
        ("show", 10, 0, &|buffer| raw::show_record(9, 1, b"[", buffer)),
        ("show", 10, 0, &|buffer| raw::show_record(256 + 5, 1, plans, buffer)),
        ("show", 10, 0, &|buffer| raw::show_record((1 << 32) + 5, 1, plans, buffer)),
        ("show", 10, 0, &|buffer| raw::show_record(5, 2, plans, buffer)),
    ];
    for (name, number, room, ask) in asks {
        for length in 0..96 + 17 {
            // Each byte of the buffer differs between the two, so that one of them shows any byte that is written.
            let [low, high] = [0x55, 0xAA].map(|first| {
                let mut buffer = vec![first; length];
                assert_eq!(ask(&mut buffer), if length < room { 2 } else { number }, "{name} {number}, {length} bytes");
                buffer
            });
            let written = if length < room { 0 } else { room };
            assert_eq!(low[..written], high[..written], "{name} {number}, {length} bytes");
            assert!(low[written..].iter().all(|&byte| byte == 0x55), "{name} {number}, {length} bytes");
            assert!(high[written..].iter().all(|&byte| byte == 0xAA), "{name} {number}, {length} bytes");
        }
    }
}

/// A file is its whole number: none is taken for the file that its lowest bits name.
#[test]
fn files_of_64_bits() {
    let bytes = plans("0", "");
    for file in [0, 9, 256 + 5, (1 << 32) + 5, 1 << 63, (1 << 63) + 5, u64::MAX] {
        assert_eq!(show_record(file, 1, &bytes), Shown::NoRecord, "{file}");
    }
}

#[test]
fn words_as_text() {
    let word = Word([0x14, 0x62, 0x80, 0x03, 0, 0, 0, 0xAF]);
    assert_eq!(word.to_string(), "14628003000000af");
    assert_eq!("14 62 80 03 00 00 00 AF".parse(), Ok(word));
    for text in ["", "14628003000000a", "14628003000000aff", "14628003000000ag", "+4628003000000af", "é4628003000000af"] {
        assert!(text.parse::<Word>().is_err(), "{text:?}");
    }
}
