//! Questions by lines of text: both sides answer them alike.

#![forbid(unsafe_code)]

use differential::lines::answer;
use differential::question::Side;

/// `{"version":"2.3","last_updated":0,"ttl":0,"data":DATA}` in hex.
fn file(data: &str) -> String {
    hex(&format!(r#"{{"version":"2.3","last_updated":0,"ttl":0,"data":{{{data}}}}}"#))
}

fn hex(text: &str) -> String {
    text.bytes().map(|byte| format!("{byte:02x}")).collect()
}

#[test]
fn both_answer_by_lines() {
    let plan = r#"{"plan_id":"p","name":"n","currency":"EUR","price":2,"is_taxable":false,"description":"d"}"#;
    let plans = file(&format!(r#""plans":[{plan}]"#));
    let zone = r#"{"type":"Feature","geometry":{"type":"MultiPolygon","coordinates":[[[[0,0],[0,2],[2,2],[2,0],[0,0]],[[0.5,0.5],[1,0.5],[1,1],[0.5,0.5]]]]},"properties":{"rules":[{"ride_allowed":true,"ride_through_allowed":false,"maximum_speed_kph":20}]}}"#;
    let zones = file(&format!(r#""geofencing_zones":{{"type":"FeatureCollection","features":[{zone}]}}"#));
    let bikes = file(r#""bikes":[{}]"#);
    let system = file(r#""system_id":"s","language":"en","name":"n","timezone":"Etc/UTC","start_date":"2024-02-29""#);
    let regions = file(r#""regions":[{"region_id":"r","name":"n"},{"region_id":"r","name":"n"}]"#);
    let no_bikes = file(r#""bikes":[]"#);
    let from = plans.find(&hex(plan)).expect("the plan stands in its file") / 2;
    let cases = [
        (format!("verdict 7 - - - {bikes} - - - -"), "2".into()),
        (format!("verdict 8 - - - {bikes} - - - -"), "1 1462800100000000".into()),
        (format!("verdict 99999999999999999999 - - - {no_bikes} - - {system} -"), "0 1000000000000000".into()),
        (format!("verdict 8 - - - {no_bikes} - - - {regions}"), "1 17e0000000000000".into()),
        (format!("verdict 8 - - - {no_bikes} - - {system} {regions}"), "1 18c6400200000000".into()),
        (format!("verdict 8 - - - {no_bikes} - - {no_bikes} -"), "1 1765a00000000000".into()),
        ("word 1462800100000000".into(), "0 4 6 40 1 0 0".into()),
        ("word -".into(), "3".into()),
        ("word 18f6e00100000000".into(), "0 8 15 110 1 0 0".into()),
        ("word 18f6f00100000000".into(), "3".into()),
        ("word 19f0000100000000".into(), "3".into()),
        (format!("quote {plans} 70 0 0"), "0 20000 0 0".into()),
        (format!("quote {plans} - 0 0"), "6".into()),
        ("quote 5b 70 0 99999999999999999999".into(), "4".into()),
        ("quote 5b 70 0 0".into(), "5 5 2 0 0 0 1".into()),
        (format!("zone {zones} 1000000 2000000 - 0"), "0 1 0 20 -".into()),
        (format!("zone {zones} 500000 800000 - 0"), "0 1 0 20 -".into()),
        (format!("zone {zones} 600000 800000 - 0"), "9".into()),
        (format!("zone {zones} -1 0 - 0"), "9".into()),
        (format!("zone {zones} -99999999999999999999 0 - 0"), "8".into()),
        (format!("show - - - - {plans} - - - 5 1"), format!("0 {from} {}", from + plan.len())),
        (format!("show - - - - {plans} - - - 261 1"), "10".into()),
        (format!("show - - - {bikes} - - - - 4 1"), "5 4 6 40 1 0 0".into()),
        (format!("show - - - - - - {system} - 7 1"), "10".into()),
        (format!("show - - - - - - {bikes} - 7 1"), "5 7 6 90 0 0 0".into()),
        (format!("show - - - - - - - {regions} 8 1"), "5 8 12 100 2 0 0".into()),
        (format!("show - - - - - - - {regions} 9 1"), "10".into()),
    ];
    for (line, expected) in cases {
        for side in [Side::Library, Side::Reference] {
            assert_eq!(answer(side, &line), expected, "{side:?}: {line}");
        }
    }
}

#[test]
fn what_is_no_question() {
    for line in [
        "",
        "word",
        "word 1",
        "word 1G",
        "word 1A",
        "word  ",
        "word - -",
        "verdict 8 - - - - - - -",
        "show - - - - - - 1 1",
        "quote - - -1 0",
        "zone - 1. 0 - 0",
        "price -",
    ] {
        for side in [Side::Library, Side::Reference] {
            assert_eq!(answer(side, line), "error", "{side:?}: {line:?}");
        }
    }
}
