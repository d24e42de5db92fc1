//! Verdicts in words, and the other questions.

use crate::feeds::{bikes, feed, rename, sample, told, SAMPLE};

#[test]
fn a_verdict_in_words_and_as_json() {
    let bikes = br#"{"version":"2.3","last_updated":0,"ttl":0,"data":{"bikes":[
        {"bike_id":"a","is_reserved":false,"is_disabled":false},{"bike_id":"b","is_reserved":false,"is_disabled":false},
        {}]}}"#;
    let folder = feed("missing", &[("free_bike_status.json", bikes)]);
    let fault = "free_bike_status.json, record 3, bike_id, line 3, column 9: required, but missing";
    let (status, text) = told(&["check", &folder]);
    assert!(status == 1 && text.starts_with(&format!("not accepted, word 1462800300000000\n{fault}\nfiles:\n")), "{text}");
    let json = format!(
        r#""answer":1,"accepted":false,"word":"1462800300000000","fault":{{{},{},"text":"{fault}"}},"files":["#,
        r#""file":4,"kind":6,"field":40,"record":3,"sub":0,"offset":0,"file_name":"free_bike_status.json","record_id":null"#,
        r#""member":"bike_id","line":3,"column":9,"rule":"required, but missing","found":null"#
    );
    let (status, line) = told(&["check", "--json", &folder]);
    assert!(status == 1 && line.contains(&json), "{line}");
}

#[test]
fn a_record_is_named_by_its_id() {
    let folder = feed("named", &[("free_bike_status.json", &bikes(r#"{"bike_id":"x","is_reserved":1}"#))]);
    let text = told(&["check", &folder]).1;
    let line = "free_bike_status.json, record 1 (id \"x\"), is_reserved, line 1, column 89: must be true or false; found 1";
    assert_eq!(text.lines().nth(1), Some(line));
}

#[test]
fn texts_that_are_not_json_and_files_that_are_too_long() {
    let fault = |name: &str, bytes: &[u8]| {
        let (status, text) = told(&["check", &feed(name, &[("free_bike_status.json", bytes)])]);
        assert_eq!(status, 1);
        text.lines().nth(1).and_then(|line| line.strip_prefix("free_bike_status.json")).expect("the file is blamed").to_string()
    };
    assert_eq!(fault("texts", b"{\n \"a\":01}"), ", line 2, column 7: not valid JSON: unexpected \"1\"");
    let mark = ", line 1, column 1: not valid JSON: the file begins with a byte order mark (BOM); save it as UTF-8 without one";
    assert_eq!(fault("mark", b"\xEF\xBB\xBF{}"), mark);
    assert_eq!(fault("long", &[b' '; 1_048_576]), ": longer than 1048575 bytes, which is the most that a file may have");
    let (_, text) = told(&["check", &feed("longer", &[("free_bike_status.json", &[b' '; 3_000_000])])]);
    assert!(text.contains("  3000000 bytes, not clean: see above\n"), "{text}");
    let blank = ", line 1, column 1048576: not valid JSON: the file holds nothing but whitespace";
    assert_eq!(fault("longest", &[b' '; 1_048_575]), blank);
    let many = fault("many", &bikes(&vec!["{}"; 4096].join(",")));
    assert_eq!(many, ", data.bikes, line 1, column 59: too many records: at most 4095 are allowed");
}

#[test]
fn an_absent_file_is_said_to_be() {
    let folder = feed("empty", &[("system_pricing_plans.json", b"")]);
    let warning = "warning: system_pricing_plans.json is empty, and counts as absent";
    assert_eq!(told(&["quote", &folder, "p", "0", "0"]), (1, format!("no plan has the id \"p\"\n{warning}\n")));
    let warning = format!("warning: there is no geofencing_zones.json in {folder}, so it counts as absent");
    assert_eq!(told(&["zone", &folder, "0", "0", "", "0"]), (1, format!("no rule applies\n{warning}\n")));
    let folder = sample("misnamed-plans", &[]);
    rename(&folder, "system_pricing_plans.json", "system-pricing-plans.json");
    let (status, text) = told(&["quote", &folder, "electric", "0", "0"]);
    let warning = "\nwarning: system-pricing-plans.json looks like system_pricing_plans.json, and was not read\n";
    assert!(status == 1 && text.ends_with(warning), "{text}");
}

#[test]
fn a_file_with_the_name_of_another_is_said_to_have_it() {
    let bikes = format!("{SAMPLE}/free_bike_status.json");
    let questions: [(&[&str], &str); 4] = [
        (&["quote", &bikes, "electric", "0", "0"], "system_pricing_plans.json"),
        (&["zone", &bikes, "0", "0", "", "0"], "geofencing_zones.json"),
        (&["show", &bikes, "vehicle_types", "1"], "vehicle_types.json"),
        (&["explain", "1160a00300000000", &bikes], "vehicle_types.json"),
    ];
    for (words, name) in questions {
        let (status, text) = told(words);
        let warning = format!("\nwarning: {bikes} has the name of another file, and was read as {name}\n");
        assert!(status == 1 && text.contains(&warning), "{words:?}: {text}");
    }
    assert!(!told(&["show", &bikes, "free_bike_status", "1"]).1.contains("warning"));
}

#[test]
fn questions_without_an_answer() {
    let asked = |words: &[&str], text: &str| {
        let (status, answer) = told(words);
        assert!(status == 1 && answer.contains(text), "{words:?}: {answer}");
    };
    asked(&["quote", SAMPLE, "electric", "2678401", "0"], "the ride is too long: at most 2678400 seconds and 1000000 metres");
    asked(&["quote", SAMPLE, "nobody", "0", "0"], "no plan has the id \"nobody\"");
    asked(
        &["quote", "crates/sample/data/vehicle_types.json", "electric", "0", "0"],
        "the file is not clean\nsystem_pricing_plans.json, data.plans, line ",
    );
    asked(&["zone", SAMPLE, "0", "180.000001", "scooter", "0"], "coordinates out of range");
    asked(&["zone", SAMPLE, "47.37", "8.543", "city_bike", "1704067199"], "no rule applies");
    asked(&["show", SAMPLE, "1", "4"], "vehicle_types.json has no such record");
    asked(&["show", SAMPLE, "system_regions", "3"], "system_regions.json has no such record");
    asked(&["show", SAMPLE, "7", "1"], "system_information.json has no records: it is about the system as a whole");
    asked(&["show", SAMPLE, "9", "1"], "there is no such file: the files are numbered 1 to 8");
    asked(&["zone", SAMPLE, "47.37", "-8.543", "city_bike", "1704067200", "--json"], "{\"answer\":9,");
}

#[test]
fn answers_as_json() {
    let fare = |plan, seconds, metres| told(&["quote", SAMPLE, plan, seconds, metres, "--json"]);
    let expected = |amount, past| {
        (0, format!("{{\"answer\":0,\"amount\":{amount},\"past_minutes\":{past},\"past_kilometres\":false,\"warnings\":[]}}\n"))
    };
    assert_eq!(fare("electric", "5400", "12500"), expected(202500, false));
    assert_eq!(fare("day_pass", "14399", "0"), expected(150000, false));
    assert_eq!(fare("day_pass", "14400", "0"), expected(150000, true));
    let rule = |vehicle_type| told(&["zone", SAMPLE, "47.37", "8.543", vehicle_type, "1704067200", "--json"]).1;
    assert_eq!(
        rule("scooter"),
        r#"{"answer":0,"ride_allowed":false,"ride_through_allowed":false,"maximum_speed_kph":10,"station_parking":true,"warnings":[]}"#
            .to_owned()
            + "\n"
    );
    assert_eq!(
        rule("city_bike"),
        r#"{"answer":0,"ride_allowed":true,"ride_through_allowed":true,"maximum_speed_kph":10,"station_parking":true,"warnings":[]}"#
            .to_owned()
            + "\n"
    );
    let (_, record) = told(&["show", SAMPLE, "vehicle_types.json", "1", "--json"]);
    assert!(record.contains(r#""record":{         "vehicle_type_id": "city_bike","#), "{record}");
    assert_eq!(record.lines().count(), 1);
}
