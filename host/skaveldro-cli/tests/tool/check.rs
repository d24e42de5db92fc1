//! What `check` takes, and what it says of the files.

use crate::feeds::{bikes, fed, feed, rename, run, sample, text, told, BIKE, FILES, SAMPLE, SYSTEM};
use std::fs;
use std::path::Path;

const ACCEPTED: &str = "accepted, word 1000000000000000";

/// The state of each of the files as the report gives it.
fn states(report: &str) -> Vec<&str> {
    let lines = report.lines().skip_while(|line| *line != "files:").skip(1).take(FILES);
    lines.map(|line| line.split_once(".json").expect("a file is named").1.trim_start()).collect()
}

#[test]
fn what_was_read() {
    let (status, report) = told(&["check", SAMPLE]);
    assert_eq!((status, report.lines().next()), (0, Some(ACCEPTED)));
    let sizes = [1072, 927, 1122, 997, 1436, 1132, 377, 216].map(|size| format!("{size} bytes, clean"));
    assert_eq!(states(&report), sizes);
    assert_eq!(report.lines().count(), 2 + FILES);

    let (status, report) = told(&["check", &feed("check-nothing", &[])]);
    assert_eq!((status, states(&report)), (1, vec!["absent"; FILES]));
    assert!(
        report.contains("free_bike_status.json: absent, but required since station_information.json is absent too\n"),
        "{report}"
    );

    let empty = feed("check-empty", &[("free_bike_status.json", &bikes(BIKE)), ("geofencing_zones.json", b""), SYSTEM]);
    let (status, report) = told(&["check", &empty]);
    assert_eq!((status, states(&report)[5]), (0, "empty, counts as absent"));
    assert!(report
        .starts_with(&format!("{ACCEPTED}, with a warning\nwarning: geofencing_zones.json is empty, and counts as absent\n")));
}

/// Every set says what system it is of, and the report says what to do where it does not.
#[test]
fn a_set_without_its_system() {
    let folder = feed("check-system", &[("free_bike_status.json", &bikes(BIKE)), ("system_info.json", SYSTEM.1)]);
    let (status, report) = told(&["check", &folder]);
    let fault = "absent, but required in every set: deliver it, with system_id, language, name and timezone";
    let warning = "warning: system_info.json looks like system_information.json, and was not read";
    let lines =
        format!("not accepted, word 17e0000000000000, with a warning\nsystem_information.json: {fault}\n{warning}\nfiles:\n");
    assert!(status == 1 && report.starts_with(&lines), "{report}");
    assert_eq!(states(&report)[6..], ["absent", "absent"]);
    rename(&folder, "system_info.json", SYSTEM.0);
    assert_eq!(told(&["check", &folder]).0, 0);
}

/// A station's region, and the day that a system started.
#[test]
fn faults_of_the_system_and_its_regions() {
    let folder = sample("check-regions", &[]);
    rename(&folder, "system_regions.json", "areas.json");
    let (status, report) = told(&["check", &folder]);
    let fault = "station_information.json, record 1 (id \"101\"), region_id, line 13, column 22: \
        must be the id of a record of system_regions.json, which is absent; found \"north\"";
    assert_eq!((status, report.lines().nth(1)), (1, Some(fault)));
    let system = String::from_utf8_lossy(SYSTEM.1).replace("}}", r#","start_date":"2023-02-29"}}"#);
    let (status, report) = fed(&["check", "--as", "system_information", "-"], system.as_bytes());
    let fault = "system_information.json, data.start_date, line 1, column 128: \
        must be a day that the calendar has, written YYYY-MM-DD; found \"2023-02-29\"";
    assert_eq!((status, report.lines().nth(1)), (1, Some(fault)));
}

/// A file under another name, or in another place, is told, not taken for absent without a word.
#[test]
fn what_was_not_read() {
    for name in [
        "free_bike_status",
        "free-bike-status.json",
        "Free_bike_status.json",
        "free_bike_status.json.txt",
        "vehicle_status.json",
        "free_bikes.json",
    ] {
        let folder = sample("check-misnamed", &[("gbfs.json", b"{}")]);
        rename(&folder, "free_bike_status.json", name);
        let (status, report) = told(&["check", &folder]);
        let warning = format!("warning: {name} looks like free_bike_status.json, and was not read");
        assert!(status == 0 && report.starts_with(&format!("{ACCEPTED}, with a warning\n{warning}\nfiles:\n")), "{report}");
        assert_eq!(states(&report)[3], "absent");
        let last = report.lines().last().expect("there are lines");
        assert!(last.starts_with("not read: ") && last.contains(name) && last.contains("gbfs.json"), "{last}");
        let (_, line) = told(&["check", &folder, "--json"]);
        assert!(line.contains(&format!("{{\"name\":\"{name}\",\"looks_like\":\"free_bike_status.json\"}}")), "{line}");
        assert!(line.contains("{\"name\":\"gbfs.json\",\"looks_like\":null}"), "{line}");
    }
}

#[test]
fn what_is_in_a_sub_folder() {
    let folder = sample("check-within", &[]);
    fs::create_dir(Path::new(&folder).join("en")).expect("there is room for a test");
    rename(&folder, "free_bike_status.json", "en/free_bike_status.json");
    let (_, report) = told(&["check", &folder]);
    assert!(report.contains("\nwarning: en/free_bike_status.json is in a sub-folder, and was not read\n"), "{report}");
    assert!(report.ends_with("not read: en/, en/free_bike_status.json\n"), "{report}");
}

/// A copy beside the file itself is listed, and is no reason to warn. A long list is cut.
#[test]
fn other_files() {
    let folder = sample("check-copies", &[("free_bike_status.json.bak", b"x")]);
    let (_, report) = told(&["check", &folder]);
    assert!(
        report.starts_with(&format!("{ACCEPTED}\nfiles:")) && report.ends_with("not read: free_bike_status.json.bak\n"),
        "{report}"
    );
    for number in 0..30 {
        fs::write(Path::new(&folder).join(format!("{number:02}.json")), b"").expect("there is room for a test");
    }
    assert!(told(&["check", &folder]).1.ends_with("18.json, 19.json and 11 more\n"));
}

/// Every file's own first fault is in one report.
#[test]
fn faults_of_several_files() {
    let folder = sample("check-faults", &[("free_bike_status.json", &bikes("{}")), ("vehicle_types.json", b"[1,]")]);
    let (status, report) = told(&["check", &folder]);
    assert_eq!(status, 1);
    let fault = "vehicle_types.json, line 1, column 4: not valid JSON: unexpected \"]\"";
    assert_eq!(report.lines().nth(1), Some(fault));
    assert_eq!(states(&report)[0], "4 bytes, not clean: see above");
    let size = bikes("{}").len();
    let own = format!("{size} bytes, not clean: record 1, bike_id, line 1, column 60: required, but missing");
    assert_eq!(states(&report)[3], own);
}

#[test]
fn several_folders() {
    let broken = feed("check-broken", &[("free_bike_status.json", &bikes("{}"))]);
    let output = run(&["check", SAMPLE, &broken, "nowhere"]);
    let report = text(output.stdout);
    assert_eq!((output.status.code(), text(output.stderr)), (Some(2), "skaveldro: there is no file or folder nowhere\n".into()));
    let blocks: Vec<&str> = report.split("\n\n").collect();
    assert_eq!(blocks.len(), 4);
    assert!(blocks[0].starts_with(&format!("{SAMPLE}: {ACCEPTED}\n")));
    assert!(blocks[1].starts_with(&format!("{broken}: not accepted, word 1462800100000000\n")));
    assert_eq!(blocks[2], "nowhere: no answer");
    assert_eq!(blocks[3], "3 checked: 1 accepted, 1 not accepted, 1 with no answer\n");
    assert_eq!(told(&["check", SAMPLE, &broken]).0, 1);
    assert_eq!(told(&["check", SAMPLE, SAMPLE]).0, 0);
}

const NOT_JUDGED: &str = "conditions, references and sums were not judged (kinds 13 to 15); name a folder to judge a whole set";

#[test]
fn a_file_alone() {
    let file = format!("{SAMPLE}/free_bike_status.json");
    let alone = format!("{NOT_JUDGED}\n");
    assert_eq!(told(&["check", &file]), (0, format!("clean, judged alone as free_bike_status.json, 997 bytes\n{alone}")));
    let (status, report) = told(&["check", &file, "--as", "vehicle_types"]);
    let fault = "vehicle_types.json, data.vehicle_types, line 5, column 11: required, but missing";
    let warning = format!("warning: {file} has the name of another file, and was read as vehicle_types.json\n");
    let verdict = "not clean, judged alone as vehicle_types.json, 997 bytes";
    assert_eq!((status, report), (1, format!("{verdict}\n{fault}\n{alone}{warning}")));
    let (status, report) = told(&["check", &file, &format!("{SAMPLE}/vehicle_types.json")]);
    assert!(status == 0 && report.ends_with("\n\n2 checked: 2 clean\n"), "{report}");
    let folder = feed("check-alone", &[("free_bike_status.json", b"")]);
    let output = run(&["check", &format!("{folder}/free_bike_status.json")]);
    assert_eq!((output.status.code(), output.stdout.len()), (Some(2), 0));
    assert!(text(output.stderr).contains("is empty: it counts as an absent free_bike_status.json, so there is nothing to judge"));
}

/// A file that is clean alone may break a rule of the set: the report of each says so.
#[test]
fn a_file_that_is_clean_and_a_set_that_is_not() {
    let bikes = bikes(&BIKE.replace("\"lat\":1,", ""));
    let folder = feed("check-no-lat", &[("free_bike_status.json", &bikes)]);
    let (status, report) = told(&["check", &format!("{folder}/free_bike_status.json")]);
    let verdict = format!("clean, judged alone as free_bike_status.json, {} bytes", bikes.len());
    assert_eq!((status, report), (0, format!("{verdict}\n{NOT_JUDGED}\n")));
    let (status, report) = told(&["check", &folder]);
    assert!(status == 1 && report.starts_with("not accepted, word 14e2900100000000\n"), "{report}");
    let place = "free_bike_status.json, record 1 (id \"a\"), lat, line 1, column 60";
    assert_eq!(report.lines().nth(1), Some(&*format!("{place}: required unless station_id is given, but missing")));
    assert_eq!(states(&report)[3], format!("{} bytes, clean alone, at fault in the set: see above", bikes.len()));
}

#[test]
fn standard_input() {
    let (status, report) = fed(&["check", "--as", "free_bike_status", "-"], &bikes("1"));
    let size = bikes("1").len();
    assert!(
        status == 1 && report.starts_with(&format!("not clean, judged alone as free_bike_status.json, {size} bytes\n")),
        "{report}"
    );
    let (status, report) = fed(&["check", "--as=free_bike_status", "-"], &[b' '; 3_000_000]);
    assert!(status == 1 && report.contains("longer than 1048575 bytes"), "{report}");
    assert!(report.starts_with("not clean, judged alone as free_bike_status.json, over 1048575 bytes\n"), "{report}");
    let (_, report) = fed(&["check", "free_bike_status=-"], &[b' '; 3_000_000]);
    assert_eq!(states(&report)[3], "over 1048575 bytes, not clean: see above");
    let (_, report) = fed(&["check", "free_bike_status=-"], &[b' '; 1_048_575]);
    assert_eq!(states(&report)[3], "1048575 bytes, not clean: see above");
    let plans = fs::read(crate::feeds::root().join(SAMPLE).join("system_pricing_plans.json")).expect("the sample is there");
    assert_eq!(fed(&["quote", "-", "day_pass", "14399", "0"], &plans), (0, "15.0000\n".into()));
}

#[test]
fn a_set_of_named_files() {
    let folder = feed("check-named", &[("today.json", &bikes(BIKE)), SYSTEM]);
    let system = format!("system_information={folder}/{}", SYSTEM.0);
    let (status, report) = told(&["check", &format!("free_bike_status={folder}/today.json"), &system]);
    assert_eq!((status, report.lines().next(), states(&report)[0]), (0, Some(ACCEPTED), "absent"));
    let names = [
        "vehicle_types",
        "station_information",
        "station_status",
        "free_bike_status.json",
        "system_pricing_plans",
        "system_information",
        "system_regions",
    ];
    let words = names.map(|name| format!("{name}={SAMPLE}/{}.json", name.trim_end_matches(".json")));
    let (status, report) = told(&[&["check".to_string()], &words[..]].concat());
    assert_eq!((status, states(&report)[5]), (0, "absent"));
    let (status, report) = told(&["check", &words[3]]);
    let reference = "must be the id of a record of vehicle_types.json, which is absent; found \"e_bike\"";
    assert!(status == 1 && report.contains(reference), "{report}");
    assert_eq!(fed(&["check", "free_bike_status=-", &system], &bikes(BIKE)).0, 0);
    let (status, report) = told(&["check", &format!("free_bike_status={SAMPLE}/vehicle_types.json")]);
    assert!(status == 1 && report.lines().next().is_some_and(|line| line.ends_with(", with a warning")), "{report}");
    let warning =
        format!("warning: {SAMPLE}/vehicle_types.json has the name of another file, and was read as free_bike_status.json");
    assert_eq!(report.lines().nth(2), Some(&*warning));
}
