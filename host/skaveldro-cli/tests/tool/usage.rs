//! Command lines that are not understood.

use crate::feeds::{blamed, run, text, SAMPLE};

fn said(words: &[&str], message: &str) {
    let why = blamed(words);
    assert!(why.starts_with("skaveldro: ") && why.contains(message), "{words:?}: {why}");
}

#[test]
fn bad_use() {
    said(&[], "a command is missing\nSee 'skaveldro help'.");
    said(&["judge"], "unknown command \"judge\"\n");
    said(&["chekc", SAMPLE], "unknown command \"chekc\"; did you mean check?");
    said(&["check"], "usage: skaveldro check FOLDER...\n");
    said(&["quote", SAMPLE], "usage: skaveldro quote PATH PLAN SECONDS METRES\nSee 'skaveldro help quote'.");
    said(&["check", SAMPLE, "--xml"], "unknown option --xml\n");
    said(&["check", SAMPLE, "--jsno"], "unknown option --jsno; did you mean --json?");
    said(&["check", "--version", "3.0", SAMPLE], "GBFS 2.3 only");
    said(&["quote", SAMPLE, "electric", "-1", "0"], "SECONDS must be a whole number of 0 or more, not -1");
    said(&["zone", SAMPLE, "47.1234567", "0", "", "0"], "LAT must be degrees with at most six decimals, not 47.1234567");
    said(&["zone", SAMPLE, "0", "1e30", "", "0"], "LON must be");
    said(&["show", SAMPLE, "free_bikes_status", "1"], "did you mean free_bike_status?");
    said(&["show", SAMPLE, "1", "-1"], "RECORD must be");
    said(&["show", "--as", "vehicle_types", SAMPLE, "1", "1"], "--as goes with check only");
    said(&["explain", "12"], "12: a verdict word is 16 hexadecimal digits");
}

#[test]
fn bad_use_of_check() {
    said(&["check", "-"], "say which file standard input is: skaveldro check --as free_bike_status -");
    said(&["check", "--as", "vehicle_types", SAMPLE], "crates/sample/data is a folder");
    said(&["check", "--as", "vehicle_types", "a", "b"], "name one FILE");
    said(&["check", "--as", "vehicle_types", "vehicle_types=a"], "use one of them");
    said(&["check", SAMPLE, "vehicle_types=a"], "not both");
    said(&["check", "vehicle_types=-", "station_status=-"], "standard input can be one file only");
    said(&["check", "vehicle_types=Cargo.toml", "vehicle_types=-"], "there is no file or folder Cargo.toml");
    said(&["check", "vehicle_types=README.md", "vehicle_types.json=-"], "vehicle_types.json is named twice");
    said(&["check", "vehicle_type=README.md"], "ROLE must be one of vehicle_types, ");
    said(&["check", "README.md"], "README.md is not one of the standard names: say which file it is with --as ROLE");
}

#[test]
fn what_is_not_there() {
    said(&["check", "nowhere"], "there is no file or folder nowhere\n");
    said(&["quote", "nowhere.json", "p", "0", "0"], "there is no file or folder nowhere.json");
    let url = "https://example.org/gbfs/free_bike_status.json";
    for words in [&["check", url][..], &["zone", url, "0", "0", "", "0"], &["explain", "1000000000000000", url]] {
        said(words, &format!("{url}: nothing is fetched from the network; download it first"));
    }
}

/// With `--json` what is wrong is JSON, on standard output, for every command.
#[test]
fn bad_use_as_json() {
    let output = run(&["quote", SAMPLE, "--json"]);
    assert_eq!((output.status.code(), text(output.stderr)), (Some(2), String::new()));
    let line = text(output.stdout);
    assert!(line.starts_with(r#"{"status":2,"what":"error","path":null,"errors":["usage: skaveldro quote"#), "{line}");
    assert_eq!(line.lines().count(), 1);
    let unread: [&[&str]; 5] = [
        &["quote", "nowhere", "p", "0", "0"],
        &["zone", "nowhere", "0", "0", "", "0"],
        &["show", "nowhere", "1", "1"],
        &["explain", "1000000000000000", "nowhere"],
        &["check", "vehicle_types=nowhere"],
    ];
    for words in unread {
        let line = text(run(&[words, &["--json"]].concat()).stdout);
        let error = r#"{"status":2,"what":"error","path":"nowhere","errors":["there is no file or folder nowhere"]}"#;
        assert_eq!(line, format!("{error}\n"), "{words:?}");
    }
}
