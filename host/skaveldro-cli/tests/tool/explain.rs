//! What verdict words say, and whether files are those that were judged.

use crate::feeds::{bikes, feed, told, BIKE, SAMPLE};

const WORD: &str = "1462800300000000";
const LINE: &str = "not accepted, word 1462800300000000\nfree_bike_status.json, record 3";

#[test]
fn the_set_that_was_judged() {
    let set = bikes(&format!("{BIKE},\n  {},{{}}", BIKE.replace("\"a\"", "\"b\"")));
    let folder = feed("explain", &[("free_bike_status.json", &set)]);
    assert!(told(&["check", &folder]).1.starts_with(&format!("{LINE}, bike_id, line 2, column 75: required, but missing\n")));
    let with_place = (1, format!("{LINE}, bike_id, line 2, column 75: required, but missing\n"));
    assert_eq!(told(&["explain", WORD, &folder]), with_place);
    assert_eq!(told(&["explain", WORD, &format!("{folder}/free_bike_status.json")]), with_place);
    assert_eq!(told(&["explain", WORD]), (1, format!("{LINE}, bike_id: required, but missing\n")));
    assert_eq!(told(&["explain", "1000000000000000", SAMPLE]), (0, "accepted, word 1000000000000000\n".into()));
    assert!(told(&["explain", WORD, &folder, "--json"]).1.contains(r#""matches":true,"warnings":[]}"#));
    assert!(told(&["explain", WORD, "--json"]).1.contains(r#""matches":null,"warnings":[]}"#));
}

#[test]
fn another_set() {
    let (status, text) = told(&["explain", WORD, SAMPLE]);
    let other = format!("this is not the set that was judged: {SAMPLE} now gives the word 1000000000000000");
    assert_eq!((status, text), (1, format!("{LINE}, bike_id: required, but missing\nwarning: {other}\n")));
    let folder = feed("explain-other", &[("free_bike_status.json", &bikes("{}"))]);
    let (status, text) = told(&["explain", "1000000000000000", &folder]);
    assert!(
        status == 1 && text.starts_with("accepted, word 1000000000000000\nwarning: this is not the set that was judged"),
        "{text}"
    );
    assert!(told(&["explain", WORD, &folder, "--json"]).1.contains(r#""matches":false,"warnings":["this is not"#));
}

#[test]
fn another_file() {
    let clean = format!("{SAMPLE}/free_bike_status.json");
    let (status, text) = told(&["explain", WORD, &clean]);
    assert!(status == 1 && text.contains(&format!("not the file that was judged: {clean} is clean by itself")), "{text}");
    let folder = feed("explain-file", &[("free_bike_status.json", &bikes("{}"))]);
    let broken = format!("{folder}/free_bike_status.json");
    let (status, text) = told(&["explain", WORD, &broken]);
    assert!(
        status == 1 && text.contains("first breaks another rule: free_bike_status.json, record 1, bike_id, line 1"),
        "{text}"
    );
    let (status, text) = told(&["explain", "1000000000000000", &broken]);
    assert!(status == 1 && text.contains("this is not the file that was judged"), "{text}");
    // a reference: the file alone cannot tell
    let (status, text) = told(&["explain", "14d2d00100000000", &clean]);
    assert!(status == 1 && text.contains("line 13, column 28") && text.contains("name the folder"), "{text}");
}

#[test]
fn what_is_not_a_word() {
    assert_eq!(told(&["explain", "2000000000000000"]), (1, "2000000000000000 is not a verdict word\n".into()));
    let (_, line) = told(&["explain", "2000000000000000", "--json"]);
    assert!(line.trim_end().ends_with(r#"is not a verdict word","warnings":[]}"#), "{line}");
}
