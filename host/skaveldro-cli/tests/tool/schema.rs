//! Every kind of line that `--json` writes is held against the schema, by a validator of the keywords that it uses.

use crate::feeds::{bikes, fed, feed, rename, run, sample, text, BIKE, SAMPLE, SYSTEM};
use crate::json::{read, Json};
use std::fs;
use std::path::Path;

fn schema() -> Json {
    let path = Path::new(env!("CARGO_MANIFEST_DIR")).join("schema/output.schema.json");
    read(&fs::read_to_string(path).expect("the schema is there"))
}

/// Why a value is not what a schema says. Keywords that are not known here are not passed over.
fn refused(value: &Json, schema: &Json, root: &Json) -> Option<String> {
    let Json::Object(keywords) = schema else { panic!("no schema: {schema:?}") };
    keywords.iter().find_map(|(keyword, wanted)| {
        let holds = match (keyword.as_str(), value) {
            ("$schema" | "title" | "description" | "$defs", _) => true,
            ("$ref", _) => {
                let name = wanted.text().strip_prefix("#/$defs/").expect("a reference is within the schema");
                return refused(value, root.at("$defs").at(name), root);
            }
            ("oneOf", _) => {
                let whys: Vec<Option<String>> = wanted.items().iter().map(|one| refused(value, one, root)).collect();
                if whys.iter().filter(|why| why.is_none()).count() == 1 {
                    return None;
                }
                return Some(format!("not one of {whys:?}"));
            }
            ("type", _) => match wanted {
                Json::Array(types) => types.iter().any(|name| is_of(value, name.text())),
                name => is_of(value, name.text()),
            },
            ("const", _) => value == wanted,
            ("enum", _) => wanted.items().contains(value),
            ("properties", Json::Object(members)) => {
                let properties = members.iter().filter_map(|(name, member)| Some((name, member, wanted.get(name)?)));
                let mut why =
                    properties.filter_map(|(name, member, one)| Some(format!("{name}: {}", refused(member, one, root)?)));
                return why.next();
            }
            ("required", Json::Object(_)) => wanted.items().iter().all(|name| value.get(name.text()).is_some()),
            ("additionalProperties", Json::Object(members)) => {
                assert_eq!(*wanted, Json::Truth(false));
                members.iter().all(|(name, _)| schema.at("properties").get(name).is_some())
            }
            ("items", Json::Array(items)) => return items.iter().find_map(|item| refused(item, wanted, root)),
            ("minItems", Json::Array(items)) => Json::Number(items.len() as i64) >= *wanted,
            ("maxItems", Json::Array(items)) => Json::Number(items.len() as i64) <= *wanted,
            ("minLength", Json::Text(text)) => Json::Number(text.chars().count() as i64) >= *wanted,
            ("maxLength", Json::Text(text)) => Json::Number(text.chars().count() as i64) <= *wanted,
            ("minimum", Json::Number(_)) => value >= wanted,
            ("maximum", Json::Number(_)) => value <= wanted,
            ("properties" | "required" | "additionalProperties", _) => true,
            ("items" | "minItems" | "maxItems" | "minLength" | "maxLength" | "minimum" | "maximum", _) => true,
            (unknown, _) => panic!("the validator does not know the keyword {unknown}"),
        };
        (!holds).then(|| format!("{keyword} {wanted:?} does not hold of {value:?}"))
    })
}

fn is_of(value: &Json, name: &str) -> bool {
    match value {
        Json::Null => name == "null",
        Json::Truth(_) => name == "boolean",
        Json::Number(_) => name == "integer",
        Json::Text(_) => name == "string",
        Json::Array(_) => name == "array",
        Json::Object(_) => name == "object",
    }
}

/// The lines of a run, each held against the schema; the greatest status of theirs is the exit status, and all is on standard output.
fn lines(words: &[&str]) -> Vec<Json> {
    let output = run(&[&["check", "--json"], words].concat());
    assert_eq!(text(output.stderr), "", "{words:?}");
    held(output.status.code().expect("the tool exits"), &text(output.stdout))
}

fn held(status: i32, lines: &str) -> Vec<Json> {
    let schema = schema();
    let lines: Vec<Json> = lines.lines().map(read).collect();
    for line in &lines {
        assert_eq!(refused(line, &schema, &schema), None, "{line:?}");
    }
    let greatest =
        lines.iter().map(|line| line.at("status")).max_by(|one, other| one.partial_cmp(other).expect("statuses are numbers"));
    assert_eq!(greatest, Some(&Json::Number(status.into())));
    lines
}

fn kind(line: &Json) -> (i64, &str) {
    let Json::Number(status) = line.at("status") else { panic!("no status") };
    (*status, line.at("what").text())
}

#[test]
fn every_kind_of_line() {
    let kinds = |words: &[&str]| lines(words).iter().map(|line| format!("{:?}", kind(line))).collect::<Vec<_>>().join(" ");
    assert_eq!(kinds(&[SAMPLE]), r#"(0, "folder")"#);

    let misnamed = sample("schema-misnamed", &[("gbfs.json", b"{}"), ("station_status.json", b"")]);
    rename(&misnamed, "free_bike_status.json", "free bike status.JSON");
    fs::create_dir(Path::new(&misnamed).join("en")).expect("there is room for a test");
    fs::write(Path::new(&misnamed).join("en/free_bike_status.json"), BIKE).expect("there is room for a test");
    assert_eq!(kinds(&[&misnamed]), r#"(1, "folder")"#);

    fs::create_dir(Path::new(&misnamed).join("free_bike_status.json")).expect("there is room for a test");
    let unjudged = lines(&[&misnamed]);
    assert_eq!(kind(&unjudged[0]), (2, "folder"));
    let file = &unjudged[0].at("files").items()[3];
    assert_eq!((file.at("state").text(), file.at("reason").text()), ("unreadable", "not a regular file, but a folder"));
    assert_eq!((unjudged[0].at("not_read").items().len(), unjudged[0].at("warnings").items().len()), (4, 3));
    assert_eq!(kinds(&[&format!("vehicle_types={misnamed}")]), r#"(2, "files")"#);

    let texts: [&[u8]; 6] = [b"[1,]", b"\xEF\xBB\xBF{}", br#""\ud800""#, &[b'['; 17], &[b' '; 1_048_576], b"{}"];
    for (number, text) in texts.iter().enumerate() {
        let judged = lines(&[&feed(&format!("schema-text-{number}"), &[("free_bike_status.json", text)])]);
        assert_eq!(kind(&judged[0]), (1, "folder"));
        assert_eq!(judged[0].at("fault").at("member") == &Json::Null, text != b"{}", "{number}");
    }
    let faulty =
        [r#"{"bike_id":"\u001b\"","lat":470.5}"#, r#"{"bike_id":"","lat":"x"}"#, "1", &format!("{BIKE},{BIKE}")].map(bikes);
    for (number, text) in faulty.iter().enumerate() {
        let folder = feed(&format!("schema-bikes-{number}"), &[("free_bike_status.json", text)]);
        assert_eq!(kinds(&[&folder]), r#"(1, "folder")"#);
        assert_eq!(kinds(&[&format!("{folder}/free_bike_status.json")]), r#"(1, "file")"#);
    }

    let zones = format!("{SAMPLE}/geofencing_zones.json");
    assert_eq!(kinds(&[&zones]), r#"(0, "file")"#);
    assert_eq!(kinds(&["--as", "vehicle_types", &zones]), r#"(1, "file")"#);
    let (status, line) = fed(&["check", "-", "--as=free_bike_status", "--json"], &bikes(BIKE));
    assert_eq!(kind(&held(status, &line)[0]), (0, "file"));
    assert_eq!(kinds(&[&format!("geofencing_zones={zones}")]), r#"(1, "files")"#);
    let system = format!("{}={}/{0}.json", "system_information", feed("schema-system", &[SYSTEM]));
    let (status, line) = fed(&["check", "free_bike_status=-", &system, "--json"], &bikes(BIKE));
    assert_eq!(kind(&held(status, &line)[0]), (0, "files"));

    assert_eq!(kinds(&[]), r#"(2, "error")"#);
    assert_eq!(kinds(&["--nothing"]), r#"(2, "error")"#);
    assert_eq!(kinds(&["https://example.org/gbfs.json"]), r#"(2, "error")"#);
    assert_eq!(kinds(&[SAMPLE, "nowhere", &misnamed]), r#"(0, "folder") (2, "error") (2, "folder")"#);
}

/// The answers of the other questions, each of one line: its number, or the status where there is none.
#[test]
fn every_answer() {
    let schema = schema();
    let told = |words: &[&str]| {
        let output = run(&[words, &["--json"]].concat());
        let line = read(&text(output.stdout));
        assert_eq!(refused(&line, &schema, &schema), None, "{words:?}: {line:?}");
        line.get("answer").or(line.get("status")).cloned()
    };
    let number = |number| Some(Json::Number(number));
    let cut = format!("{}/system_pricing_plans.json", feed("schema-cut", &[("system_pricing_plans.json", b"{")]));
    assert_eq!(told(&["quote", SAMPLE, "electric", "600", "2500"]), number(0));
    assert_eq!(told(&["quote", SAMPLE, "nothing", "600", "2500"]), number(6));
    assert_eq!(told(&["quote", SAMPLE, "electric", "2678401", "0"]), number(4));
    assert_eq!(told(&["quote", &cut, "electric", "0", "0"]), number(5));
    assert_eq!(told(&["quote", "nowhere", "electric", "0", "0"]), number(2));
    assert_eq!(told(&["zone", SAMPLE, "47.37", "8.543", "city_bike", "1716458431"]), number(0));
    assert_eq!(told(&["zone", SAMPLE, "0", "0", "city_bike", "0"]), number(9));
    assert_eq!(told(&["zone", SAMPLE, "91", "0", "city_bike", "0"]), number(8));
    assert_eq!(told(&["show", SAMPLE, "vehicle_types.json", "1"]), number(0));
    assert_eq!(told(&["show", SAMPLE, "vehicle_types.json", "99"]), number(10));
    assert_eq!(told(&["explain", "1000000000000000"]), number(0));
    assert_eq!(told(&["explain", "1462800300000000", SAMPLE]), number(0));
    assert_eq!(told(&["explain", "2000000000000000"]), number(3));
    assert_eq!(told(&["explain"]), number(2));
}

#[test]
fn what_is_not_of_the_schema_is_refused() {
    let schema = schema();
    let line = run(&["check", "--json", SAMPLE]);
    let line = text(line.stdout);
    for (from, to) in [
        ("\"status\":0", "\"status\":1"),
        ("\"status\":0", "\"status\":0,\"colour\":1"),
        ("\"status\":0,", ""),
        ("\"bytes\":1072", "\"bytes\":\"1072\""),
        ("\"bytes\":1072", "\"bytes\":0"),
        ("\"state\":\"found\"", "\"state\":\"unreadable\""),
        ("\"reason\":null", "\"reason\":\"a pipe\""),
        ("\"status\":0", "\"status\":2"),
        ("\"name\":\"vehicle_types.json\"", "\"name\":\"vehicle_types\""),
        ("\"word\":\"1000000000000000\"", "\"word\":\"1\""),
        ("\"warnings\":[]", "\"warnings\":[1]"),
        ("\"files\":[", "\"files\":[],\"not_read\":["),
        ("\"what\":\"folder\"", "\"what\":\"file\""),
    ] {
        assert!(line.contains(from), "{from}");
        let changed = line.replacen(from, to, 1);
        assert!(refused(&read(&changed), &schema, &schema).is_some(), "{changed}");
    }
}
