//! Files that are none, numbers of any length, and names of any bytes: each run ends, with the answer that the table has for it.

use crate::feeds::{bikes, blamed, feed, root, run, sample, text, told, BIKE, SAMPLE, SYSTEM};
use std::ffi::{OsStr, OsString};
use std::fs;
use std::os::unix::ffi::OsStrExt;
use std::os::unix::fs::{symlink, PermissionsExt};
use std::os::unix::net::UnixListener;
use std::path::{Path, PathBuf};
use std::process::Command;

/// The sample with one file taken out, and the path that it had.
fn without(name: &str, file: &str) -> (String, PathBuf) {
    let folder = sample(name, &[]);
    let path = Path::new(&folder).join(file);
    fs::remove_file(&path).expect("the file is there");
    (folder, path)
}

fn said(words: &[&str], message: &str) {
    let why = blamed(words);
    assert!(why.contains(message), "{words:?}: {why}");
}

/// A folder has no verdict where a file of it cannot be read, and a report all the same.
fn unjudged(folder: impl AsRef<OsStr>, file: &str, why: &str) {
    let output = run(&["check".as_ref(), folder.as_ref()]);
    let (report, errors) = (text(output.stdout), text(output.stderr));
    assert_eq!(output.status.code(), Some(2), "{report}");
    assert!(report.starts_with(&format!("no verdict, since {file} cannot be read\nfiles:\n")), "{report}");
    let state = report.lines().find_map(|line| line.strip_prefix(&format!("  {file:25}  "))).expect("the file is listed");
    assert!(state.starts_with("unreadable: ") && state.contains(why), "{report}");
    assert!(
        errors.starts_with("skaveldro: cannot read ") && errors.contains(&format!("{file}: ")) && errors.contains(why),
        "{errors}"
    );
}

#[test]
fn a_pipe_that_nobody_writes_to() {
    let (folder, path) = without("odd-pipe", "geofencing_zones.json");
    assert!(Command::new("mkfifo").arg(&path).status().expect("mkfifo runs").success());
    let file = path.to_str().expect("the path is UTF-8");
    unjudged(&folder, "geofencing_zones.json", "not a regular file, but a pipe");
    said(&["check", file], &format!("cannot read {file}: not a regular file, but a pipe"));
    said(&["zone", &folder, "0", "0", "", "0"], "not a regular file, but a pipe");
    said(&["zone", file, "0", "0", "", "0"], "not a regular file, but a pipe");
    said(&["explain", "1000000000000000", &folder], "not a regular file, but a pipe");
}

#[test]
fn a_socket_a_device_and_a_folder() {
    // a socket's path has little room
    let folder = std::env::temp_dir().join(format!("skaveldro-{}", std::process::id()));
    fs::create_dir_all(&folder).expect("there is room for a test");
    let socket = folder.join("geofencing_zones.json");
    let listener = UnixListener::bind(&socket).expect("there is room for a test");
    unjudged(&folder, "geofencing_zones.json", "not a regular file, but a socket");
    drop(listener);
    fs::remove_dir_all(&folder).expect("the folder is there");

    let (folder, path) = without("odd-device", "geofencing_zones.json");
    symlink("/dev/zero", &path).expect("there is room for a test");
    unjudged(&folder, "geofencing_zones.json", "not a regular file, but a device");
    fs::remove_file(&path).expect("the link is there");
    fs::create_dir(&path).expect("there is room for a test");
    unjudged(&folder, "geofencing_zones.json", "not a regular file, but a folder");
}

#[test]
fn links() {
    let (folder, path) = without("odd-links", "geofencing_zones.json");
    let target = root().join(SAMPLE).join("geofencing_zones.json");
    symlink(target.canonicalize().expect("the sample is there"), &path).expect("there is room for a test");
    assert_eq!(told(&["check", &folder]), told(&["check", SAMPLE]));
    for (target, why) in
        [("nowhere.json", "a link to nowhere.json, which does not exist"), ("geofencing_zones.json", "symbolic links")]
    {
        fs::remove_file(&path).expect("the link is there");
        symlink(target, &path).expect("there is room for a test");
        unjudged(&folder, "geofencing_zones.json", why);
        said(&["zone", &folder, "0", "0", "", "0"], why);
    }
}

/// Every file that cannot be read is named, not only the first, and what else is known of the folder is told.
#[test]
fn several_at_once() {
    let others: [(&str, &[u8]); 4] =
        [("free_bike_status.json", b"[1,]"), ("geofencing_zones.json", b""), ("vehicle-types.json", b"{}"), ("gbfs.json", b"{}")];
    let folder = feed("odd-several", &others);
    for name in ["vehicle_types.json", "station_status.json"] {
        fs::create_dir(Path::new(&folder).join(name)).expect("there is room for a test");
    }
    let report = "no verdict, since vehicle_types.json and station_status.json cannot be read, with 2 warnings
warning: geofencing_zones.json is empty, and counts as absent
warning: vehicle-types.json looks like vehicle_types.json, and was not read
files:
  vehicle_types.json         unreadable: not a regular file, but a folder
  station_information.json   absent
  station_status.json        unreadable: not a regular file, but a folder
  free_bike_status.json      4 bytes, not clean: line 1, column 4: not valid JSON: unexpected \"]\"
  system_pricing_plans.json  absent
  geofencing_zones.json      empty, counts as absent
  system_information.json    absent
  system_regions.json        absent
not read: gbfs.json, vehicle-types.json
";
    let errors = ["vehicle_types", "station_status"]
        .map(|name| format!("skaveldro: cannot read {folder}/{name}.json: not a regular file, but a folder\n"));
    let output = run(&["check", &folder]);
    assert_eq!((output.status.code(), text(output.stdout), text(output.stderr)), (Some(2), report.into(), errors.concat()));
    let output = run(&["check", SAMPLE, &folder]);
    assert_eq!((output.status.code(), text(output.stderr)), (Some(2), errors.concat()));
    assert!(text(output.stdout).ends_with(&format!("\n\n{folder}: {report}\n2 checked: 1 accepted, 1 with no answer\n")));
    assert_eq!(blamed(&["explain", "1000000000000000", &folder]), errors.concat());
}

/// The same of a set whose files are named one by one.
#[test]
fn a_named_file_that_cannot_be_read() {
    let folder = feed("odd-named", &[]);
    let output = run(&["check", &format!("vehicle_types={folder}"), &format!("geofencing_zones={SAMPLE}/geofencing_zones.json")]);
    let report = text(output.stdout);
    assert_eq!(output.status.code(), Some(2));
    assert_eq!(text(output.stderr), format!("skaveldro: cannot read {folder}: not a regular file, but a folder\n"));
    assert!(report.starts_with("no verdict, since vehicle_types.json cannot be read\nfiles:\n"), "{report}");
    assert!(report.contains("\n  geofencing_zones.json      1132 bytes, clean\n"), "{report}");
}

#[test]
fn a_file_that_may_not_be_read() {
    let folder = sample("odd-denied", &[]);
    let path = Path::new(&folder).join("vehicle_types.json");
    fs::set_permissions(&path, fs::Permissions::from_mode(0o000)).expect("the file is there");
    // who may read every file, may read this one
    if fs::read(&path).is_err() {
        unjudged(&folder, "vehicle_types.json", "Permission denied");
    }
}

/// An answer that cannot be written is none.
#[test]
fn a_full_device() {
    let full = fs::OpenOptions::new().write(true).open("/dev/full").expect("there is such a device");
    let tool = Command::new(env!("CARGO_BIN_EXE_skaveldro")).args(["check", SAMPLE]).current_dir(root()).stdout(full).output();
    let output = tool.expect("the tool runs");
    assert_eq!(output.status.code(), Some(2));
    assert_eq!(text(output.stderr), "skaveldro: cannot write the answer: No space left on device\n");
}

#[test]
fn numbers_of_any_length() {
    const HUGE: &str = "1000000000000000000000000000000";
    let minus = format!("-{HUGE}.5");
    let answered = |words: &[&str], number: u8| {
        let (status, line) = told(&[words, &["--json"]].concat());
        assert!(status == 1 && line.starts_with(&format!("{{\"answer\":{number},")), "{words:?}: {line}");
    };
    answered(&["quote", SAMPLE, "electric", HUGE, "0"], 4);
    answered(&["quote", SAMPLE, "electric", "0", HUGE], 4);
    answered(&["show", SAMPLE, "vehicle_types", HUGE], 10);
    answered(&["show", SAMPLE, HUGE, "1"], 10);
    answered(&["show", SAMPLE, "0", "1"], 10);
    answered(&["show", SAMPLE, "7", "1"], 10);
    answered(&["show", SAMPLE, "9", "1"], 10);
    answered(&["zone", SAMPLE, HUGE, "0", "", "0"], 8);
    answered(&["zone", SAMPLE, "0", &minus, "", "0"], 8);
    // the zones of the sample that have no end still count then
    let ever = |moment| told(&["zone", SAMPLE, "47.37", "8.543", "city_bike", moment]).1;
    assert_eq!(ever(HUGE), ever("18446744073709551615"));
}

#[test]
fn names_of_any_bytes() {
    let odd = OsStr::from_bytes(b"odd-\xFF\x1b[2J");
    let folder = Path::new(env!("CARGO_TARGET_TMPDIR")).join(odd);
    let _ = fs::remove_dir_all(&folder);
    fs::create_dir_all(&folder).expect("there is room for a test");
    fs::write(folder.join("free_bike_status.json"), bikes(BIKE)).expect("there is room for a test");
    fs::write(folder.join(SYSTEM.0), SYSTEM.1).expect("there is room for a test");
    fs::write(folder.join(OsStr::from_bytes(b"free_bike_status\xFF\n.json")), b"").expect("there is room for a test");
    let (status, text_of) = told(&["check".as_ref(), folder.as_os_str()]);
    assert!(status == 0 && text_of.ends_with("not read: \"free_bike_status\\xFF\\n.json\"\n"), "{text_of}");
    let output = run(&["check".as_ref(), folder.as_os_str(), "nowhere".as_ref()]);
    assert!(text(output.stdout).contains("odd-\\xFF\\u{1b}[2J\": accepted"));
    let (status, line) = told(&["check".as_ref(), folder.as_os_str(), "--json".as_ref()]);
    assert!(status == 0 && line.contains("odd-\u{FFFD}\\u001b[2J"), "{line}");
    let plan = OsString::from(OsStr::from_bytes(b"p\xFF"));
    let (status, answer) = told(&["quote".as_ref(), SAMPLE.as_ref(), plan.as_os_str(), "0".as_ref(), "0".as_ref()]);
    assert_eq!((status, answer.as_str()), (1, "no plan has the id \"p\\xFF\"\n"));
    assert!(blamed(&["quote".as_ref(), SAMPLE.as_ref(), "p".as_ref(), plan.as_os_str(), "0".as_ref()]).contains("not \"p\\xFF\""));
}
