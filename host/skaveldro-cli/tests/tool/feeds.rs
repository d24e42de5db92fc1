//! Runs of the tool, and folders made for them.

use std::ffi::OsStr;
use std::fs;
use std::io::{Read, Write};
use std::path::{Path, PathBuf};
use std::process::{Command, Output, Stdio};
use std::thread;
use std::time::{Duration, Instant};

/// A sound feed set, seen from the folder that the tool is run in.
pub const SAMPLE: &str = "crates/sample/data";

pub fn root() -> PathBuf {
    Path::new(env!("CARGO_MANIFEST_DIR")).join("../..")
}

fn command<S: AsRef<OsStr>>(words: &[S]) -> Command {
    let mut command = Command::new(env!("CARGO_BIN_EXE_skaveldro"));
    command.args(words).current_dir(root()).stdin(Stdio::null()).stdout(Stdio::piped()).stderr(Stdio::piped());
    command
}

/// Runs the tool with nothing on standard input. One that does not end fails the test, and is ended.
pub fn run<S: AsRef<OsStr>>(words: &[S]) -> Output {
    let mut child = command(words).spawn().expect("the tool runs");
    let (stdout, stderr) = (child.stdout.take(), child.stderr.take());
    let (stdout, stderr) = (thread::spawn(|| all(stdout)), thread::spawn(|| all(stderr)));
    let start = Instant::now();
    let status = loop {
        if let Some(status) = child.try_wait().expect("the tool can be waited for") {
            break status;
        }
        if start.elapsed() > Duration::from_secs(60) {
            child.kill().expect("the tool can be ended");
            panic!("the tool does not end");
        }
        thread::sleep(Duration::from_millis(2));
    };
    let bytes = |reader: thread::JoinHandle<Vec<u8>>| reader.join().expect("what is said can be read");
    Output { status, stdout: bytes(stdout), stderr: bytes(stderr) }
}

fn all(source: Option<impl Read>) -> Vec<u8> {
    let mut bytes = Vec::new();
    source.expect("there is a pipe").read_to_end(&mut bytes).expect("what is said can be read");
    bytes
}

/// Runs the tool with these bytes on standard input.
pub fn fed(words: &[&str], input: &[u8]) -> (i32, String) {
    let mut child = command(words).stdin(Stdio::piped()).spawn().expect("the tool runs");
    // A tool that has read enough closes the pipe.
    let _ = child.stdin.take().expect("there is a pipe").write_all(input);
    let output = child.wait_with_output().expect("the tool ends");
    (output.status.code().expect("the tool exits"), text(output.stdout))
}

pub fn text(bytes: Vec<u8>) -> String {
    String::from_utf8(bytes).expect("what is said is UTF-8")
}

/// Exit status and standard output; standard error is empty.
pub fn told<S: AsRef<OsStr> + std::fmt::Debug>(words: &[S]) -> (i32, String) {
    let output = run(words);
    assert_eq!(text(output.stderr), "", "{words:?}");
    (output.status.code().expect("the tool exits"), text(output.stdout))
}

/// What is said where there is no answer; the status is 2 and standard output is empty.
pub fn blamed<S: AsRef<OsStr> + std::fmt::Debug>(words: &[S]) -> String {
    let output = run(words);
    assert_eq!((output.status.code(), text(output.stdout)), (Some(2), String::new()), "{words:?}");
    text(output.stderr)
}

/// A folder of its own for a test, with these files.
pub fn feed(name: &str, files: &[(&str, &[u8])]) -> String {
    let folder = Path::new(env!("CARGO_TARGET_TMPDIR")).join(name);
    let _ = fs::remove_dir_all(&folder);
    fs::create_dir_all(&folder).expect("there is room for a test");
    for (file, bytes) in files {
        fs::write(folder.join(file), bytes).expect("there is room for a test");
    }
    folder.to_str().expect("the path is UTF-8").into()
}

/// The same with the files of the sample first.
pub fn sample(name: &str, files: &[(&str, &[u8])]) -> String {
    let folder = feed(name, &[]);
    for entry in fs::read_dir(root().join(SAMPLE)).expect("the sample is there") {
        let entry = entry.expect("the sample is there");
        fs::copy(entry.path(), Path::new(&folder).join(entry.file_name())).expect("there is room for a test");
    }
    for (file, bytes) in files {
        fs::write(Path::new(&folder).join(file), bytes).expect("there is room for a test");
    }
    folder
}

/// Gives a file of a folder another name.
pub fn rename(folder: &str, from: &str, to: &str) {
    fs::rename(Path::new(folder).join(from), Path::new(folder).join(to)).expect("the file is there");
}

/// A bikes file with these records.
pub fn bikes(records: &str) -> Vec<u8> {
    format!(r#"{{"version":"2.3","last_updated":0,"ttl":0,"data":{{"bikes":[{records}]}}}}"#).into_bytes()
}

/// A file that every set needs, by its name, with what it has to say and no more.
pub const SYSTEM: (&str, &[u8]) = (
    "system_information.json",
    br#"{"version":"2.3","last_updated":0,"ttl":0,"data":{"system_id":"s","language":"en","name":"n","timezone":"Etc/UTC"}}"#,
);

/// How many files a set has.
pub const FILES: usize = 8;

/// A bike that keeps every rule.
pub const BIKE: &str = r#"{"bike_id":"a","lat":1,"lon":2,"is_reserved":false,"is_disabled":false}"#;
