//! `skaveldro`: the library's questions on the command line.
//!
//! Exit status: 0 the set is accepted, or the question is answered; 1 it is not; 2 there is no answer, for bad use or for something that
//! cannot be read.

#![forbid(unsafe_code)]

mod alone;
mod arguments;
mod check;
mod commands;
mod explain;
mod fault;
mod folder;
mod given;
mod help;
mod json;
mod nearest;
mod read;
mod report;
mod set;
mod several;
mod shortened;
mod shown;
mod source;
mod standard;
mod tell;

use arguments::{wants_json, Arguments};
use json::Json;
use report::{Failure, Report, NO_ANSWER};
use std::ffi::{OsStr, OsString};
use std::io::{self, Write};
use std::process::ExitCode;

fn main() -> ExitCode {
    let given: Vec<OsString> = std::env::args_os().skip(1).collect();
    let as_json = wants_json(&given);
    let report = Arguments::read(given).and_then(|arguments| run(&arguments)).unwrap_or_else(unanswered);
    print(&report, as_json)
}

fn run(arguments: &Arguments) -> Result<Report, Failure> {
    let given: Vec<&OsStr> = arguments.words.iter().map(OsString::as_os_str).collect();
    let name = given.first().map(|name| name.to_string_lossy().into_owned());
    match (name.as_deref(), given.get(1..).unwrap_or_default()) {
        (Some("help"), [command]) => help::of(&command.to_string_lossy()),
        (Some("help"), []) | (None, _) if name.is_some() || arguments.help => help::all(),
        (None, _) if arguments.version => Ok(Report::text(format!("skaveldro {}", env!("CARGO_PKG_VERSION")))),
        (None, _) => Err(help::misuse("a command is missing")),
        (Some(command), _) if arguments.help => help::of(command),
        (Some(_), _) if arguments.version => {
            Err(help::misuse("--version stands alone, and shows the tool's version; feeds are checked as GBFS 2.3 only"))
        }
        (Some("check"), _) => check::check(&arguments.words[1..], arguments.role),
        (Some(_), _) if arguments.role.is_some() => Err(help::misuse("--as goes with check only")),
        (Some("quote"), [path, plan, seconds, metres]) => commands::quote(path, plan, seconds, metres),
        (Some("zone"), [path, lat, lon, vehicle_type, moment]) => commands::zone(path, lat, lon, vehicle_type, moment),
        (Some("show"), [path, file, record]) => commands::show(path, file, record),
        (Some("explain"), [word]) => explain::explain(word, None),
        (Some("explain"), [word, path]) => explain::explain(word, Some(path)),
        (Some(command), _) => Err(help::misused(command)),
    }
}

/// The report of a question that has no answer: its text is all on standard error.
fn unanswered(failure: Failure) -> Report {
    Report { status: NO_ANSWER, text: String::new(), objects: vec![failure.json()], errors: failure.messages }
}

/// Prints a report: its text on standard output and its errors on standard error, or its objects on standard output.
fn print(report: &Report, as_json: bool) -> ExitCode {
    let lines: Vec<String> =
        if as_json { report.objects.iter().map(Json::to_string).collect() } else { vec![report.text.clone()] };
    let text = lines.iter().filter(|line| !line.is_empty()).map(|line| format!("{line}\n")).collect::<String>();
    let written = io::stdout().lock().write_all(text.as_bytes()).and_then(|()| io::stdout().flush());
    if !as_json {
        report.errors.iter().for_each(|error| complain(error));
    }
    match written {
        Err(error) if error.kind() != io::ErrorKind::BrokenPipe => {
            complain(&format!("cannot write the answer: {}", read::reason(&error)));
            ExitCode::from(NO_ANSWER)
        }
        _ => ExitCode::from(report.status),
    }
}

/// A line on standard error. Where that is closed there is nobody to tell.
fn complain(message: &str) {
    let _ = writeln!(io::stderr(), "skaveldro: {message}");
}
