//! One file judged by itself.

use crate::fault;
use crate::json::Json;
use crate::read::Content;
use crate::report::{Failure, Report, NO, YES};
use crate::shown::shown;
use crate::source::STANDARD_INPUT;
use crate::standard::{misnamed, name_of};
use std::ffi::OsStr;

/// What only a set can be judged by.
const NOT_JUDGED: &str = "conditions, references and sums were not judged (kinds 13 to 15); name a folder to judge a whole set";

/// Is a file clean? A file without bytes has nothing to judge.
pub fn report(path: &OsStr, file: u8, content: &Content) -> Result<Report, Failure> {
    let name = name_of(file);
    let warnings = misnamed(path, file).into_iter().collect();
    let path = if path == STANDARD_INPUT { "standard input".into() } else { shown(path) };
    if content.bytes.is_empty() {
        return Err(Failure::new(format!("{path} is empty: it counts as an absent {name}, so there is nothing to judge")));
    }
    let fault = fault::of_file(file, &content.bytes);
    let (status, verdict) = if fault.is_none() { (YES, "clean") } else { (NO, "not clean") };
    let mut lines = vec![format!("{verdict}, judged alone as {name}, {}", content.told_size())];
    lines.extend(fault.iter().map(|fault| fault.told.to_string()));
    lines.push(NOT_JUDGED.into());
    let members = vec![
        ("status", Json::Number(status.into())),
        ("what", Json::Text("file".into())),
        ("path", Json::Text(path)),
        ("name", Json::Text(name.into())),
        ("bytes", Json::Raw(content.size.to_string())),
        ("clean", Json::Truth(fault.is_none())),
        ("fault", fault::json(fault.as_ref())),
    ];
    Ok(Report::new(status, lines.join("\n"), members).warning(warnings))
}
