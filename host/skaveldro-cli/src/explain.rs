//! `explain`: what a verdict word says, and whether the files at hand are those that it was given for.

use crate::fault::{self, Fault};
use crate::folder;
use crate::help::misuse;
use crate::json::Json;
use crate::read;
use crate::report::{Failure, Report, NO, YES};
use crate::set::bytes;
use crate::shown::shown;
use crate::source::existing;
use crate::standard::{misnamed, named};
use crate::tell;
use skaveldro::{verdict, Kind, Parts, Reading, Word};
use std::ffi::OsStr;
use std::path::Path;
use words::{tell_of_set, Told};

/// What is known of a word with files at hand.
struct Known {
    told: Option<Told>,
    /// Do the files give the word? None where they cannot tell.
    matches: Option<bool>,
    warnings: Vec<String>,
}

/// What a word says. With the folder or the file that was judged also the line, the column and the record's id.
pub fn explain(word: &OsStr, path: Option<&OsStr>) -> Result<Report, Failure> {
    let text = word.to_string_lossy();
    let word: Word = text.parse().map_err(|error| misuse(&format!("{}: {error}", shown(word))))?;
    let reading = word.read();
    let Reading::Parts(parts) = reading else {
        return Ok(tell::refused(reading.number(), format!("{word} is not a verdict word")).warning(Vec::new()));
    };
    let known = match path {
        None => Known { told: words::tell(parts, None), matches: None, warnings: Vec::new() },
        Some(path) => against(word, parts, path).map_err(|failure| failure.about(path))?,
    };
    let status = if parts.is_accepted() && known.matches != Some(false) { YES } else { NO };
    let verdict = if parts.is_accepted() { "accepted" } else { "not accepted" };
    let lines: Vec<String> =
        std::iter::once(format!("{verdict}, word {word}")).chain(known.told.iter().map(Told::to_string)).collect();
    let fault = known.told.map(|told| Fault { parts, told });
    let members = vec![
        ("answer", Json::Number(reading.number().into())),
        ("accepted", Json::Truth(parts.is_accepted())),
        ("word", Json::Text(word.to_string())),
        ("fault", fault::json(fault.as_ref())),
        ("matches", Json::or_null(known.matches, Json::Truth)),
    ];
    Ok(Report::new(status, lines.join("\n"), members).warning(known.warnings))
}

fn against(word: Word, parts: Parts, path: &OsStr) -> Result<Known, Failure> {
    let path = existing(path)?;
    if path.is_dir() {
        against_folder(word, parts, path)
    } else {
        against_file(parts, path)
    }
}

/// Judges a folder again: its files are those of the word if they give it.
fn against_folder(word: Word, parts: Parts, path: &Path) -> Result<Known, Failure> {
    let folder = folder::read(path)?;
    let unread = folder::unread(&folder.files);
    if !unread.is_empty() {
        return Err(Failure::of(unread));
    }
    let files = bytes(&folder.files);
    let again = verdict(files).word();
    if again == word {
        return Ok(Known { told: tell_of_set(parts, files), matches: Some(true), warnings: Vec::new() });
    }
    let warning = format!("this is not the set that was judged: {} now gives the word {again}", shown(path));
    Ok(Known { told: words::tell(parts, None), matches: Some(false), warnings: vec![warning] })
}

/// Judges a file alone: what it breaks by itself, it must break as the word says. What other files decide it cannot tell.
fn against_file(parts: Parts, path: &Path) -> Result<Known, Failure> {
    let content = read::file(path)?;
    let file = if parts.is_accepted() { path.file_name().and_then(named) } else { Some(parts.file) };
    let own = file.and_then(|file| fault::of_file(file, &content.bytes)).map(|fault| fault.parts);
    let is_own = parts.is_accepted() && own.is_some() || parts.rule().is_some_and(|kind| kind <= Kind::IdTwice);
    let name = shown(path);
    let (matches, warning) = match own {
        Some(own) if own == parts => (Some(true), None),
        Some(own) if is_own || own.rule().is_some_and(|kind| kind < Kind::IdTwice) => {
            let first = words::tell(own, Some(&content.bytes)).map_or(String::new(), |told| told.to_string());
            (Some(false), Some(format!("this is not the file that was judged: {name} first breaks another rule: {first}")))
        }
        None if is_own => (Some(false), Some(format!("this is not the file that was judged: {name} is clean by itself"))),
        _ => (
            None,
            Some(format!("{name} alone cannot tell whether it was judged: the verdict depends on other files; name the folder")),
        ),
    };
    let bytes = (matches != Some(false)).then_some(content.bytes.as_slice()).filter(|bytes| !bytes.is_empty());
    let warnings = file.and_then(|file| misnamed(path.as_os_str(), file)).into_iter().chain(warning).collect();
    Ok(Known { told: words::tell(parts, bytes), matches, warnings })
}
