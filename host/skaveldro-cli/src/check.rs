//! `check`: the verdict on folders, on single files, and on a set whose files are named one by one.

use crate::folder::{self, Contents, Folder};
use crate::help::{misuse, misused};
use crate::read;
use crate::report::{Failure, Report, NO, YES};
use crate::set::{self, Set};
use crate::several::{join, Outcome, WITHOUT};
use crate::shown::shown;
use crate::source::{existing, STANDARD_INPUT};
use crate::standard::{looks_like, misnamed, name_of, named, required_role, role};
use crate::{alone, standard};
use skaveldro::FILES;
use std::ffi::{OsStr, OsString};
use std::os::unix::ffi::OsStrExt;
use std::path::Path;

/// Checks what the words name; `given_role` is what `--as` says that the one file is.
pub fn check(words: &[OsString], given_role: Option<u8>) -> Result<Report, Failure> {
    if words.is_empty() {
        return Err(misused("check"));
    }
    let assigned: Vec<(u8, &OsStr)> = words.iter().filter_map(|word| assignment(word)).collect();
    match (assigned.len(), given_role) {
        (0, Some(_)) if words.len() > 1 => Err(misuse("--as says what one file is: name one FILE with it")),
        (0, _) => Ok(join(words.iter().map(|word| (word.as_os_str(), subject(word, given_role))).collect())),
        (_, Some(_)) => Err(misuse("--as and ROLE=FILE both say what a file is: use one of them")),
        (count, None) if count < words.len() => {
            Err(misuse("name folders and files, or every file of one set as ROLE=FILE, not both"))
        }
        (_, None) => of_files(&assigned).map(|set| set::report(&set)),
    }
}

/// The two sides of ROLE=FILE.
fn assignment(word: &OsStr) -> Option<(u8, &OsStr)> {
    let bytes = word.as_bytes();
    let equals = bytes.iter().position(|&byte| byte == b'=')?;
    Some((role(OsStr::from_bytes(&bytes[..equals]))?, OsStr::from_bytes(&bytes[equals + 1..])))
}

/// A set of files that are named one by one; the others are absent.
fn of_files(assigned: &[(u8, &OsStr)]) -> Result<Set, Failure> {
    if assigned.iter().filter(|(_, path)| *path == STANDARD_INPUT).count() > 1 {
        return Err(misuse("standard input can be one file only"));
    }
    let mut files: Contents = [const { Ok(None) }; FILES];
    let mut warnings = Vec::new();
    for &(file, path) in assigned {
        let slot = &mut files[usize::from(file) - 1];
        if !matches!(slot, Ok(None)) {
            return Err(misuse(&format!("{} is named twice", name_of(file))));
        }
        *slot = if path == STANDARD_INPUT {
            read::standard_input()
        } else {
            read::file(existing(path).map_err(|failure| failure.about(path))?)
        }
        .map(Some);
        warnings.extend(misnamed(path, file));
    }
    warnings.extend(folder::warnings(&files, &[]));
    Ok(Set { what: "files", path: None, files, others: Vec::new(), warnings })
}

/// One folder or file, or standard input.
fn subject(path: &OsStr, given_role: Option<u8>) -> Result<Outcome, Failure> {
    let alone = |file, content| {
        let report = alone::report(path, file, &content)?;
        let counted = if report.status == YES { "clean" } else { "not clean" };
        Ok(Outcome { report, counted })
    };
    if path == STANDARD_INPUT {
        let file =
            given_role.ok_or_else(|| misuse("say which file standard input is: skaveldro check --as free_bike_status -"))?;
        return alone(file, read::standard_input()?);
    }
    let given = existing(path).map_err(|failure| misnamed_role(path).unwrap_or(failure))?;
    if !given.is_dir() {
        let file = given_role.map_or_else(|| role_by_name(given), Ok)?;
        return alone(file, read::file(given)?);
    }
    if given_role.is_some() {
        return Err(misuse(&format!("--as says what one file is, and {} is a folder", shown(path))));
    }
    let Folder { files, others } = folder::read(given)?;
    let warnings = folder::warnings(&files, &others);
    let report = set::report(&Set { what: "folder", path: Some(path.to_string_lossy().into_owned()), files, others, warnings });
    let counted = match report.status {
        YES => "accepted",
        NO => "not accepted",
        _ => WITHOUT,
    };
    Ok(Outcome { report, counted })
}

/// Which file a path is by its name.
fn role_by_name(path: &Path) -> Result<u8, Failure> {
    let name = path.file_name().unwrap_or_default();
    named(name).ok_or_else(|| {
        let meant = looks_like(name).map_or("ROLE", standard::stem_of);
        misuse(&format!("{} is not one of the standard names: say which file it is with --as {meant}", shown(path)))
    })
}

/// A word like ROLE=FILE whose role there is not.
fn misnamed_role(word: &OsStr) -> Option<Failure> {
    let bytes = word.as_bytes();
    let equals = bytes.iter().position(|&byte| byte == b'=')?;
    let left = &bytes[..equals];
    if left.contains(&b'/') || left.contains(&b':') {
        return None;
    }
    required_role("ROLE", OsStr::from_bytes(left)).err()
}
