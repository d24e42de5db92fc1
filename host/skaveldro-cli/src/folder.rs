//! A folder of feeds: the files by their standard names, and what else is in it.

use crate::read::{self, unreadable, Content, Unreadable};
use crate::shown::shown;
use crate::standard::{looks_like, name_of, named};
use skaveldro::FILES;
use std::ffi::{OsStr, OsString};
use std::fs;
use std::path::Path;

/// A file of a set: what it holds, none where it is absent, or why it cannot be read.
pub type Found = Result<Option<Content>, Unreadable>;

/// The files of a set by number.
pub type Contents = [Found; FILES];

/// What a file of a set holds, if it is there and can be read.
pub fn content(found: &Found) -> Option<&Content> {
    found.as_ref().ok().and_then(Option::as_ref)
}

/// What a folder holds.
pub struct Folder {
    pub files: Contents,
    pub others: Vec<Other>,
}

/// Something in a folder that was not read.
#[derive(Debug, PartialEq, Eq, PartialOrd, Ord)]
pub struct Other {
    /// Its name; of a folder with a slash behind it, of what is in a sub-folder with that one's name in front.
    pub name: OsString,
    /// The file that it was probably meant to be.
    pub looks_like: Option<u8>,
}

/// Reads a folder.
pub fn read(path: &Path) -> Result<Folder, Unreadable> {
    Ok(Folder { files: std::array::from_fn(|index| one(path, index as u8 + 1)), others: others(path)? })
}

/// Why the files of a set cannot all be read, a message for each that cannot.
pub fn unread(files: &Contents) -> Vec<String> {
    files.iter().filter_map(|found| found.as_ref().err()).map(Unreadable::message).collect()
}

/// One of the files of a folder, by its number.
pub fn one(folder: &Path, file: u8) -> Found {
    let path = folder.join(name_of(file));
    if read::is_absent(&path)? {
        return Ok(None);
    }
    read::file(&path).map(Some)
}

/// What a folder holds besides the standard names, sorted. Sub-folders, but for links, are looked into for names that are meant to be one.
pub fn others(path: &Path) -> Result<Vec<Other>, Unreadable> {
    let mut others = Vec::new();
    for (name, is_folder) in entries(path)? {
        if is_folder {
            let within = entries(&path.join(&name)).unwrap_or_default();
            let meant = within.into_iter().filter(|(_, is_folder)| !is_folder).filter_map(|(inner, _)| {
                let file = named(&inner).or_else(|| looks_like(&inner))?;
                Some(Other { name: joined(&name, &inner), looks_like: Some(file) })
            });
            others.extend(meant);
            others.push(Other { name: joined(&name, OsStr::new("")), looks_like: None });
        } else if named(&name).is_none() {
            others.push(Other { looks_like: looks_like(&name), name });
        }
    }
    others.sort();
    Ok(others)
}

/// The names in a folder, and whether each is a folder and no link to one. The standard names are never taken for sub-folders.
fn entries(path: &Path) -> Result<Vec<(OsString, bool)>, Unreadable> {
    let mut entries = Vec::new();
    for entry in fs::read_dir(path).map_err(|error| unreadable(path, &error))? {
        let entry = entry.map_err(|error| unreadable(path, &error))?;
        let is_folder = entry.file_type().is_ok_and(|kind| kind.is_dir());
        entries.push((entry.file_name(), is_folder && named(&entry.file_name()).is_none()));
    }
    Ok(entries)
}

fn joined(folder: &OsStr, name: &OsStr) -> OsString {
    let mut joined = folder.to_os_string();
    joined.push("/");
    joined.push(name);
    joined
}

/// What is worth a warning: files that may have been meant, though the set lacks them, and files without bytes.
pub fn warnings(files: &Contents, others: &[Other]) -> Vec<String> {
    let size = |found| content(found).map(|content| content.size);
    let is_there = |file: u8| size(&files[usize::from(file) - 1]).is_some_and(|size| size > 0);
    let empty = (1..).zip(files).filter(|(_, found)| size(found) == Some(0));
    let empty = empty.map(|(file, _)| format!("{} is empty, and counts as absent", name_of(file)));
    let meant = others.iter().filter_map(|other| Some((other, other.looks_like.filter(|&file| !is_there(file))?)));
    empty.chain(meant.map(|(other, file)| passed_over(&other.name, file))).collect()
}

/// A file that is not read, though it may have been meant.
fn passed_over(name: &OsStr, file: u8) -> String {
    let standard = name_of(file);
    if Path::new(name).file_name() == Some(OsStr::new(standard)) {
        format!("{} is in a sub-folder, and was not read", shown(name))
    } else {
        format!("{} looks like {standard}, and was not read", shown(name))
    }
}
