//! Bytes of a file, read so that every path comes to an end: nothing but a regular file is opened for good.

use crate::report::Failure;
use crate::shown::shown;
use skaveldro::MOST_BYTES;
use std::fs::{self, File, FileType, OpenOptions};
use std::io::{self, Read};
use std::os::unix::fs::{FileTypeExt, OpenOptionsExt};
use std::path::Path;

/// What a file holds.
#[derive(Debug, PartialEq, Eq)]
pub struct Content {
    /// Its bytes, up to one more than a file may have: what lies past them cannot change an answer.
    pub bytes: Vec<u8>,
    /// How many bytes it has in all, or were read where nothing tells how many more there are.
    pub size: u64,
    /// Does nothing tell that?
    pub has_more: bool,
}

impl Content {
    /// The size in words.
    pub fn told_size(&self) -> String {
        if self.has_more {
            format!("over {MOST_BYTES} bytes")
        } else {
            format!("{} bytes", self.size)
        }
    }
}

/// What cannot be read, as it is shown, and why.
#[derive(Debug, PartialEq, Eq)]
pub struct Unreadable {
    path: String,
    pub why: String,
}

impl Unreadable {
    pub fn message(&self) -> String {
        format!("cannot read {}: {}", self.path, self.why)
    }
}

impl From<Unreadable> for Failure {
    fn from(unreadable: Unreadable) -> Failure {
        Failure::new(unreadable.message())
    }
}

/// Linux's flag to open without waiting, on the processors that the library is built for: a pipe that nobody writes to opens at once.
const NONBLOCK: i32 = 0o4000;

/// The file at a path; links are followed.
pub fn file(path: &Path) -> Result<Content, Unreadable> {
    open(path).and_then(content).map_err(|why| Unreadable { path: shown(path), why })
}

/// Opens a regular file. Its type is looked at first, since opening a device can set it to work, and again once it is open, since
/// another may have taken its place.
fn open(path: &Path) -> Result<File, String> {
    let metadata = fs::metadata(path).map_err(|error| no_metadata(path, &error))?;
    regular(metadata.file_type())?;
    let file = OpenOptions::new().read(true).custom_flags(NONBLOCK).open(path).map_err(|error| reason(&error))?;
    regular(file.metadata().map_err(|error| reason(&error))?.file_type())?;
    Ok(file)
}

fn content(file: File) -> Result<Content, String> {
    let length = file.metadata().map_err(|error| reason(&error))?.len();
    let bytes = at_most(file)?;
    let read = bytes.len() as u64;
    let size = if bytes.len() > MOST_BYTES { length.max(read) } else { read };
    Ok(Content { bytes, size, has_more: false })
}

/// Standard input. Of more bytes than a file may have, no more are read than tell that.
pub fn standard_input() -> Result<Content, Unreadable> {
    let bytes = at_most(io::stdin().lock()).map_err(|why| Unreadable { path: "standard input".into(), why })?;
    Ok(Content { size: bytes.len() as u64, has_more: bytes.len() > MOST_BYTES, bytes })
}

fn at_most(source: impl Read) -> Result<Vec<u8>, String> {
    let mut bytes = Vec::new();
    source.take(MOST_BYTES as u64 + 1).read_to_end(&mut bytes).map_err(|error| reason(&error))?;
    Ok(bytes)
}

/// Is there nothing of that name? A link that leads nowhere is something that cannot be read.
pub fn is_absent(path: &Path) -> Result<bool, Unreadable> {
    match path.symlink_metadata() {
        Ok(_) => Ok(false),
        Err(error) if error.kind() == io::ErrorKind::NotFound => Ok(true),
        Err(error) => Err(unreadable(path, &error)),
    }
}

pub fn unreadable(path: &Path, error: &io::Error) -> Unreadable {
    Unreadable { path: shown(path), why: reason(error) }
}

/// Refuses what is not a regular file, and says what it is.
fn regular(kind: FileType) -> Result<(), String> {
    let what = match kind {
        kind if kind.is_file() => return Ok(()),
        kind if kind.is_dir() => "a folder",
        kind if kind.is_fifo() => "a pipe (to check what a program writes, see standard input in 'skaveldro help check')",
        kind if kind.is_socket() => "a socket",
        kind if kind.is_char_device() || kind.is_block_device() => "a device",
        _ => "something else",
    };
    Err(format!("not a regular file, but {what}"))
}

/// Why there is no metadata: a link that leads nowhere is named as such.
fn no_metadata(path: &Path, error: &io::Error) -> String {
    match fs::read_link(path) {
        Ok(target) if error.kind() == io::ErrorKind::NotFound => {
            format!("a link to {}, which does not exist", shown(target))
        }
        _ => reason(error),
    }
}

/// What the system says, without its number.
pub fn reason(error: &io::Error) -> String {
    let text = error.to_string();
    text.split(" (os error").next().unwrap_or(&text).into()
}
