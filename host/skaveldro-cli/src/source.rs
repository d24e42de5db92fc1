//! The one file that a question is about, from a folder, by itself or from standard input.

use crate::folder;
use crate::read::{self, Content};
use crate::report::Failure;
use crate::shown::shown;
use crate::standard::{misnamed, name_of};
use skaveldro::FILES;
use std::ffi::OsStr;
use std::path::Path;

/// The word for standard input.
pub const STANDARD_INPUT: &str = "-";

/// A file of a folder by its number, or the file itself, and warnings where it is absent, has no bytes or has the name of another. A file that
/// its folder does not have has no bytes.
pub fn one(path: &OsStr, file: u8) -> Result<(Vec<u8>, Vec<String>), Failure> {
    sought(path, file).map_err(|failure| failure.about(path))
}

fn sought(path: &OsStr, file: u8) -> Result<(Vec<u8>, Vec<String>), Failure> {
    let name = name_of(file);
    if path == STANDARD_INPUT {
        return Ok(noted(read::standard_input()?, "standard input"));
    }
    let given = existing(path)?;
    if !given.is_dir() {
        let (bytes, mut warnings) = noted(read::file(given)?, &shown(path));
        warnings.extend(misnamed(path, file));
        return Ok((bytes, warnings));
    }
    let Some(content) = folder::one(given, file)? else {
        let mut warnings = vec![format!("there is no {name} in {}, so it counts as absent", shown(path))];
        let meant = folder::others(given)?.into_iter().filter(|other| other.looks_like == Some(file)).collect::<Vec<_>>();
        warnings.extend(folder::warnings(&[const { Ok(None) }; FILES], &meant));
        return Ok((Vec::new(), warnings));
    };
    Ok(noted(content, name))
}

fn noted(content: Content, name: &str) -> (Vec<u8>, Vec<String>) {
    let warning = content.bytes.is_empty().then(|| format!("{name} is empty, and counts as absent"));
    (content.bytes, warning.into_iter().collect())
}

/// A path that something is at. Of a URL it is said that nothing is fetched.
pub fn existing(path: &OsStr) -> Result<&Path, Failure> {
    let given = Path::new(path);
    if !read::is_absent(given)? {
        return Ok(given);
    }
    if is_url(&path.to_string_lossy()) {
        let message = format!(
            "{}: nothing is fetched from the network; download it first, for example with curl -fO, and name the file",
            shown(path)
        );
        return Err(Failure::new(message));
    }
    Err(Failure::new(format!("there is no file or folder {}", shown(path))))
}

fn is_url(text: &str) -> bool {
    text.split_once("://")
        .is_some_and(|(scheme, _)| !scheme.is_empty() && scheme.bytes().all(|byte| byte.is_ascii_alphanumeric()))
}

#[cfg(test)]
mod tests {
    use super::is_url;

    #[test]
    fn urls() {
        assert!(is_url("https://example.org/gbfs.json") && is_url("file:///tmp"));
        assert!(!is_url("data/a.json") && !is_url("://") && !is_url("a b://c"));
    }
}
