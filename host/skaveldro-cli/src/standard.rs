//! The standard file names, and names that were meant to be one of them.

use crate::help::misuse;
use crate::nearest::{distance, nearest};
use crate::report::Failure;
use crate::shortened::shortened;
use crate::shown::shown;
use skaveldro::names::FILE_NAMES;
use std::ffi::OsStr;
use std::path::Path;

/// The standard name of a file by its number.
pub fn name_of(file: u8) -> &'static str {
    FILE_NAMES[usize::from(file) - 1]
}

/// The same without its ending.
pub fn stem_of(file: u8) -> &'static str {
    stem(name_of(file))
}

/// The file whose standard name this is.
pub fn named(name: &OsStr) -> Option<u8> {
    (1..).zip(FILE_NAMES).find(|(_, standard)| name == *standard).map(|(file, _)| file)
}

/// A standard name without its ending.
pub fn stem(standard: &'static str) -> &'static str {
    standard.strip_suffix(".json").unwrap_or(standard)
}

/// A file by its standard name, with or without the ending.
pub fn role(text: &OsStr) -> Option<u8> {
    named(text).or_else(|| (1..).zip(FILE_NAMES).find(|(_, standard)| text == stem(standard)).map(|(file, _)| file))
}

/// The same, for a word that has to be one.
pub fn required_role(name: &str, text: &OsStr) -> Result<u8, Failure> {
    role(text).ok_or_else(|| {
        let stems = FILE_NAMES.map(stem);
        let meant = nearest(&text.to_string_lossy(), stems).map_or(String::new(), |stem| format!("; did you mean {stem}?"));
        misuse(&format!("{name} must be one of {}, not {}{meant}", stems.join(", "), shown(text)))
    })
}

/// A warning where a file is read as another than its name says.
pub fn misnamed(path: &OsStr, file: u8) -> Option<String> {
    let is_another = Path::new(path).file_name().and_then(named).is_some_and(|named| named != file);
    is_another.then(|| format!("{} has the name of another file, and was read as {}", shown(path), name_of(file)))
}

/// What version 3 of GBFS calls a file of version 2.
pub const LATER_NAMES: [(&str, u8); 1] = [("vehicle_status", 4)];

/// The file that another name was probably meant to be: it differs in case, ending, punctuation, up to two letters, by what is put
/// in front of it or behind, or by words that are left out.
pub fn looks_like(name: &OsStr) -> Option<u8> {
    if named(name).is_some() {
        return None;
    }
    let name = name.to_string_lossy();
    let (whole, stem_alone) = (squeezed(&name), squeezed(name.trim_start_matches('.').split('.').next().unwrap_or_default()));
    let is_meant = |squeezed_stem: &str| whole.contains(squeezed_stem) || distance(&stem_alone, squeezed_stem) <= 2;
    let standard = (1..).zip(FILE_NAMES).map(|(file, standard)| (squeezed(stem(standard)), file));
    let later = LATER_NAMES.map(|(stem, file)| (squeezed(stem), file));
    standard.chain(later).find(|(squeezed_stem, _)| is_meant(squeezed_stem)).map(|(_, file)| file).or_else(|| shortened(&name))
}

/// The letters and digits of a name, in lower case.
fn squeezed(name: &str) -> String {
    name.chars().filter(|character| character.is_alphanumeric()).flat_map(char::to_lowercase).collect()
}

#[cfg(test)]
mod tests {
    use super::*;
    use std::os::unix::ffi::OsStrExt;

    #[test]
    fn roles() {
        assert_eq!(named(OsStr::new("free_bike_status.json")), Some(4));
        assert_eq!(named(OsStr::new("free_bike_status")), None);
        assert_eq!(role(OsStr::new("free_bike_status")), Some(4));
        assert_eq!(role(OsStr::new("geofencing_zones.json")), Some(6));
        assert_eq!(role(OsStr::new("Free_bike_status")), None);
    }

    #[test]
    fn files_read_as_another() {
        let said = |path, file| misnamed(OsStr::new(path), file);
        let warning = "a/free_bike_status.json has the name of another file, and was read as vehicle_types.json";
        assert_eq!(said("a/free_bike_status.json", 1).as_deref(), Some(warning));
        assert_eq!((said("a/free_bike_status.json", 4), said("bikes.json", 1), said("..", 1)), (None, None, None));
    }

    #[test]
    fn near_misses() {
        for name in [
            "free_bike_status",
            "Free_Bike_Status.json",
            "free_bike_status.JSON",
            "free_bike_status.json.txt",
            "free_bike_status.json.gz",
            "free_bike_status.json~",
            " free_bike_status.json",
            "free bike status.json",
            "free-bike-status.json",
            "freeBikeStatus.json",
            "free_bike_status (1).json",
            "oslo_free_bike_status_2024-05-23.json",
            "v2.3-free_bike_status.json",
            "free_bike_staus.json",
            "free_bikes_sttaus.json",
            "vehicle_status.json",
        ] {
            assert_eq!(looks_like(OsStr::new(name)), Some(4), "{name}");
        }
        assert_eq!(looks_like(OsStr::new("geofencing_zone.json")), Some(6));
        assert_eq!(looks_like(OsStr::new("vehicle_type.json")), Some(1));
        assert_eq!(looks_like(OsStr::new("pricing_plans.json")), Some(5));
        for name in ["system_info.json", "system_informations.json", "SystemInformation.json"] {
            assert_eq!(looks_like(OsStr::new(name)), Some(7), "{name}");
        }
        assert_eq!(looks_like(OsStr::new("regions.json")), Some(8));
        assert_eq!(looks_like(OsStr::from_bytes(b"free_bike_stat\xFFus.json")), Some(4));
    }

    /// The standard names are not near misses, nor are those of the other files of GBFS.
    #[test]
    fn other_names() {
        for name in FILE_NAMES.into_iter().chain([
            "gbfs.json",
            "gbfs_versions.json",
            "manifest.json",
            "system_hours.json",
            "system_calendar.json",
            "system_alerts.json",
            "README.md",
            "",
        ]) {
            assert_eq!(looks_like(OsStr::new(name)), None, "{name}");
        }
    }
}
