//! Numbers and files as the command line spells them. A number of any length is one: where it goes past what the library's numbers hold
//! the greatest of them stands for it, which every rule treats alike.

use crate::help::misuse;
use crate::report::Failure;
use crate::shown::shown;
use crate::standard::required_role;
use std::ffi::OsStr;

/// A whole number of 0 or more.
pub fn whole(name: &str, text: &OsStr) -> Result<u64, Failure> {
    digits(text).ok_or_else(|| misuse(&format!("{name} must be a whole number of 0 or more, not {}", shown(text))))
}

fn digits(text: &OsStr) -> Option<u64> {
    let text = text.to_str().filter(|text| is_digits(text))?;
    Some(text.parse().unwrap_or(u64::MAX))
}

fn is_digits(text: &str) -> bool {
    !text.is_empty() && text.bytes().all(|byte| byte.is_ascii_digit())
}

/// Degrees with at most six decimals, in millionths.
pub fn millionths(name: &str, text: &OsStr) -> Result<i64, Failure> {
    let exact = text.to_str().and_then(exact_millionths);
    exact.ok_or_else(|| misuse(&format!("{name} must be degrees with at most six decimals, not {}", shown(text))))
}

fn exact_millionths(text: &str) -> Option<i64> {
    let (sign, size) = text.strip_prefix('-').map_or((1, text), |size| (-1, size));
    let (degrees, decimals) = size.split_once('.').unwrap_or((size, "0"));
    if !is_digits(degrees) || !is_digits(decimals) {
        return None;
    }
    let decimals = decimals.trim_end_matches('0');
    if decimals.len() > 6 {
        return None;
    }
    let decimals: i64 = format!("{decimals:0<6}").parse().ok()?;
    let degrees: i64 = degrees.parse().unwrap_or(i64::MAX);
    Some(sign * degrees.saturating_mul(1_000_000).saturating_add(decimals))
}

/// A file by its number or by its standard name with or without `.json`.
pub fn file_number(text: &OsStr) -> Result<u64, Failure> {
    digits(text).map_or_else(|| required_role("FILE", text).map(u64::from), Ok)
}

#[cfg(test)]
mod tests {
    use super::*;

    #[test]
    fn degrees() {
        for (text, value) in [
            ("0", 0),
            ("-8.611", -8_611_000),
            ("41.149612", 41_149_612),
            ("41.1496120000", 41_149_612),
            ("-0.5", -500_000),
            ("999999", 999_999_000_000),
            ("1000000000000000000000000000000", i64::MAX),
            ("-1000000000000000000000000000000.5", -i64::MAX),
        ] {
            assert_eq!(exact_millionths(text), Some(value), "{text}");
        }
        for text in ["", "-", ".5", "1.", "1.1234567", "1e3", "+1", "--1", "1.-5", "é"] {
            assert_eq!(exact_millionths(text), None, "{text}");
        }
    }

    #[test]
    fn whole_numbers() {
        let read = |text: &str| digits(OsStr::new(text));
        assert_eq!(read("18446744073709551615"), Some(u64::MAX));
        assert_eq!(read("18446744073709551616"), Some(u64::MAX));
        assert_eq!(read("007"), Some(7));
        for text in ["", "-1", "+1", "1.5", "1e3", "٣"] {
            assert_eq!(read(text), None, "{text}");
        }
    }

    #[test]
    fn files_by_number_or_name() {
        for text in ["4", "free_bike_status", "free_bike_status.json"] {
            assert_eq!(file_number(OsStr::new(text)).ok(), Some(4));
        }
        assert_eq!(file_number(OsStr::new("1000000000000000000000")).ok(), Some(u64::MAX));
        for text in ["bikes", "", "-1"] {
            assert!(file_number(OsStr::new(text)).is_err());
        }
    }
}
