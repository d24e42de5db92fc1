//! Names and paths as they are shown: as they are, or quoted where that would not be plain to see.

use std::ffi::OsStr;

/// A name for people. One with control characters, with whitespace at an end, or that is not UTF-8 is quoted and escaped.
pub fn shown(name: impl AsRef<OsStr>) -> String {
    let name = name.as_ref();
    let escaped = format!("{name:?}");
    match name.to_str() {
        Some(plain) if escaped[1..escaped.len() - 1] == *plain && !plain.is_empty() && plain.trim() == plain => plain.into(),
        _ => escaped,
    }
}

#[cfg(test)]
mod tests {
    use super::*;
    use std::os::unix::ffi::OsStrExt;

    #[test]
    fn names() {
        for (name, text) in [
            (&b"a b/c.json"[..], "a b/c.json"),
            ("é".as_bytes(), "é"),
            (b"", "\"\""),
            (b" a", "\" a\""),
            (b"a\n\x1b[2J", r#""a\n\u{1b}[2J""#),
            (b"a\xFF", r#""a\xFF""#),
            ("\u{202e}nosj".as_bytes(), r#""\u{202e}nosj""#),
        ] {
            assert_eq!(shown(OsStr::from_bytes(name)), text);
        }
    }
}
