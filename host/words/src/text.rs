//! Why a text is not JSON, from the bytes where it stops being so.

/// Why no JSON text goes on with the byte at an offset.
pub fn not_json(bytes: &[u8], offset: usize) -> String {
    let before = &bytes[..offset.min(bytes.len())];
    let is_first = before.iter().all(u8::is_ascii_whitespace);
    let Some(&byte) = bytes.get(offset) else {
        return if is_first {
            "not valid JSON: the file holds nothing but whitespace".into()
        } else {
            "not valid JSON: the file ends before its JSON text is complete; it may have been cut off".into()
        };
    };
    if is_first {
        if let Some(why) = not_even_text(&bytes[offset..]) {
            return format!("not valid JSON: {why}");
        }
    }
    match std::str::from_utf8(bytes) {
        Err(error) if error.valid_up_to() <= offset => {
            format!("not valid JSON: byte 0x{byte:02X} is not valid UTF-8 here")
        }
        _ if byte < b' ' => format!("not valid JSON: control character U+{byte:04X}, which a string must escape"),
        _ => {
            let text = String::from_utf8_lossy(&bytes[offset..bytes.len().min(offset + 4)]);
            format!("not valid JSON: unexpected {:?}", text.chars().next().map(String::from).unwrap_or_default())
        }
    }
}

/// What a file is that does not begin as JSON does.
fn not_even_text(start: &[u8]) -> Option<&'static str> {
    let known: [(&[u8], &str); 5] = [
        (b"\xEF\xBB\xBF", "the file begins with a byte order mark (BOM); save it as UTF-8 without one"),
        (b"\xFE\xFF", "the file begins with a byte order mark (BOM) of UTF-16; save it as UTF-8 without one"),
        (b"\xFF\xFE", "the file begins with a byte order mark (BOM) of UTF-16; save it as UTF-8 without one"),
        (b"\x1F\x8B", "the file is compressed (gzip); decompress it first"),
        (b"<", "the file begins like HTML or XML; an error page may have been saved in place of the feed"),
    ];
    known.iter().find(|(mark, _)| start.starts_with(mark)).map(|(_, why)| *why)
}

#[cfg(test)]
mod tests {
    use super::*;

    #[test]
    fn what_was_found() {
        let said = |bytes: &[u8], offset, why: &str| {
            let text = not_json(bytes, offset);
            assert_eq!(text, format!("not valid JSON: {why}"));
        };
        said(b"\xEF\xBB\xBF{}", 0, "the file begins with a byte order mark (BOM); save it as UTF-8 without one");
        said(b"\xFF\xFE{\0", 0, "the file begins with a byte order mark (BOM) of UTF-16; save it as UTF-8 without one");
        said(b"\x1F\x8B\x08", 0, "the file is compressed (gzip); decompress it first");
        said(b"\n<html>", 1, "the file begins like HTML or XML; an error page may have been saved in place of the feed");
        said(b"[1", 2, "the file ends before its JSON text is complete; it may have been cut off");
        said(b" \n", 2, "the file holds nothing but whitespace");
        said(b"[1,]", 3, "unexpected \"]\"");
        said("[1,é]".as_bytes(), 3, "unexpected \"é\"");
        said(b"[\"\xC3(\"]", 3, "byte 0x28 is not valid UTF-8 here");
        said(b"[\"\xFF\"]", 2, "byte 0xFF is not valid UTF-8 here");
        said(b"[\"a\nb\"]", 3, "control character U+000A, which a string must escape");
    }
}
