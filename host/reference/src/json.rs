//! Stage A: bytes into a tree, or the first place where they stop being an acceptable JSON text.
//!
//! The reader goes once from left to right. Every state it can be in has some ending that makes a JSON text, so the byte at which it first
//! has no step to take, or the file's length if it runs out, is the offset of kind 2. An unpaired surrogate escape and a bracket too deep
//! are met before any such byte that lies after them, so the first of the three that is met has the least offset.

use crate::{ceiling, kind};
use std::borrow::Cow;

/// A JSON value. Text without escapes is borrowed from the file.
#[derive(Clone, Debug, PartialEq, Eq)]
pub enum Value<'a> {
    Null,
    Bool(bool),
    /// A number as it is spelled.
    Number(&'a [u8]),
    /// A string with its escapes decoded, as UTF-8 bytes.
    String(Cow<'a, [u8]>),
    Array(Vec<Value<'a>>),
    Object(Object<'a>),
}

/// An object: its members in file order, repeated names included, and where it stands in the file.
#[derive(Clone, Debug, PartialEq, Eq)]
pub struct Object<'a> {
    pub members: Vec<(Cow<'a, [u8]>, Value<'a>)>,
    /// Offset of the opening bracket.
    pub start: usize,
    /// One past the closing bracket.
    pub end: usize,
}

/// Why a file is no text that stage B may judge: kind 1, 2, 3 or 4, and where.
#[derive(Clone, Copy, Debug, PartialEq, Eq)]
pub struct Refusal {
    pub kind: u8,
    pub offset: usize,
}

/// Stage A of one present file.
pub fn parse(bytes: &[u8]) -> Result<Value<'_>, Refusal> {
    if bytes.len() > ceiling::BYTES {
        return Err(Refusal { kind: kind::TOO_LONG, offset: 0 });
    }
    let mut reader = Reader { bytes, at: 0 };
    reader.blanks();
    let value = reader.value(0)?;
    reader.blanks();
    if reader.at < bytes.len() {
        return reader.stuck();
    }
    Ok(value)
}

struct Reader<'a> {
    bytes: &'a [u8],
    at: usize,
}

type Read<T> = Result<T, Refusal>;

impl<'a> Reader<'a> {
    fn peek(&self) -> Option<u8> {
        self.bytes.get(self.at).copied()
    }

    /// No JSON text goes on like this: kind 2 here.
    fn stuck<T>(&self) -> Read<T> {
        Err(Refusal { kind: kind::NOT_JSON, offset: self.at })
    }

    fn expect(&mut self, byte: u8) -> Read<()> {
        if self.peek() != Some(byte) {
            return self.stuck();
        }
        self.at += 1;
        Ok(())
    }

    fn blanks(&mut self) {
        while let Some(b' ' | b'\t' | b'\n' | b'\r') = self.peek() {
            self.at += 1;
        }
    }

    /// A value with `depth` brackets open around it.
    fn value(&mut self, depth: usize) -> Read<Value<'a>> {
        match self.peek() {
            Some(b'{' | b'[') if depth == ceiling::DEPTH => Err(Refusal { kind: kind::TOO_DEEP, offset: self.at }),
            Some(b'{') => self.object(depth + 1).map(Value::Object),
            Some(b'[') => self.array(depth + 1).map(Value::Array),
            Some(b'"') => self.string().map(Value::String),
            Some(b'-' | b'0'..=b'9') => self.number().map(Value::Number),
            Some(b't') => self.literal(b"true", Value::Bool(true)),
            Some(b'f') => self.literal(b"false", Value::Bool(false)),
            Some(b'n') => self.literal(b"null", Value::Null),
            _ => self.stuck(),
        }
    }

    fn literal(&mut self, word: &[u8], value: Value<'a>) -> Read<Value<'a>> {
        for &byte in word {
            self.expect(byte)?;
        }
        Ok(value)
    }

    fn object(&mut self, depth: usize) -> Read<Object<'a>> {
        let start = self.at;
        self.at += 1;
        let mut members = Vec::new();
        self.blanks();
        if self.peek() == Some(b'}') {
            self.at += 1;
            return Ok(Object { members, start, end: self.at });
        }
        loop {
            let name = self.string()?;
            self.blanks();
            self.expect(b':')?;
            self.blanks();
            members.push((name, self.value(depth)?));
            self.blanks();
            match self.peek() {
                Some(b',') => self.at += 1,
                Some(b'}') => {
                    self.at += 1;
                    return Ok(Object { members, start, end: self.at });
                }
                _ => return self.stuck(),
            }
            self.blanks();
        }
    }

    fn array(&mut self, depth: usize) -> Read<Vec<Value<'a>>> {
        self.at += 1;
        let mut items = Vec::new();
        self.blanks();
        if self.peek() == Some(b']') {
            self.at += 1;
            return Ok(items);
        }
        loop {
            items.push(self.value(depth)?);
            self.blanks();
            match self.peek() {
                Some(b',') => self.at += 1,
                Some(b']') => {
                    self.at += 1;
                    return Ok(items);
                }
                _ => return self.stuck(),
            }
            self.blanks();
        }
    }

    fn number(&mut self) -> Read<&'a [u8]> {
        let start = self.at;
        if self.peek() == Some(b'-') {
            self.at += 1;
        }
        if self.peek() == Some(b'0') {
            self.at += 1;
        } else {
            self.digits()?;
        }
        if self.peek() == Some(b'.') {
            self.at += 1;
            self.digits()?;
        }
        if let Some(b'e' | b'E') = self.peek() {
            self.at += 1;
            if let Some(b'+' | b'-') = self.peek() {
                self.at += 1;
            }
            self.digits()?;
        }
        Ok(&self.bytes[start..self.at])
    }

    /// One digit or more.
    fn digits(&mut self) -> Read<()> {
        let Some(b'0'..=b'9') = self.peek() else { return self.stuck() };
        while let Some(b'0'..=b'9') = self.peek() {
            self.at += 1;
        }
        Ok(())
    }

    fn string(&mut self) -> Read<Cow<'a, [u8]>> {
        self.expect(b'"')?;
        let first = self.unescaped()?;
        if self.peek() == Some(b'"') {
            self.at += 1;
            return Ok(Cow::Borrowed(first));
        }
        let mut decoded = first.to_vec();
        while self.peek() == Some(b'\\') {
            self.escape(&mut decoded)?;
            decoded.extend_from_slice(self.unescaped()?);
        }
        self.expect(b'"')?;
        Ok(Cow::Owned(decoded))
    }

    /// The characters up to the next backslash or closing quote.
    fn unescaped(&mut self) -> Read<&'a [u8]> {
        let start = self.at;
        loop {
            match self.peek() {
                Some(b'"' | b'\\') => return Ok(&self.bytes[start..self.at]),
                Some(0x20..=0x7F) => self.at += 1,
                Some(0x80..) => self.multibyte()?,
                Some(..=0x1F) | None => return self.stuck(),
            }
        }
    }

    /// A character of two to four bytes in the shortest encoding, no surrogate, at most U+10FFFF.
    fn multibyte(&mut self) -> Read<()> {
        let (second, others) = match self.bytes[self.at] {
            0xC2..=0xDF => (0x80..=0xBF, 0),
            0xE0 => (0xA0..=0xBF, 1),
            0xED => (0x80..=0x9F, 1),
            0xE1..=0xEF => (0x80..=0xBF, 1),
            0xF0 => (0x90..=0xBF, 2),
            0xF1..=0xF3 => (0x80..=0xBF, 2),
            0xF4 => (0x80..=0x8F, 2),
            _ => return self.stuck(),
        };
        self.at += 1;
        for range in std::iter::once(second).chain(std::iter::repeat_n(0x80..=0xBF, others)) {
            match self.peek() {
                Some(byte) if range.contains(&byte) => self.at += 1,
                _ => return self.stuck(),
            }
        }
        Ok(())
    }

    fn escape(&mut self, decoded: &mut Vec<u8>) -> Read<()> {
        let backslash = self.at;
        self.at += 1;
        let byte = match self.peek() {
            Some(byte @ (b'"' | b'\\' | b'/')) => byte,
            Some(b'b') => 0x08,
            Some(b'f') => 0x0C,
            Some(b'n') => b'\n',
            Some(b'r') => b'\r',
            Some(b't') => b'\t',
            Some(b'u') => {
                self.at += 1;
                let code = self.code_point(backslash)?;
                decoded.extend_from_slice(code.encode_utf8(&mut [0; 4]).as_bytes());
                return Ok(());
            }
            _ => return self.stuck(),
        };
        self.at += 1;
        decoded.push(byte);
        Ok(())
    }

    /// What a `\u` escape, or a pair of them, stands for; the reader is past the first `u`.
    fn code_point(&mut self, backslash: usize) -> Read<char> {
        let unpaired = Refusal { kind: kind::SURROGATE, offset: backslash };
        let mut code = 0;
        for _ in 0..4 {
            let Some(digit) = self.peek().and_then(hex_digit) else { return self.stuck() };
            code = code << 4 | digit;
            self.at += 1;
        }
        if (0xD800..=0xDBFF).contains(&code) {
            let low = self.low_surrogate().ok_or(unpaired)?;
            code = 0x10000 + ((code - 0xD800) << 10) + (low - 0xDC00);
        }
        char::from_u32(code).ok_or(unpaired)
    }

    /// Takes a whole low escape if one follows at once.
    fn low_surrogate(&mut self) -> Option<u32> {
        let digits = self.bytes[self.at..].strip_prefix(b"\\u")?.get(..4)?;
        let code = digits.iter().try_fold(0, |code, &byte| Some(code << 4 | hex_digit(byte)?))?;
        (0xDC00..=0xDFFF).contains(&code).then(|| {
            self.at += 6;
            code
        })
    }
}

fn hex_digit(byte: u8) -> Option<u32> {
    (byte as char).to_digit(16)
}

impl<'a> Object<'a> {
    /// The values of all members of that name.
    pub fn all(&self, name: &'static str) -> impl Iterator<Item = &Value<'a>> {
        self.members.iter().filter(move |(given, _)| given.as_ref() == name.as_bytes()).map(|(_, value)| value)
    }

    /// The first member of that name that counts as given: one that holds "" does not.
    pub fn given(&self, name: &'static str) -> Option<&Value<'a>> {
        self.all(name).next().filter(|value| !value.is_blank())
    }
}

impl<'a> Value<'a> {
    /// Is it the string of no characters?
    pub fn is_blank(&self) -> bool {
        matches!(self, Value::String(text) if text.is_empty())
    }

    pub fn as_object(&self) -> Option<&Object<'a>> {
        match self {
            Value::Object(object) => Some(object),
            _ => None,
        }
    }

    pub fn as_array(&self) -> Option<&[Value<'a>]> {
        match self {
            Value::Array(items) => Some(items),
            _ => None,
        }
    }

    /// The items of an array; none for anything else.
    pub fn items(&self) -> &[Value<'a>] {
        self.as_array().unwrap_or_default()
    }

    pub fn as_text(&self) -> Option<&[u8]> {
        match self {
            Value::String(text) => Some(text),
            _ => None,
        }
    }

    pub fn as_bool(&self) -> Option<bool> {
        match self {
            Value::Bool(flag) => Some(*flag),
            _ => None,
        }
    }

    pub fn as_number(&self) -> Option<&'a [u8]> {
        match self {
            Value::Number(spelling) => Some(spelling),
            _ => None,
        }
    }
}

#[cfg(test)]
mod tests {
    use super::*;

    fn refused(text: &[u8]) -> (u8, usize) {
        let Refusal { kind, offset } = parse(text).expect_err("no refusal");
        (kind, offset)
    }

    #[test]
    fn worked_readings_a_to_e() {
        assert_eq!(refused(b"[1,]"), (2, 3));
        assert_eq!(refused(b"[01]"), (2, 2));
        assert_eq!(refused(br#""\ud800""#), (3, 1));
        assert_eq!(refused(b" "), (2, 1));
        assert_eq!(refused(&[b'['; 17]), (4, 16));
    }

    #[test]
    fn a_cut_off_file_is_blamed_at_its_length() {
        let whole = br#" {"a":[-0.5e+1,true,null,"\u00e9\ud83d\ude00 \n"],"b":{}}"#;
        assert!(parse(whole).is_ok());
        for length in 1..whole.len() {
            let (kind, offset) = refused(&whole[..length]);
            let high = whole.windows(6).position(|six| six == br"\ud83d").unwrap();
            let expected = if (high + 6..high + 12).contains(&length) { (3, high) } else { (2, length) };
            assert_eq!((kind, offset), expected, "cut to {length}");
        }
    }

    #[test]
    fn surrogates_pair_from_left_to_right() {
        assert_eq!(refused(br#""\udc00""#), (3, 1));
        assert_eq!(refused(br#""\ud800\ud800\udc00""#), (3, 1));
        assert_eq!(refused(br#""\ud800\udc00\udc00""#), (3, 13));
        assert_eq!(refused(br#""\ud800\udc0""#), (3, 1));
        assert_eq!(refused(br#""\ud80"#), (2, 6));
        assert_eq!(refused(br#""\ud80x"#), (2, 6));
        assert_eq!(parse(br#""\ud83d\uDE00""#), Ok(Value::String("😀".as_bytes().into())));
    }

    #[test]
    fn utf8_is_refused_at_the_byte_that_breaks_it() {
        assert_eq!(refused(b"\xEF\xBB\xBF1"), (2, 0));
        assert_eq!(refused(b"\"\xC0\x80\""), (2, 1));
        assert_eq!(refused(b"\"\xE0\x9F\xBF\""), (2, 2));
        assert_eq!(refused(b"\"\xED\xA0\x80\""), (2, 2));
        assert_eq!(refused(b"\"\xF4\x90\x80\x80\""), (2, 2));
        assert_eq!(refused(b"\"\xF0\x9F\x98\""), (2, 4));
        assert_eq!(refused(b"\"\x1F\""), (2, 1));
        assert!(parse("\"\u{FEFF}\u{7F}\u{10FFFF}\"".as_bytes()).is_ok());
    }

    #[test]
    fn numbers_and_words_stop_where_they_must() {
        for (text, offset) in
            [("-", 1), ("-x", 1), ("1.", 2), ("1.e", 2), ("1e+", 3), ("+1", 0), (".5", 0), ("trve", 2), ("nul", 3), ("1 2", 2)]
        {
            assert_eq!(refused(text.as_bytes()), (2, offset), "{text}");
        }
        for (text, offset) in [("{,", 1), ("{\"a\" 1", 5), ("{\"a\":1,}", 7), ("[1 2]", 3), ("\"\\x\"", 2), ("]", 0)] {
            assert_eq!(refused(text.as_bytes()), (2, offset), "{text}");
        }
    }

    #[test]
    fn depth_and_length_at_their_ceilings() {
        let nested = |depth: usize| [vec![b'['; depth], vec![b']'; depth]].concat();
        assert!(parse(&nested(16)).is_ok());
        assert_eq!(refused(&nested(17)), (4, 16));
        let mut long = vec![b' '; ceiling::BYTES - 1];
        long.push(b'1');
        assert!(parse(&long).is_ok());
        long.push(b' ');
        assert_eq!(refused(&long), (1, 0));
    }
}
