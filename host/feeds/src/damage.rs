//! Bytes changed as if by a bad line or a bad writer.

use crate::rng::Rng;
use reference::ceiling;

/// Damages a file that has at least one byte; what is left has at least one.
pub fn damage(bytes: &mut Vec<u8>, rng: &mut Rng) {
    let at = rng.below(bytes.len());
    match rng.below(14) {
        0 | 1 => bytes.truncate(at.max(1)),
        2 | 3 => bytes[at] ^= 1 << rng.below(8),
        4 => bytes[at] = rng.word() as u8,
        5 => bytes[at] = rng.one_of(b"{}[]\",:\\-+.eE0 tfn"),
        6 => insert(bytes, at, &[rng.one_of(b"{}[]\",:\\-+.eE0 tfn")]),
        7 => {
            let end = (at + rng.below(8)).min(bytes.len() - 1);
            bytes.drain(at.min(end)..end);
        }
        8 => insert(bytes, at, rng.one_of(BAD_UTF8)),
        9 => in_text(bytes, at, rng.one_of(BAD_UTF8)),
        10 | 11 => in_text(bytes, at, rng.one_of(SURROGATES)),
        12 => {
            let count = rng.between(8, 20) as usize;
            let brackets = if rng.flip() { b"[".repeat(count) } else { b"{\"a\":".repeat(count) };
            after(bytes, at, b":", &brackets);
        }
        _ => match rng.below(3) {
            0 => insert(bytes, 0, b"\xEF\xBB\xBF"),
            1 => bytes.resize(ceiling::BYTES + rng.below(2), b' '),
            _ => insert(bytes, bytes.len(), rng.one_of(&[&b"\0"[..], b"{}", b",", b"\xC2\xA0"])),
        },
    }
}

/// Ill-formed, overlong, surrogate and cut-off encodings.
const BAD_UTF8: &[&[u8]] = &[
    b"\x80",
    b"\xC0\x80",
    b"\xC1\xBF",
    b"\xC3",
    b"\xE0\x9F\xBF",
    b"\xE2\x82",
    b"\xED\xA0\x80",
    b"\xED\xBF\xBF",
    b"\xF0\x8F\xBF\xBF",
    b"\xF0\x9F\x98",
    b"\xF4\x90\x80\x80",
    b"\xF5\x80\x80\x80",
    b"\xFF",
];

/// Escapes of surrogates, most of them unpaired or broken.
const SURROGATES: &[&[u8]] = &[
    br"\ud800",
    br"\uDFFF",
    br"\ud800\ud800\udc00",
    br"\udbff\udfff",
    br"\udc00\ud800",
    br"\ud83d\u0041",
    br"\ud83d\udE0",
    br"\ud83d\n",
    br"\ud83",
    br"\u12G4",
    br"\x",
];

fn insert(bytes: &mut Vec<u8>, at: usize, more: &[u8]) {
    bytes.splice(at..at, more.iter().copied());
}

/// Inserts after a quote that follows, often the opening one of a string.
fn in_text(bytes: &mut Vec<u8>, at: usize, more: &[u8]) {
    after(bytes, at, b"\"", more);
}

/// Inserts after the next occurrence of a mark, or at the place itself if there is none.
fn after(bytes: &mut Vec<u8>, at: usize, mark: &[u8; 1], more: &[u8]) {
    let next = bytes[at..].iter().position(|byte| [*byte] == *mark);
    insert(bytes, next.map_or(at, |next| at + next + 1), more);
}
