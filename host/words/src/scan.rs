//! Values of a JSON text by their place in its bytes. Bytes that are not JSON give no or odd places, and do no harm.

/// Where the values of an object's members of that name begin, if there is an object.
pub fn members<'a>(bytes: &'a [u8], object: usize, name: &'a str) -> impl Iterator<Item = usize> + 'a {
    let mut next_at = open(bytes, object, b'{');
    std::iter::from_fn(move || loop {
        let (found, after) = string(bytes, next_at?)?;
        let value = blanks(bytes, blanks(bytes, after) + 1);
        next_at = next(bytes, value);
        if found == name {
            return Some(value);
        }
    })
}

/// Where the value of the first of them begins.
pub fn member(bytes: &[u8], object: usize, name: &str) -> Option<usize> {
    members(bytes, object, name).next()
}

/// Where the items of an array begin, if there is an array.
pub fn items(bytes: &[u8], array: usize) -> impl Iterator<Item = usize> + '_ {
    let first = open(bytes, array, b'[').filter(|&at| bytes.get(at) != Some(&b']'));
    std::iter::successors(first, |&at| next(bytes, at))
}

/// The first place inside of a bracket of that sort.
fn open(bytes: &[u8], at: usize, bracket: u8) -> Option<usize> {
    let at = blanks(bytes, at);
    (bytes.get(at) == Some(&bracket)).then(|| blanks(bytes, at + 1))
}

/// The place behind the comma that follows a value, if one does.
fn next(bytes: &[u8], value: usize) -> Option<usize> {
    let at = blanks(bytes, skip(bytes, value)?);
    (bytes.get(at) == Some(&b',')).then(|| blanks(bytes, at + 1))
}

/// The place behind a value.
pub fn skip(bytes: &[u8], value: usize) -> Option<usize> {
    let mut at = value;
    let mut depth = 0;
    loop {
        match bytes.get(at)? {
            b'"' => at = quoted(bytes, at)?.1,
            b'{' | b'[' => {
                depth += 1;
                at += 1;
            }
            b'}' | b']' => {
                depth -= 1;
                at += 1;
            }
            _ if depth > 0 => {
                at += 1;
                continue;
            }
            _ => at += bytes[at..].iter().take_while(|byte| !b",]} \t\n\r".contains(byte)).count().max(1),
        }
        if depth <= 0 {
            return Some(at);
        }
    }
}

pub fn blanks(bytes: &[u8], from: usize) -> usize {
    let rest = bytes.get(from..).unwrap_or_default();
    from + rest.iter().take_while(|byte| b" \t\n\r".contains(byte)).count()
}

/// What stands between the quotation marks at a place, and the place behind them.
fn quoted(bytes: &[u8], at: usize) -> Option<(&[u8], usize)> {
    let inner = bytes.get(at..)?.strip_prefix(b"\"")?;
    let mut length = 0;
    loop {
        match inner.get(length)? {
            b'"' => return Some((&inner[..length], at + length + 2)),
            b'\\' => length += 2,
            _ => length += 1,
        }
    }
}

/// The string at a place with its escapes decoded, and the place behind it.
pub fn string(bytes: &[u8], at: usize) -> Option<(String, usize)> {
    let (inner, after) = quoted(bytes, at)?;
    let text = String::from_utf8_lossy(inner);
    let mut units = Vec::new();
    let mut characters = text.chars();
    while let Some(character) = characters.next() {
        if character != '\\' {
            units.extend(character.encode_utf16(&mut [0; 2]).iter());
            continue;
        }
        units.push(match characters.next()? {
            'b' => 0x08,
            'f' => 0x0C,
            'n' => 0x0A,
            'r' => 0x0D,
            't' => 0x09,
            'u' => {
                let digits = characters.as_str().get(..4)?;
                characters = characters.as_str()[4..].chars();
                u16::from_str_radix(digits, 16).ok()?
            }
            other => other as u16,
        });
    }
    Some((String::from_utf16_lossy(&units), after))
}
