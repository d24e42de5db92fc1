//! Offsets as an editor shows them.

/// A line and a column, both from 1; columns count characters.
#[derive(Clone, Copy, Debug, PartialEq, Eq)]
pub struct Position {
    pub line: usize,
    pub column: usize,
}

/// Where an offset stands in a file; past its end, where the file ends.
pub fn position(bytes: &[u8], offset: usize) -> Position {
    let before = &bytes[..offset.min(bytes.len())];
    let line_start = before.iter().rposition(|&byte| byte == b'\n').map_or(0, |newline| newline + 1);
    let is_first_byte = |byte: &&u8| **byte & 0xC0 != 0x80;
    Position {
        line: 1 + before.iter().filter(|&&byte| byte == b'\n').count(),
        column: 1 + before[line_start..].iter().filter(is_first_byte).count(),
    }
}

#[cfg(test)]
mod tests {
    use super::*;

    #[test]
    fn lines_and_columns() {
        let text = "é{\r\n\n  😀\"".as_bytes();
        for (offset, line, column) in
            [(0, 1, 1), (2, 1, 2), (4, 1, 4), (5, 2, 1), (6, 3, 1), (8, 3, 3), (12, 3, 4), (13, 3, 5), (99, 3, 5)]
        {
            assert_eq!(position(text, offset), Position { line, column }, "offset {offset}");
        }
    }
}
