//! The lines of a sheet, counted from 1 as an editor counts them.

/// One line, without its ending.
#[derive(Clone, Copy, Debug, PartialEq, Eq)]
pub struct Line<'a> {
    pub number: usize,
    /// The place of its first byte.
    pub start: usize,
    /// The place behind its ending.
    pub end: usize,
    pub text: &'a [u8],
    /// Whether a line feed ends it; only the last line of a file can lack one.
    pub ended: bool,
}

/// All lines. Behind the last line feed there is none.
pub fn split(sheet: &[u8]) -> Vec<Line<'_>> {
    let mut lines = Vec::new();
    let mut start = 0;
    for piece in sheet.split_inclusive(|&byte| byte == b'\n') {
        let (text, ended) = match piece.strip_suffix(b"\n") {
            Some(text) => (text.strip_suffix(b"\r").unwrap_or(text), true),
            None => (piece, false),
        };
        lines.push(Line {
            number: lines.len() + 1,
            start,
            end: start + piece.len(),
            text,
            ended,
        });
        start += piece.len();
    }
    lines
}

/// The line that a byte belongs to; none behind the end.
pub fn at<'l, 'a>(lines: &'l [Line<'a>], place: usize) -> Option<&'l Line<'a>> {
    lines
        .iter()
        .find(|line| (line.start..line.end).contains(&place))
}

/// A line's numbers, if it is digits and commas alone.
pub fn numbers(text: &[u8]) -> Option<Vec<u32>> {
    let text = std::str::from_utf8(text).ok()?;
    let whole = |field: &str| {
        let digits = !field.is_empty() && field.bytes().all(|byte| byte.is_ascii_digit());
        digits.then(|| field.parse().ok()).flatten()
    };
    text.split(',').map(whole).collect()
}

#[cfg(test)]
mod tests {
    use super::*;

    #[test]
    fn both_endings_and_none() {
        let lines = split(b"a\r\n\nbc\r");
        let seen: Vec<_> = lines
            .iter()
            .map(|line| (line.number, line.start, line.text, line.ended))
            .collect();
        let wanted: [(usize, usize, &[u8], bool); 3] = [
            (1, 0, b"a", true),
            (2, 3, b"", true),
            (3, 4, b"bc\r", false),
        ];
        assert_eq!(seen, wanted);
        assert!(split(b"").is_empty());
    }

    #[test]
    fn the_line_of_a_byte() {
        let lines = split(b"ab\n\ncd");
        let number = |place| at(&lines, place).map(|line| line.number);
        let seen: Vec<_> = (0..7).map(number).collect();
        assert_eq!(
            seen,
            [Some(1), Some(1), Some(1), Some(2), Some(3), Some(3), None]
        );
    }

    #[test]
    fn digits_alone_are_numbers() {
        assert_eq!(numbers(b"20,10"), Some(vec![20, 10]));
        for text in [&b"20, 10"[..], b"+2", b"", b"1,,2", b"\xff", b"99999999999"] {
            assert_eq!(numbers(text), None);
        }
    }
}
