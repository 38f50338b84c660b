//! The lines of the sheet and the numbers between their commas.

use super::feed::Search;

const CARRIAGE_RETURN: u8 = b'\r';
const COMMA: u8 = b',';

/// The line at byte `from`: the end of its text, and the first byte of the next line.
pub fn find_line<S: Search>(sheet: &[u8], from: usize) -> Option<(usize, usize)> {
    let feed = S::find_feed(sheet, from)?;
    if from < feed && sheet[feed - 1] == CARRIAGE_RETURN {
        return Some((feed - 1, feed + 1));
    }
    Some((feed, feed + 1))
}

/// The number that begins at byte `from` and goes up to the next comma or the text's end, and where it ends.
fn number_at(text: &[u8], from: usize) -> Option<(u32, usize)> {
    let mut at = from;
    let mut value = 0;
    while at < text.len() {
        let b = text[at];
        if b == COMMA {
            break;
        }
        if !b.is_ascii_digit() || 9_999 < value {
            return None;
        }
        value = value * 10 + u32::from(b - b'0');
        at += 1;
    }
    if at == from || (1 < at - from && text[from] == b'0') {
        return None;
    }
    Some((value, at))
}

/// The values of a mark line: point and bandwidth, which has no range here. Inlined in both readers, as it is where there is one.
#[inline(always)]
pub fn point_line(text: &[u8]) -> Option<(u16, u32)> {
    let (z, end) = number_at(text, 0)?;
    if end == text.len() {
        return None;
    }
    let (h, last) = number_at(text, end + 1)?;
    if last != text.len() {
        return None;
    }
    Some((u16::try_from(z).ok()?, h))
}

/// The values of a reading line: minute, injection, value. Inlined as well.
#[inline(always)]
pub fn sample_line(text: &[u8]) -> Option<(u16, u16, u16)> {
    let (t, end) = number_at(text, 0)?;
    if end == text.len() {
        return None;
    }
    let (j, second) = number_at(text, end + 1)?;
    if second == text.len() {
        return None;
    }
    let (v, last) = number_at(text, second + 1)?;
    if last != text.len() {
        return None;
    }
    let minute = u16::try_from(t).ok()?;
    let injection = u16::try_from(j).ok()?;
    if injection == 0 {
        return None;
    }
    Some((minute, injection, u16::try_from(v).ok()?))
}
