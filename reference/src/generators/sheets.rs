//! Sheets, and damages to their lines and bytes.

use super::random::Random;
use crate::{MOST_MARKS, MOST_READINGS};

/// What makes a sheet's lines unfit.
#[derive(Clone, Copy)]
pub enum LineFault {
    Twice,
    Gone,
    Elsewhere,
    /// An empty line.
    Empty,
    /// Two lines run together.
    Joined,
    Split,
    /// A field more, or a byte.
    Longer,
    FieldGone,
    /// A field of any line changed, mostly to another number.
    Field,
    /// A field changed, mostly of a line of values, about the first line too
    /// many where there is one.
    ValueField,
}

/// What makes a sheet's bytes unfit.
#[derive(Clone, Copy)]
pub enum ByteFault {
    /// One bit turned.
    Bit,
    /// Another byte.
    Any,
    /// Another byte, of those that a sheet has.
    Usual,
    Gone,
    More,
    /// The sheet ends there.
    Cut,
    LastGone,
    /// A line feed gone.
    FeedGone,
    /// A carriage return more, before a line feed.
    ReturnMore,
    MoreBehind,
}

/// Fields at, about and over each limit, and wrong ones.
pub const FIELDS: [&str; 33] = [
    "",
    "0",
    "00",
    "1",
    "01",
    "2",
    "3",
    "9",
    "10",
    "65534",
    "65535",
    "65536",
    "65537",
    "99999",
    "100000",
    "065535",
    "000000",
    "655350",
    "131071",
    "4294967295",
    "4294967297",
    "18446744073709551617",
    "-1",
    "+1",
    "1.0",
    "1e3",
    " 1",
    "1 ",
    "\t1",
    "0x1",
    "/",
    ":",
    "x",
];

/// A few of these.
const FEW_FIELDS: [&str; 11] = [
    "0", "00", "1", "2", "3", "65535", "65536", "65537", "99999", "100000", "-1",
];

/// A sheet of these lines of marks and of readings.
pub fn sheet_of(marks: &str, readings: &str) -> Vec<u8> {
    format!("mark,half\n{marks}\nminute,inj,vdk\n{readings}").into_bytes()
}

/// Both ends of a line.
pub const ENDS: [&[u8]; 2] = [b"\n", b"\r\n"];

/// The line feed, and bytes that a search of whole words may take for one: the
/// next byte, each of the two with its high bit, and all bits. The carriage
/// return, which belongs to a line feed behind it.
const FEED_LIKE: [u8; 6] = [0x0a, 0x0b, 0x8a, 0x8b, 0xff, 0x0d];

/// Lines of up to this many bytes have their feed at each offset: the longest
/// line of a sheet.
const LONGEST_LINE: usize = 17;

/// So many fields of ones, with their commas so many bytes in all where that is
/// enough, and else as many bytes of the shortest such line.
fn line_text(fields: usize, length: usize) -> Vec<u8> {
    let digits = length.saturating_sub(fields - 1).max(fields);
    let texts: Vec<String> = (0..fields)
        .map(|field| "1".repeat((digits + field) / fields))
        .collect();
    let mut text = texts.join(",").into_bytes();
    text.truncate(length);
    text
}

/// Sheets with line feeds, and bytes that are nearly one or belong to one, at
/// each offset up to 17 from a line's start and from the sheet's end; and of each
/// length up to 17.
pub fn feed_sheets() -> Vec<Vec<u8>> {
    let header = b"mark,half\n";
    let begin = b"mark,half\n2,1\n\nminute,inj,vdk\n";
    let more = b"65535,3,9\n";
    let mut sheets = Vec::new();
    for length in 0..=LONGEST_LINE {
        let point = line_text(2, length);
        let sample = line_text(3, length);
        for byte in FEED_LIKE {
            let byte = [byte];
            // Behind the feed, before it, and in its place.
            for (front, line) in [(&header[..], &point), (&begin[..], &sample)] {
                sheets.push([front, line, b"\n", &byte, more].concat());
                sheets.push([front, line, &byte, b"\n", more].concat());
                sheets.push([front, line, &byte, more].concat());
            }
            // Behind the last feed, and without it.
            let behind = byte.repeat(length);
            sheets.push([begin, &more[..], &behind].concat());
            sheets.push([begin, &more[..more.len() - 1], &behind].concat());
            sheets.push([begin, &more[..], &sample, &byte].concat());
            // As a whole sheet, and within one.
            sheets.push(behind);
            let mut short = b"mark,half\n1,1\n1,1\n"[..length].to_vec();
            if let Some(feed) = short.get_mut(9) {
                *feed = byte[0];
            }
            sheets.push(short);
        }
    }
    sheets
}

/// The sheet with lines that are not kept behind it, which have this end, so
/// many bytes in all.
pub fn lengthened(mut sheet: Vec<u8>, length: usize, end: &[u8]) -> Vec<u8> {
    while length - sheet.len() > 20 {
        sheet.extend(b"9,1,0");
        sheet.extend(end);
    }
    // 14 to 20 bytes are left: two lines of 7 to 10 bytes each.
    let left = length - sheet.len();
    for size in [left / 2, left - left / 2] {
        sheet.extend(b"9,2,");
        sheet.resize(sheet.len() + size - 4 - end.len(), b'1');
        sheet.extend(end);
    }
    assert_eq!(sheet.len(), length);
    sheet
}

/// The lines of a sheet with these marks and readings, without line feeds.
pub fn lines_with(
    points: &[u16],
    bandwidths: &[u32],
    minutes: &[u16],
    injections: &[usize],
    values: &[u16],
) -> Vec<Vec<u8>> {
    let mut lines = vec![b"mark,half".to_vec()];
    for (point, bandwidth) in points.iter().zip(bandwidths) {
        lines.push(format!("{point},{bandwidth}").into_bytes());
    }
    lines.extend([Vec::new(), b"minute,inj,vdk".to_vec()]);
    for ((minute, injection), value) in minutes.iter().zip(injections).zip(values) {
        lines.push(format!("{minute},{injection},{value}").into_bytes());
    }
    lines
}

/// A sheet's lines without their line feeds.
pub fn lines_of(sheet: &[u8]) -> Vec<Vec<u8>> {
    let mut lines: Vec<Vec<u8>> = sheet
        .split(|&byte| byte == b'\n')
        .map(<[u8]>::to_vec)
        .collect();
    lines.pop();
    lines
}

pub fn fields_of(line: &[u8]) -> Vec<Vec<u8>> {
    line.split(|&byte| byte == b',')
        .map(<[u8]>::to_vec)
        .collect()
}

/// Lines with a line feed behind each.
pub fn joined(lines: &[Vec<u8>]) -> Vec<u8> {
    let mut sheet = lines.join(&b'\n');
    sheet.push(b'\n');
    sheet
}

/// Lines with an end behind each: the one or the other, and in every third
/// sheet each line its own.
pub fn ended(random: &mut Random, lines: &[Vec<u8>]) -> Vec<u8> {
    let style = random.below(3);
    let mut sheet = Vec::new();
    for line in lines {
        sheet.extend(line);
        sheet.extend(match style {
            0 => ENDS[0],
            1 => ENDS[1],
            _ => random.pick(&ENDS),
        });
    }
    sheet
}

/// The sheet with this end in every line. None of its line feeds has a
/// carriage return before it.
pub fn with_end(sheet: &[u8], end: &[u8]) -> Vec<u8> {
    let mut bytes = Vec::new();
    for line in lines_of(sheet) {
        bytes.extend(line);
        bytes.extend(end);
    }
    bytes
}

/// The number of a field, or 0.
fn number(field: &[u8]) -> i64 {
    String::from_utf8_lossy(field).parse().unwrap_or(0)
}

/// A number moved a little: minutes and marks out of order, edges that fall,
/// other injections.
fn moved(random: &mut Random, field: &[u8]) -> Vec<u8> {
    let by = random.pick(&[-30, -3, -2, -1, 1, 2, 3, 30]);
    (number(field) + by).max(0).to_string().into_bytes()
}

fn with_zero(field: &[u8]) -> Vec<u8> {
    [b"0", field].concat()
}

fn damage_field(random: &mut Random, line: &mut Vec<u8>) {
    let mut fields = fields_of(line);
    let which = random.below(fields.len());
    fields[which] = match random.below(8) {
        0 => with_zero(&fields[which]),
        1 => Vec::new(),
        2 | 3 => random.pick(&FEW_FIELDS).as_bytes().to_vec(),
        _ => moved(random, &fields[which]),
    };
    *line = fields.join(&b',');
}

fn damage_value_field(random: &mut Random, lines: &mut [Vec<u8>]) {
    let numbered: Vec<usize> = (0..lines.len())
        .filter(|&i| lines[i].first().is_some_and(u8::is_ascii_digit))
        .collect();
    let at = if numbered.is_empty() || random.chance(5) {
        random.below(lines.len())
    } else if numbered.len() > 500 && random.chance(50) {
        let header = lines.iter().position(|line| line == b"minute,inj,vdk");
        let limit = random.pick(&[MOST_MARKS, header.unwrap_or(0) + MOST_READINGS]);
        (limit + random.below(3)).min(lines.len() - 1)
    } else {
        random.pick(&numbered)
    };
    let before = number(&fields_of(&lines[at.saturating_sub(1)])[0]);
    let mut fields = fields_of(&lines[at]);
    let which = random.below(fields.len());
    let shape = (fields.len(), which);
    fields[which] = match random.below(12) {
        0 => random.pick(&FIELDS).as_bytes().to_vec(),
        1 => with_zero(&fields[which]),
        2..=5 => moved(random, &fields[which]),
        _ if which == 0 => (before - 1).max(0).to_string().into_bytes(),
        _ if shape == (2, 1) => random
            .pick(&["0", "65536", "65537", "99999"])
            .as_bytes()
            .to_vec(),
        _ if shape == (3, 1) => random.pick(&["0", "1", "2", "3"]).as_bytes().to_vec(),
        _ => random.pick(&["0", "65535", "65536"]).as_bytes().to_vec(),
    };
    lines[at] = fields.join(&b',');
}

/// One damage to a sheet's lines, of which there is one at least. What needs
/// two lines and has one changes a field.
pub fn damage_lines(random: &mut Random, faults: &[LineFault], lines: &mut Vec<Vec<u8>>) {
    let at = random.below(lines.len());
    match random.pick(faults) {
        LineFault::Twice => lines.insert(at, lines[at].clone()),
        LineFault::Gone if lines.len() > 1 => {
            lines.remove(at);
        }
        LineFault::Elsewhere => {
            let other = random.below(lines.len());
            lines.swap(at, other);
        }
        LineFault::Empty => lines.insert(at, Vec::new()),
        LineFault::Joined if at + 1 < lines.len() => {
            let next = lines.remove(at + 1);
            lines[at].extend(next);
        }
        LineFault::Split => {
            let cut = random.below(lines[at].len() + 1);
            let tail = lines[at].split_off(cut);
            lines.insert(at + 1, tail);
        }
        LineFault::Longer => {
            lines[at].extend(random.pick(&[&b",3"[..], b",", b" ", b"\r", b"\r\r", b",0,0"]));
        }
        LineFault::FieldGone => {
            let mut fields = fields_of(&lines[at]);
            fields.remove(random.below(fields.len()));
            lines[at] = fields.join(&b',');
        }
        LineFault::ValueField => damage_value_field(random, lines),
        LineFault::Field | LineFault::Gone | LineFault::Joined => {
            damage_field(random, &mut lines[at]);
        }
    }
}

/// Where the line feeds of a sheet stand.
fn feeds_of(sheet: &[u8]) -> Vec<usize> {
    (0..sheet.len()).filter(|&i| sheet[i] == b'\n').collect()
}

/// One damage to a sheet's bytes.
pub fn damage_bytes(random: &mut Random, faults: &[ByteFault], sheet: &mut Vec<u8>) {
    let usual = b"0123456789,\n\r -";
    let at = random.below(sheet.len());
    let fault = random.pick(faults);
    if sheet.is_empty() {
        sheet.push(random.number() as u8);
        return;
    }
    match fault {
        ByteFault::Bit => sheet[at] ^= 1 << random.below(8),
        ByteFault::Any => sheet[at] = random.number() as u8,
        ByteFault::Usual => sheet[at] = random.pick(usual),
        ByteFault::Gone => {
            sheet.remove(at);
        }
        ByteFault::More => sheet.insert(at, random.pick(usual)),
        ByteFault::Cut => sheet.truncate(at),
        ByteFault::LastGone => {
            sheet.pop();
        }
        ByteFault::FeedGone => {
            let feeds = feeds_of(sheet);
            if !feeds.is_empty() {
                sheet.remove(random.pick(&feeds));
            }
        }
        ByteFault::ReturnMore => {
            let feeds = feeds_of(sheet);
            if !feeds.is_empty() {
                sheet.insert(random.pick(&feeds), b'\r');
            }
        }
        ByteFault::MoreBehind => {
            sheet.extend(random.pick(&[
                &b"\n"[..],
                b"\n\n",
                b"\r",
                b"\r\n",
                b"9",
                b"65535,3,9",
                b"65535,3,9\n",
                b"65535,3,9\r\n",
            ]));
        }
    }
}
