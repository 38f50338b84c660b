//! Sheets: fit ones, and ones damaged in every way.

use crate::lists::{LISTS, MOST_POINTS, MOST_SAMPLES};
use reference::generators::random::Random;
use reference::generators::sheets::{
    damage_bytes, damage_lines, ended, fields_of, joined, lengthened, lines_of, lines_with,
    sheet_of, with_end, ByteFault, LineFault, ENDS, FIELDS,
};
use reference::MOST_BYTES;

const LINE_FAULTS: [LineFault; 14] = [
    LineFault::Twice,
    LineFault::Gone,
    LineFault::Elsewhere,
    LineFault::Empty,
    LineFault::Joined,
    LineFault::Split,
    LineFault::Longer,
    LineFault::FieldGone,
    LineFault::ValueField,
    LineFault::ValueField,
    LineFault::ValueField,
    LineFault::ValueField,
    LineFault::ValueField,
    LineFault::ValueField,
];

const BYTE_FAULTS: [ByteFault; 10] = [
    ByteFault::Bit,
    ByteFault::Any,
    ByteFault::Usual,
    ByteFault::Gone,
    ByteFault::More,
    ByteFault::Cut,
    ByteFault::LastGone,
    ByteFault::FeedGone,
    ByteFault::ReturnMore,
    ByteFault::MoreBehind,
];

/// A small sheet with a line of each kind, discarded injections among them.
const SMALL: &[u8] =
    b"mark,half\n9,10\n12,13\n65535,65536\n\nminute,inj,vdk\n4,3,7\n8,1,9\n8,2,10\n11,4,65535\n";

/// Every sheet that one damage to a byte makes of this one: each byte gone, replaced, doubled by another
/// or last.
fn byte_damages(sheet: &[u8]) -> Vec<Vec<u8>> {
    let mut sheets = vec![sheet.to_vec()];
    for at in 0..=sheet.len() {
        sheets.push(sheet[..at].to_vec());
        for &byte in b"0159/:,\n\r -x\0\xff" {
            let mut longer = sheet.to_vec();
            longer.insert(at, byte);
            sheets.push(longer);
            if at < sheet.len() {
                let mut other = sheet.to_vec();
                other[at] = byte;
                sheets.push(other);
            }
        }
        if at < sheet.len() {
            let mut shorter = sheet.to_vec();
            shorter.remove(at);
            sheets.push(shorter);
        }
    }
    sheets
}

/// Every sheet that one small damage makes of a small one, a byte of it under both ends of a line, a field
/// or a line; and the small one under every choice of its lines' ends.
pub fn small_damages() -> Vec<Vec<u8>> {
    let mut sheets: Vec<Vec<u8>> = ENDS
        .iter()
        .flat_map(|end| byte_damages(&with_end(SMALL, end)))
        .collect();
    let lines = lines_of(SMALL);
    for line in 0..lines.len() {
        for field in 0..fields_of(&lines[line]).len() {
            for text in FIELDS {
                let mut changed = lines.clone();
                let mut fields = fields_of(&changed[line]);
                fields[field] = text.as_bytes().to_vec();
                changed[line] = fields.join(&b',');
                sheets.push(joined(&changed));
            }
        }
        let mut without = lines.clone();
        without.remove(line);
        sheets.push(joined(&without));
        for other in 0..lines.len() {
            let mut swapped = lines.clone();
            swapped.swap(line, other);
            sheets.push(joined(&swapped));
            let mut doubled = lines.clone();
            doubled.insert(other, lines[line].clone());
            sheets.push(joined(&doubled));
        }
    }
    // Each line with one end or the other, and one carriage return more in one of them.
    for choice in 0..1usize << lines.len() {
        let end = |line: usize| ENDS[choice >> line & 1];
        let mut pieces: Vec<Vec<u8>> = lines
            .iter()
            .enumerate()
            .map(|(k, line)| [line, end(k)].concat())
            .collect();
        sheets.push(pieces.concat());
        let at = choice % lines.len();
        pieces[at] = [&lines[at], &b"\r"[..], end(at)].concat();
        sheets.push(pieces.concat());
    }
    sheets
}

/// A sheet of `points` times one point line and `samples` times one sample line, then more lines.
fn repeated(points: usize, point_more: &str, samples: usize, sample_more: &str) -> Vec<u8> {
    sheet_of(
        &("3,2\n".repeat(points) + point_more),
        &("9,3,4\n".repeat(samples) + sample_more),
    )
}

/// Sheets at each limit, one below and one over, and at a limit with one more fault.
pub fn limits(random: &mut Random) -> Vec<Vec<u8>> {
    let mut sheets = Vec::new();
    for points in [0, 1, MOST_POINTS - 1, MOST_POINTS, MOST_POINTS + 1] {
        for samples in [0, 1, MOST_SAMPLES - 1, MOST_SAMPLES, MOST_SAMPLES + 1] {
            sheets.push(repeated(points, "", samples, ""));
        }
    }
    // One line behind 511 or 512 points, with each set of faults: 3, 5, 9, 10, 6 in this order.
    for points in [MOST_POINTS - 1, MOST_POINTS] {
        for more in [
            "3,02\n",
            "2,02\n",
            "2,0\n",
            "2,2\n",
            "2,3\n",
            "3,0\n",
            "3,65537\n",
            "3,99999\n",
            "3,100000\n",
            "3,1\n",
            "3,3\n",
            "4,1\n",
            "4,3\n",
            "4,4\n",
            "3,2",
            "3\n",
            "4,2\n2,2\n",
            "x\n",
        ] {
            sheets.push(repeated(points, more, 1, ""));
        }
    }
    // One line behind 1,023 or 1,024 samples: 3, 4, 6 in this order; discarded ones count for nothing.
    for samples in [MOST_SAMPLES - 1, MOST_SAMPLES] {
        for more in [
            "9,3,04\n",
            "8,3,04\n",
            "8,3,4\n",
            "8,2,4\n",
            "9,0,4\n",
            "9,2,4\n",
            "10,1,4\n9,3,4\n",
            "10,2,4\n10,3,4\n",
            "9,3,65536\n",
            "65536,3,4\n",
            "9,3,4",
            "\n",
            "9,3,4\n8,3,4\n",
        ] {
            sheets.push(repeated(1, "", samples, more));
        }
    }
    sheets.push(repeated(1, "", 0, &"9,1,4\n9,2,4\n".repeat(MOST_SAMPLES)));
    sheets.push(repeated(1, "", 1, &"9,2,4\n9,3,5\n".repeat(MOST_SAMPLES)));
    // The largest numbers, and the longest outputs.
    for low in [0, 1000, MOST_SAMPLES] {
        let mut lines = vec![b"mark,half".to_vec()];
        lines.resize(1 + MOST_POINTS, b"65535,65536".to_vec());
        lines.push(Vec::new());
        lines.push(b"minute,inj,vdk".to_vec());
        lines.resize(lines.len() + low, b"0,3,65535".to_vec());
        lines.resize(lines.len() + MOST_SAMPLES - low, b"65535,3,65535".to_vec());
        sheets.push(joined(&lines));
        for line in &mut lines[1..=MOST_POINTS] {
            *line = b"65535,65534".to_vec();
        }
        sheets.push(joined(&lines));
    }
    for length in [
        MOST_BYTES - 2,
        MOST_BYTES - 1,
        MOST_BYTES,
        MOST_BYTES + 1,
        MOST_BYTES + 2,
        40_000,
        65_535,
        65_536,
        65_537,
        100_000,
    ] {
        for end in ENDS {
            let sheet = sheet_of_length(random, length, end);
            let mut torn = sheet.clone();
            torn[length - 1] = b'1';
            let mut headless = sheet.clone();
            headless[0] = b'M';
            let mut unended = sheet.clone();
            unended[length - 1] = b'\r';
            sheets.extend([sheet, torn, headless, unended]);
        }
        sheets.extend([b'\n', b'\r', b'7'].map(|byte| vec![byte; length]));
    }
    sheets
}

/// A sheet of exactly `length` bytes, fit but for that: discarded injections, whose lines have this end, make
/// up the length. The lines before them have any ends.
pub fn sheet_of_length(random: &mut Random, length: usize, end: &[u8]) -> Vec<u8> {
    let samples: String = (0..random.below(20))
        .map(|_| format!("7,3,{}\n", random.number() as u16))
        .collect();
    let front = lines_of(&sheet_of("20,10\n30,10\n", &samples));
    lengthened(ended(random, &front), length, end)
}

/// The lines of a random sheet, fit but now and then over a limit or without points.
fn some_lines(random: &mut Random) -> Vec<Vec<u8>> {
    let samples = match random.below(30) {
        0 => random.between(1000, 1100) as usize,
        1 => MOST_SAMPLES,
        2 | 3 => 0,
        _ => random.below(14),
    };
    let used = match random.below(30) {
        0 => MOST_POINTS,
        1 => random.between(500, 520) as usize,
        2 => 0,
        _ => random.between(1, 6) as usize,
    };
    let minutes = LISTS.ordered_minutes(random, samples);
    let values = LISTS.some_values(random, samples);
    let (points, bandwidths) = LISTS.fit_points(random, &minutes, used);
    let style = random.below(3);
    let injections: Vec<usize> = (0..samples)
        .map(|k| match style {
            0 => 3,
            1 => random.pick(&[1, 2, 3, 3, 3, 4, 10, 12, 19, 20, 65_535]),
            _ => k + 1,
        })
        .collect();
    lines_with(&points, &bandwidths, &minutes, &injections, &values)
}

/// A random sheet: fit, with lines damaged, with bytes damaged, or hardly a sheet.
pub fn some_sheet(random: &mut Random) -> Vec<u8> {
    match random.below(60) {
        0 => {
            let length = random.pick(&[32_767, 32_768, 32_768, 32_769, 32_769, 33_000]);
            let end = random.pick(&ENDS);
            return sheet_of_length(random, length, end);
        }
        1 => {
            let length = random.below(60);
            return (0..length).map(|_| random.number() as u8).collect();
        }
        2 => {
            let length = random.below(60);
            return (0..length).map(|_| random.pick(b"0123,\n\n\r")).collect();
        }
        _ => {}
    }
    let mut lines = some_lines(random);
    let style = random.below(10);
    if style >= 3 {
        while random.chance(55) {
            damage_lines(random, &LINE_FAULTS, &mut lines);
        }
    }
    let mut sheet = ended(random, &lines);
    if style >= 7 {
        damage_bytes(random, &BYTE_FAULTS, &mut sheet);
        while random.chance(30) {
            damage_bytes(random, &BYTE_FAULTS, &mut sheet);
        }
    }
    sheet
}
