//! What the random cases are drawn from: few readings, so that many cases have
//! room.

use reference::exported::RECORD;
use reference::generators::lists::{Lists, SampleFault, Spread, Width};
use reference::generators::random::Random;
use reference::generators::sheets::{
    damage_bytes, damage_lines, ended, fields_of, lines_with, ByteFault, LineFault,
};

pub const LISTS: Lists = Lists {
    minutes: &[
        Spread::Any,
        Spread::Top(40),
        Spread::Ends,
        Spread::Close,
        Spread::Below(60),
        Spread::Below(60),
    ],
    values: &[
        Spread::Any,
        Spread::Ends,
        Spread::Below(10),
        Spread::Below(1000),
    ],
    widths: &[
        Width::Any,
        Width::Ends,
        Width::Preset,
        Width::Small,
        Width::Small,
        Width::Edge,
        Width::Edge,
        Width::Edge,
    ],
    beside: &[0, 0, 1],
    bad_widths: &[
        Some(0),
        Some(0),
        Some(65_537),
        Some(65_538),
        Some(131_072),
        Some(1 << 31),
        Some(u32::MAX),
    ],
    sample_faults: &[
        SampleFault::ValueGone,
        SampleFault::ValueMore,
        SampleFault::MinuteMore,
        SampleFault::Slip,
        SampleFault::Slip,
        SampleFault::Slip,
    ],
};

const LINE_FAULTS: [LineFault; 14] = [
    LineFault::Empty,
    LineFault::Gone,
    LineFault::Elsewhere,
    LineFault::Split,
    LineFault::Longer,
    LineFault::Field,
    LineFault::Field,
    LineFault::Field,
    LineFault::Field,
    LineFault::Field,
    LineFault::Field,
    LineFault::Field,
    LineFault::Field,
    LineFault::Field,
];

const BYTE_FAULTS: [ByteFault; 8] = [
    ByteFault::Bit,
    ByteFault::Usual,
    ByteFault::Gone,
    ByteFault::More,
    ByteFault::ReturnMore,
    ByteFault::Cut,
    ByteFault::LastGone,
    ByteFault::MoreBehind,
];

/// How many readings: mostly few.
pub fn sample_count(random: &mut Random) -> usize {
    match random.below(20) {
        0 => random.below(40),
        1 => 0,
        _ => random.below(9),
    }
}

/// A length that is mostly the one wanted.
pub fn length(random: &mut Random, wanted: usize) -> usize {
    match random.below(40) {
        0 => wanted + 1,
        1 => wanted - 1,
        2 => 0,
        _ => wanted,
    }
}

/// A record of any origin, mostly one that is not foreign to so many readings.
pub fn record(random: &mut Random, readings: usize) -> [u64; RECORD] {
    let right = random.below(readings + 1);
    let left = random.below(right + 1);
    let mut record = [left as u64, right as u64, 0, 0, 0, 0, 0, 0, 0];
    for sum in &mut record[2..RECORD - 1] {
        *sum = match random.below(5) {
            0 => 0,
            1 => random.below(1000) as u64,
            2 | 3 => u64::MAX - random.below(1000) as u64,
            _ => random.number(),
        };
    }
    // The passes are any number, too.
    record[RECORD - 1] = record[2] ^ record[RECORD - 2].rotate_left(7);
    match random.below(30) {
        0 => record[0] = record[1] + 1,
        1 => record[1] = readings as u64 + 1,
        2 => record[1] = u64::MAX,
        3 => record[0] = random.number(),
        _ => {}
    }
    record
}

fn lines(random: &mut Random) -> Vec<Vec<u8>> {
    let count = random.below(8);
    let minutes = LISTS.ordered_minutes(random, count);
    let values = LISTS.some_values(random, count);
    let used = random.between(1, 4) as usize;
    let (points, bandwidths) = LISTS.fit_points(random, &minutes, used);
    let injections: Vec<usize> = minutes
        .iter()
        .map(|_| random.pick(&[1, 2, 3, 3, 3, 4, 10, 12, 20, 65_535]))
        .collect();
    lines_with(&points, &bandwidths, &minutes, &injections, &values)
}

/// The low end of a range: mostly none above the high one.
pub fn low_of(random: &mut Random, high: u16) -> u16 {
    match random.below(30) {
        0..=5 => 0,
        6..=11 => high,
        12..=20 => high.saturating_sub(random.below(3) as u16),
        21..=28 => random.below(usize::from(high) + 1) as u16,
        _ => high.saturating_add(1),
    }
}

/// A sheet: fit, with lines damaged, with bytes damaged too, or hardly a sheet.
pub fn sheet(random: &mut Random) -> Vec<u8> {
    if random.chance(4) {
        let length = random.below(60);
        return (0..length).map(|_| random.number() as u8).collect();
    }
    let lines = lines(random);
    damaged(random, lines)
}

/// The same with ranges, and sometimes with readings of the other kind.
pub fn range_sheet(random: &mut Random) -> Vec<u8> {
    let mut lines = lines(random);
    let names = lines.iter().position(|line| line == b"minute,inj,vdk");
    let names = names.expect("it has this line");
    if !random.chance(5) {
        lines[names] = b"minute,inj,low,high".to_vec();
    }
    for line in &mut lines[names + 1..] {
        let mut fields = fields_of(line);
        let high = String::from_utf8_lossy(&fields[2]).parse().unwrap_or(0);
        if !random.chance(3) {
            fields.insert(2, low_of(random, high).to_string().into_bytes());
        }
        *line = fields.join(&b',');
    }
    damaged(random, lines)
}

fn damaged(random: &mut Random, mut lines: Vec<Vec<u8>>) -> Vec<u8> {
    let style = random.below(10);
    while style >= 4 && random.chance(60) {
        damage_lines(random, &LINE_FAULTS, &mut lines);
    }
    let mut bytes = ended(random, &lines);
    while style >= 8 && random.chance(60) {
        damage_bytes(random, &BYTE_FAULTS, &mut bytes);
    }
    bytes
}
