//! Random lists of samples and of points: their kinds, and those that only the comparison has.

use reference::generators::lists::{Lists, SampleFault, Spread, Width};
use reference::generators::random::Random;

pub const MOST_SAMPLES: usize = reference::MOST_READINGS;
pub const MOST_POINTS: usize = reference::MOST_MARKS;

pub const LISTS: Lists = Lists {
    minutes: &[
        Spread::Any,
        Spread::Below(40),
        Spread::Top(40),
        Spread::Alike,
        Spread::Ends,
        Spread::Days,
        Spread::Close,
    ],
    values: &[
        Spread::Any,
        Spread::Below(10),
        Spread::Top(1),
        Spread::Ends,
        Spread::Below(1000),
    ],
    widths: &[
        Width::Any,
        Width::Ends,
        Width::Preset,
        Width::Small,
        Width::Edge,
        Width::Edge,
        Width::Edge,
        Width::Edge,
    ],
    beside: &[-1, 0, 0, 0, 1],
    bad_widths: &[
        Some(0),
        Some(0),
        Some(0),
        Some(65_537),
        Some(65_537),
        Some(65_538),
        Some(99_999),
        Some(131_072),
        Some(131_073),
        Some(u32::MAX),
        None,
        None,
        None,
        None,
    ],
    sample_faults: &[
        SampleFault::ValueGone,
        SampleFault::MinuteGone,
        SampleFault::ValueMore,
        SampleFault::MinuteMore,
        SampleFault::TooMany,
        SampleFault::Fall,
        SampleFault::Fall,
    ],
};

/// How many samples: mostly few, now and then at the limit or near it.
pub fn sample_count(random: &mut Random) -> usize {
    match random.below(40) {
        0 => MOST_SAMPLES,
        1 => MOST_SAMPLES - 1,
        2 => random.below(MOST_SAMPLES),
        3..=5 => random.below(100),
        6..=8 => 0,
        _ => random.below(13),
    }
}

/// Minutes in any order.
pub fn any_minutes(random: &mut Random, count: usize) -> Vec<u16> {
    let end = random.pick(&[2, 10, 100, 65_536]);
    (0..count).map(|_| random.below(end) as u16).collect()
}

/// Samples, a point and a bandwidth whose quotient is a half or so near to one that a double could
/// not tell it apart. In six turns in a row it is below a half, above one and at one, over an even
/// number and over an odd one.
pub fn near_half(random: &mut Random, turn: usize) -> (Vec<u16>, Vec<u16>, u16, u32) {
    let point = random.below(60_000) as u16;
    let low = (2 * random.between(16_385, 32_767)) as u16 - (turn % 2) as u16;
    let mut samples = Vec::new();
    for _ in 0..random.between(400, 511) {
        let minute = point + random.below(1000) as u16;
        samples.extend([(minute, low), (minute, low + 1)]);
    }
    // Two more, whose weights differ by 1.
    match turn / 2 % 3 {
        0 => samples.extend([(point, low), (point + 1, low + 1)]),
        1 => samples.extend([(point, low + 1), (point + 1, low)]),
        _ => {}
    }
    samples.sort_unstable();
    let (minutes, values) = samples.into_iter().unzip();
    (
        minutes,
        values,
        point,
        random.between(60_000, 65_536) as u32,
    )
}
