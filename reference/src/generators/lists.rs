//! Random lists of readings and of marks.

use super::random::Random;
use crate::KNOB;

/// How the numbers of a list lie.
#[derive(Clone, Copy)]
pub enum Spread {
    /// Anywhere.
    Any,
    /// Below a number.
    Below(usize),
    /// Among the greatest so many.
    Top(usize),
    /// At both ends of the range.
    Ends,
    /// All alike.
    Alike,
    /// Close together, somewhere.
    Close,
    /// Once a day, then several in an afternoon.
    Days,
}

/// How a half width is found.
#[derive(Clone, Copy)]
pub enum Width {
    Any,
    /// At both ends of the range.
    Ends,
    Preset,
    Small,
    /// With an edge on a reading or beside one.
    Edge,
}

/// What makes readings unfit.
#[derive(Clone, Copy)]
pub enum SampleFault {
    ValueGone,
    MinuteGone,
    ValueMore,
    MinuteMore,
    TooMany,
    /// A minute below the one before.
    Fall,
    /// The same, but that a minute 0 is raised and the next one left.
    Slip,
}

/// The kinds of lists that are drawn.
pub struct Lists {
    pub minutes: &'static [Spread],
    pub values: &'static [Spread],
    pub widths: &'static [Width],
    /// How far beside a reading an edge lies.
    pub beside: &'static [i64],
    /// Half widths out of range; none stands for any over it.
    pub bad_widths: &'static [Option<u32>],
    pub sample_faults: &'static [SampleFault],
}

fn numbers(random: &mut Random, spread: Spread, start: usize, count: usize) -> Vec<u16> {
    let mut clock = match spread {
        Spread::Alike => random.below(65_536),
        Spread::Days => random.below(2000),
        _ => start,
    };
    let number = |_| match spread {
        Spread::Any => random.number() as u16,
        Spread::Below(end) => random.below(end) as u16,
        Spread::Top(end) => 65_535 - random.below(end) as u16,
        Spread::Ends => random.pick(&[0, 1, 65_534, 65_535]),
        Spread::Alike => clock as u16,
        Spread::Close => (start + random.below(300)) as u16,
        Spread::Days => {
            clock += if random.chance(30) {
                1440
            } else {
                random.below(60)
            };
            clock.min(65_535) as u16
        }
    };
    (0..count).map(number).collect()
}

/// Makes one number of the list fall below the one before, if the list has two.
pub fn fall(random: &mut Random, list: &mut [u16]) {
    if list.len() < 2 {
        return;
    }
    let at = match random.below(4) {
        0 => 1,
        1 => list.len() - 1,
        _ => 1 + random.below(list.len() - 1),
    };
    if list[at - 1] == 0 {
        list[at - 1] = random.pick(&[1, 65_535]);
    }
    let back = random.pick(&[1, 1, 30]);
    list[at] = list[at].min(list[at - 1].saturating_sub(back));
}

fn slip(random: &mut Random, list: &mut [u16]) {
    if list.len() < 2 {
        return;
    }
    let at = random.below(list.len() - 1);
    if list[at] == 0 {
        list[at] = random.pick(&[1, 65_535]);
    } else {
        list[at + 1] = list[at].saturating_sub(random.pick(&[1, 1, 30]));
    }
}

/// The values in other places, each still at a reading of its minute.
pub fn rearranged(random: &mut Random, minutes: &[u16], values: &[u16]) -> Vec<u16> {
    let mut moved = values.to_vec();
    for i in 0..moved.len().min(minutes.len()) {
        let alike: Vec<usize> = (0..=i).filter(|&j| minutes[j] == minutes[i]).collect();
        moved.swap(i, random.pick(&alike));
    }
    moved
}

/// A mark, mostly near one of the readings.
pub fn some_point(random: &mut Random, minutes: &[u16]) -> u16 {
    match random.below(8) {
        0 => random.number() as u16,
        1 => random.pick(&[0, 1, 65_534, 65_535]),
        _ if minutes.is_empty() => random.below(200) as u16,
        _ => {
            let near = i64::from(random.pick(minutes)) + random.between(-60, 60);
            near.clamp(0, 65_535) as u16
        }
    }
}

impl Lists {
    /// Minutes that never fall.
    pub fn ordered_minutes(&self, random: &mut Random, count: usize) -> Vec<u16> {
        let spread = random.pick(self.minutes);
        let start = random.below(65_000);
        let mut minutes = numbers(random, spread, start, count);
        minutes.sort_unstable();
        minutes
    }

    pub fn some_values(&self, random: &mut Random, count: usize) -> Vec<u16> {
        let spread = random.pick(self.values);
        numbers(random, spread, 0, count)
    }

    /// A half width in range.
    pub fn some_bandwidth(&self, random: &mut Random, minutes: &[u16], point: u16) -> u32 {
        match random.pick(self.widths) {
            Width::Any => random.between(1, 65_536) as u32,
            Width::Ends => random.pick(&[1, 2, 65_535, 65_536]),
            Width::Preset => random.pick(&KNOB),
            Width::Small => random.between(1, 40) as u32,
            Width::Edge if minutes.is_empty() => random.between(1, 300) as u32,
            Width::Edge => {
                let distance = i64::from(random.pick(minutes).abs_diff(point));
                (distance + random.pick(self.beside)).max(1) as u32
            }
        }
    }

    /// A half width out of range.
    pub fn bad_bandwidth(&self, random: &mut Random) -> u32 {
        random
            .pick(self.bad_widths)
            .unwrap_or_else(|| random.between(65_537, u32::MAX.into()) as u32)
    }

    /// Marks with half widths of which no edge falls.
    pub fn fit_points(
        &self,
        random: &mut Random,
        minutes: &[u16],
        count: usize,
    ) -> (Vec<u16>, Vec<u32>) {
        let mut points = Vec::new();
        let mut bandwidths = Vec::new();
        let mut point = if random.chance(40) {
            i64::from(some_point(random, minutes))
        } else {
            let first = minutes.first().map_or(0, |&minute| i64::from(minute));
            (first + random.between(-40, 5)).clamp(0, 65_535)
        };
        let mut bandwidth = i64::from(self.some_bandwidth(random, minutes, point as u16));
        let stride = random.pick(&[0, 1, 5, 30, 700, 20_000]);
        for _ in 0..count {
            points.push(point as u16);
            bandwidths.push(bandwidth as u32);
            let next = (point + random.between(0, stride)).min(65_535);
            let by = next - point;
            let change = match random.below(4) {
                0 => -by,
                1 => by,
                2 => 0,
                _ => random.between(-by, by),
            };
            bandwidth = (bandwidth + change).clamp(1, 65_536);
            point = next;
        }
        (points, bandwidths)
    }

    /// Makes readings unfit in one way.
    pub fn damage_samples(
        &self,
        random: &mut Random,
        minutes: &mut Vec<u16>,
        values: &mut Vec<u16>,
    ) {
        match random.pick(self.sample_faults) {
            SampleFault::ValueGone => {
                values.pop();
            }
            SampleFault::MinuteGone => {
                minutes.pop();
            }
            SampleFault::ValueMore => values.push(7),
            SampleFault::MinuteMore => minutes.push(65_535),
            SampleFault::TooMany => {
                let length = random.pick(&[1025, 1025, 1026, 1100, 2048]);
                let last = minutes.last().copied().unwrap_or(9);
                minutes.resize(length, last);
                values.resize(length, 5);
            }
            SampleFault::Fall => fall(random, minutes),
            SampleFault::Slip => slip(random, minutes),
        }
    }
}
