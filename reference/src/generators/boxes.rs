//! Random readings with temperatures, and marks of both directions.

use super::random::Random;
use crate::boxes::{CELLS, MOST_BOX_MARKS, MOST_MINUTE_HALF, MOST_TEMPERATURE_HALF};
use crate::MOST_READINGS;

/// What a call is lent: the readings, the marks of both directions with their half widths, and the lengths of
/// the three lists to write.
#[derive(Clone, Debug)]
pub struct Question {
    pub minutes: Vec<u16>,
    pub temperatures: Vec<u8>,
    pub values: Vec<u16>,
    pub minute_marks: Vec<u16>,
    pub minute_halves: Vec<u32>,
    pub temperature_marks: Vec<u8>,
    pub temperature_halves: Vec<u32>,
    pub boxes: usize,
    pub counts: usize,
    pub sums: usize,
}

/// A place along a direction that ends at `last`: any, one of few, near either end, or at one of these places or
/// beside it.
fn place(random: &mut Random, last: i64, near: &[i64]) -> i64 {
    let any = match random.below(6) {
        0 => random.between(0, last),
        1 => random.between(0, 3),
        2 => random.between(last - 3, last),
        3 => random.between(20, 60),
        _ if near.is_empty() => random.between(0, 9),
        _ => random.pick(near) + random.between(-1, 1),
    };
    any.clamp(0, last)
}

/// So many marks of a direction, in order, with half widths: any, small, great, or to an edge of another mark.
fn marks(random: &mut Random, count: usize, last: i64, most: i64) -> Vec<(i64, i64)> {
    let alike = random.chance(15);
    let mut marks: Vec<i64> = (0..count).map(|_| place(random, last, &[])).collect();
    if alike {
        let first = marks.first().copied().unwrap_or(0);
        marks.fill(first);
    }
    marks.sort_unstable();
    let mut pairs: Vec<(i64, i64)> = Vec::new();
    for mark in marks {
        let half = match random.below(6) {
            0 => random.between(1, most),
            1 => random.between(most - 2, most),
            2 | 3 => random.between(1, 9),
            _ => match pairs.last() {
                Some((before, wide)) => mark - (before + wide) - random.between(0, 1),
                None => random.between(1, 40),
            },
        };
        pairs.push((mark, half.abs().clamp(1, most)));
    }
    pairs
}

/// How many marks of a direction: mostly few, now and then as many as there may be.
fn mark_count(random: &mut Random, full: usize) -> usize {
    match random.below(full) {
        0 => MOST_BOX_MARKS,
        1 => random.between(17, 31) as usize,
        _ => random.between(1, 6) as usize,
    }
}

impl Question {
    /// The lengths that belong to the marks.
    #[must_use]
    pub fn fit(mut self) -> Question {
        self.boxes = 2 * self.minute_marks.len() * self.temperature_marks.len();
        (self.counts, self.sums) = (CELLS, CELLS);
        self
    }

    /// So many readings in any order, many of them at an edge of a mark; one in `full` directions has as many
    /// marks as there may be.
    pub fn drawn(random: &mut Random, readings: usize, full: usize) -> Question {
        let minutes_count = mark_count(random, full);
        let temperatures_count = mark_count(random, full);
        let along_minutes = marks(random, minutes_count, 65_535, MOST_MINUTE_HALF.into());
        let along_temperatures = marks(
            random,
            temperatures_count,
            255,
            MOST_TEMPERATURE_HALF.into(),
        );
        let edges = |pairs: &[(i64, i64)]| -> Vec<i64> {
            let both = pairs
                .iter()
                .flat_map(|(mark, half)| [mark - half, mark + half]);
            both.collect()
        };
        let (minute_edges, temperature_edges) = (edges(&along_minutes), edges(&along_temperatures));
        let mut question = Question {
            minutes: Vec::new(),
            temperatures: Vec::new(),
            values: Vec::new(),
            minute_marks: along_minutes.iter().map(|pair| pair.0 as u16).collect(),
            minute_halves: along_minutes.iter().map(|pair| pair.1 as u32).collect(),
            temperature_marks: along_temperatures.iter().map(|pair| pair.0 as u8).collect(),
            temperature_halves: along_temperatures
                .iter()
                .map(|pair| pair.1 as u32)
                .collect(),
            boxes: 0,
            counts: 0,
            sums: 0,
        };
        for _ in 0..readings {
            question
                .minutes
                .push(place(random, 65_535, &minute_edges) as u16);
            question
                .temperatures
                .push(place(random, 255, &temperature_edges) as u8);
            question
                .values
                .push(random.pick(&[0, 1, 7, 65_535, random.0 as u16]));
        }
        question.fit()
    }

    /// The same with one fault.
    pub fn damage(&mut self, random: &mut Random) {
        match random.below(16) {
            0 => self.minutes.push(5),
            1 => drop(self.temperatures.pop()),
            2 => self.values.push(5),
            3 => drop(self.minute_halves.pop()),
            4 => self.temperature_halves.push(5),
            5 => self.boxes += random.pick(&[1, 2]),
            6 => self.counts = random.pick(&[0, CELLS - 1, CELLS + 1]),
            7 => self.sums = random.pick(&[0, CELLS - 1, CELLS + 1]),
            8 => {
                self.minutes.resize(MOST_READINGS + 1, 9);
                self.temperatures.resize(MOST_READINGS + 1, 9);
                self.values.resize(MOST_READINGS + 1, 9);
            }
            9 => {
                self.minute_marks.resize(MOST_BOX_MARKS + 1, 65_535);
                self.minute_halves.resize(MOST_BOX_MARKS + 1, 1);
            }
            10 => {
                self.temperature_marks.resize(MOST_BOX_MARKS + 1, 255);
                self.temperature_halves.resize(MOST_BOX_MARKS + 1, 1);
            }
            11 => {
                self.minute_marks.clear();
                self.minute_halves.clear();
            }
            12 => {
                self.temperature_marks.clear();
                self.temperature_halves.clear();
            }
            13 => self.minute_marks.reverse(),
            14 => self.temperature_marks.reverse(),
            _ => {
                let bad = random.pick(&[0, 257, 65_536, 65_537, u32::MAX]);
                let halves = if random.chance(50) {
                    &mut self.minute_halves
                } else {
                    &mut self.temperature_halves
                };
                let at = random.below(halves.len());
                if let Some(half) = halves.get_mut(at) {
                    *half = bad;
                }
            }
        }
    }

    /// The three lists after the second implementation's call, filled with `filler` before it, and its answer.
    pub fn answered(
        &self,
        filler: u8,
    ) -> (Result<(), crate::Refusal>, Vec<u64>, Vec<u32>, Vec<u32>) {
        let mut boxes = vec![filler.into(); self.boxes];
        let (mut counts, mut sums) = (
            vec![filler.into(); self.counts],
            vec![filler.into(); self.sums],
        );
        let answer = crate::boxes::boxes(
            &self.minutes,
            &self.temperatures,
            &self.values,
            &self.minute_marks,
            &self.minute_halves,
            &self.temperature_marks,
            &self.temperature_halves,
            &mut boxes,
            &mut counts,
            &mut sums,
        );
        (answer, boxes, counts, sums)
    }
}
