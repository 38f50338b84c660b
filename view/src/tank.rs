//! A tank: the sheet as read, with its dropped samples ("readings"), and its curve.

use crate::kind::Kind;
use crate::lines::{self, Line};
use crate::section::Section;
use tankcurve::{Error, MAX_POINTS, MAX_SAMPLES, RANGE_ROW_WIDTH};

/// A sample ("reading"), by its line. Of a plain sheet `low` and `high` are its value.
#[derive(Clone, Copy, Debug, PartialEq, Eq)]
pub struct Sample {
    pub line: usize,
    pub minute: u16,
    pub low: u16,
    pub high: u16,
    /// Whether it counts: injections 1 and 2 are dropped.
    pub kept: bool,
}

/// A value of the curve, lowest and highest; equal ends of a plain sheet.
#[derive(Clone, Copy, Debug, PartialEq, Eq)]
pub struct Level {
    pub low: u16,
    pub high: u16,
}

/// An accepted sheet.
#[derive(Clone, Debug)]
pub struct Tank {
    pub kind: Kind,
    /// The samples of all lines, dropped ones too.
    pub samples: Vec<Sample>,
    /// The kept ones as the calls take them.
    pub minutes: Vec<u16>,
    pub lows: Vec<u16>,
    pub highs: Vec<u16>,
    pub points: Vec<u16>,
    pub bandwidths: Vec<u32>,
}

impl Tank {
    /// Reads a sheet of either kind.
    pub fn read(sheet: &[u8]) -> Result<Tank, Error> {
        let [mut minutes, mut lows, mut highs] = [[0; MAX_SAMPLES]; 3];
        let (mut points, mut bandwidths) = ([0; MAX_POINTS], [0; MAX_POINTS]);
        let used = tankcurve::read_ranges(
            sheet,
            &mut minutes,
            &mut lows,
            &mut highs,
            &mut points,
            &mut bandwidths,
        )?;
        let (kept, asked) = (used.samples as usize, used.points as usize);
        Ok(Tank {
            kind: used.kind.into(),
            samples: sample_lines(&lines::split(sheet)),
            minutes: minutes[..kept].to_vec(),
            lows: lows[..kept].to_vec(),
            highs: highs[..kept].to_vec(),
            points: points[..asked].to_vec(),
            bandwidths: bandwidths[..asked].to_vec(),
        })
    }

    /// The same samples over other points ("marks").
    pub fn over_points_of(&self, other: &Tank) -> Tank {
        Tank {
            points: other.points.clone(),
            bandwidths: other.bandwidths.clone(),
            ..self.clone()
        }
    }

    /// The curve: a level for each point, none where it is missing. Of equal lows and highs it is the plain one.
    pub fn curve(&self) -> Result<Vec<Option<Level>>, Error> {
        let mut rows = vec![0; self.points.len() * RANGE_ROW_WIDTH];
        let curve = tankcurve::smooth_ranges(
            &self.minutes,
            &self.lows,
            &self.highs,
            &self.points,
            &self.bandwidths,
            &mut rows,
        )?;
        let level = |(low, high)| Level { low, high };
        Ok(curve.rows.map(|row| row.values().map(level)).collect())
    }

    /// The kept sample at a position of the calls' lists.
    pub fn kept(&self, position: usize) -> Option<&Sample> {
        self.samples
            .iter()
            .filter(|sample| sample.kept)
            .nth(position)
    }
}

/// The samples of an accepted sheet.
fn sample_lines(lines: &[Line]) -> Vec<Sample> {
    let sample = |line: &Line| {
        let number = |number: u32| u16::try_from(number).ok();
        let (minute, injection, low, high) = match *lines::numbers(line.text)?.as_slice() {
            [minute, injection, value] => (minute, injection, value, value),
            [minute, injection, low, high] => (minute, injection, low, high),
            _ => return None,
        };
        Some(Sample {
            line: line.number,
            minute: number(minute)?,
            low: number(low)?,
            high: number(high)?,
            kept: injection > 2,
        })
    };
    let in_samples =
        |position: &usize| matches!(Section::of(lines, *position), Section::Samples(_));
    let first = (0..lines.len()).find(in_samples).unwrap_or(lines.len());
    lines[first..].iter().filter_map(sample).collect()
}

#[cfg(test)]
mod tests {
    use super::*;
    use std::fs;
    use std::path::Path;

    /// Every sample sheet: the kept lines found here are those that the proved reader keeps.
    #[test]
    fn kept_lines_are_the_readers() {
        let folder = Path::new(env!("CARGO_MANIFEST_DIR")).join("../examples");
        let mut sheets = 0;
        for entry in fs::read_dir(folder).unwrap() {
            let path = entry.unwrap().path();
            if path.extension().is_none_or(|ending| ending != "sheet") {
                continue;
            }
            let tank = Tank::read(&fs::read(&path).unwrap()).unwrap();
            let kept: Vec<_> = tank.samples.iter().filter(|sample| sample.kept).collect();
            assert_eq!(kept.len(), tank.minutes.len(), "{}", path.display());
            for (position, sample) in kept.into_iter().enumerate() {
                let lists = (
                    tank.minutes[position],
                    tank.lows[position],
                    tank.highs[position],
                );
                assert_eq!((sample.minute, sample.low, sample.high), lists);
                assert_eq!(tank.kept(position), Some(sample));
            }
            sheets += 1;
        }
        assert!(sheets >= 7);
    }
}
