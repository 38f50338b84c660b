//! Minute and temperature together: each box by a look at every reading, each
//! direction's cuts as a set, and a reading's strip by counting the cuts at or
//! below it.

use crate::{refuse, Refusal, MOST_READINGS};
use std::collections::BTreeSet;

/// The longest list of marks of one direction that is no fault [Minute and
/// temperature together].
pub const MOST_BOX_MARKS: usize = 32;

/// The greatest half width of a minute mark, and of a temperature mark.
pub const MOST_MINUTE_HALF: u32 = 65_536;
pub const MOST_TEMPERATURE_HALF: u32 = 256;

/// How many strips a direction has at most: so many cells has each minute strip.
pub const STRIPS: usize = 65;

/// The length of each list of cells.
pub const CELLS: usize = 4225;

/// One direction: the readings' places along it, and its marks with their half
/// widths.
struct Direction {
    places: Vec<i64>,
    marks: Vec<(i64, i64)>,
}

impl Direction {
    fn of<T: Copy + Into<i64>>(readings: &[T], marks: &[T], halves: &[u32]) -> Direction {
        Direction {
            places: readings.iter().map(|&x| x.into()).collect(),
            marks: marks
                .iter()
                .zip(halves)
                .map(|(&mark, &half)| (mark.into(), half.into()))
                .collect(),
        }
    }

    /// Whether a reading lies in a mark's closed window.
    fn inside(&self, reading: usize, mark: usize) -> bool {
        let (mark, half) = self.marks[mark];
        (self.places[reading] - mark).abs() <= half
    }

    /// Every left edge and every right edge plus 1.
    fn cuts(&self) -> BTreeSet<i64> {
        let left = self.marks.iter().map(|(mark, half)| mark - half);
        let right = self.marks.iter().map(|(mark, half)| mark + half + 1);
        left.chain(right).collect()
    }

    /// How many of the cuts lie at or below a reading.
    fn strip(&self, reading: usize) -> usize {
        let place = self.places[reading];
        self.cuts().iter().filter(|&&cut| cut <= place).count()
    }
}

/// The lowest position whose number is below the one before.
fn first_below<T: PartialOrd>(list: &[T]) -> Option<usize> {
    (1..list.len()).find(|&i| list[i] < list[i - 1])
}

/// The lowest position with a half width of 0, or over the direction's own
/// greatest one.
fn first_outside(halves: &[u32], most: u32) -> Option<usize> {
    halves.iter().position(|&half| half == 0 || half > most)
}

/// For each pair of marks, minute marks slowest, count and value sum of the
/// readings inside the pair's box, into `boxes`; the cells' counts and value
/// sums into the other two lists; or the first of the reports 8, 6, 7, 5, 17 and
/// 9 that holds, with all three lists as they were [Minute and temperature
/// together].
#[allow(clippy::too_many_arguments)]
pub fn boxes(
    minutes: &[u16],
    temperatures: &[u8],
    values: &[u16],
    minute_marks: &[u16],
    minute_halves: &[u32],
    temperature_marks: &[u8],
    temperature_halves: &[u32],
    boxes: &mut [u64],
    counts: &mut [u32],
    sums: &mut [u32],
) -> Result<(), Refusal> {
    let pairs = minute_marks.len() as u128 * temperature_marks.len() as u128;
    if minutes.len() != temperatures.len()
        || minutes.len() != values.len()
        || minute_marks.len() != minute_halves.len()
        || temperature_marks.len() != temperature_halves.len()
        || boxes.len() as u128 != 2 * pairs
        || counts.len() != CELLS
        || sums.len() != CELLS
    {
        return refuse(8, 0);
    }
    if minutes.len() > MOST_READINGS
        || minute_marks.len() > MOST_BOX_MARKS
        || temperature_marks.len() > MOST_BOX_MARKS
    {
        return refuse(6, 0);
    }
    if minute_marks.is_empty() || temperature_marks.is_empty() {
        return refuse(7, 0);
    }
    if let Some(position) = first_below(minute_marks) {
        return refuse(5, position);
    }
    if let Some(position) = first_below(temperature_marks) {
        return refuse(17, position);
    }
    if let Some(position) = first_outside(minute_halves, MOST_MINUTE_HALF) {
        return refuse(9, position);
    }
    if let Some(position) = first_outside(temperature_halves, MOST_TEMPERATURE_HALF) {
        return refuse(9, position);
    }

    let along_minutes = Direction::of(minutes, minute_marks, minute_halves);
    let along_temperatures = Direction::of(temperatures, temperature_marks, temperature_halves);

    let mut place = 0;
    for m in 0..minute_marks.len() {
        for t in 0..temperature_marks.len() {
            let (mut count, mut sum) = (0, 0);
            for (reading, &value) in values.iter().enumerate() {
                if along_minutes.inside(reading, m) && along_temperatures.inside(reading, t) {
                    count += 1;
                    sum += u64::from(value);
                }
            }
            boxes[place] = count;
            boxes[place + 1] = sum;
            place += 2;
        }
    }

    counts.fill(0);
    sums.fill(0);
    for (reading, &value) in values.iter().enumerate() {
        let cell = STRIPS * along_minutes.strip(reading) + along_temperatures.strip(reading);
        counts[cell] += 1;
        sums[cell] += u32::from(value);
    }
    Ok(())
}
