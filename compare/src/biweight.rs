//! The biweight row: lent to the export and to the second implementation, everything compared, and its edges and reports against those of
//! the proved question at one mark.

use crate::calls::{among, code, refused, same, typed, WRONG_LENGTH};
use crate::lent::Lent;
use crate::lists::{sample_count, LISTS, MOST_SAMPLES};
use crate::tally::Tally;
use reference::generators::lists::{rearranged, some_point};
use reference::generators::random::Random;
use reference::{BIWEIGHT_HALF, ROW_WIDTH};
use tankcurve::{slices, Estimate};

/// The first difference, with its case.
type Found = Result<(), String>;

/// The call, with its tally.
pub struct Biweights {
    patterns: Random,
    biweight: Tally,
}

impl Biweights {
    pub fn new() -> Biweights {
        Biweights {
            patterns: Random(3),
            biweight: Tally::new("biweight", &[8, 6, 4]),
        }
    }

    pub fn tallies(&self) -> [&Tally; 1] {
        [&self.biweight]
    }

    pub fn biweight(
        &mut self,
        minutes: &[u16],
        values: &[u16],
        point: u16,
        row_len: usize,
    ) -> Found {
        let result = reference::biweight(minutes, values, point).map_err(refused);
        let expected = if row_len == ROW_WIDTH {
            result
        } else {
            Err(WRONG_LENGTH)
        };
        let answer = expected.err().unwrap_or((0, 0));
        let lent_minutes = Lent::holding(&mut self.patterns, minutes);
        let lent_values = Lent::holding(&mut self.patterns, values);
        let mut row = Lent::patterned(&mut self.patterns, row_len);
        let mut compared = || -> Found {
            let (m, v) = (lent_minutes.list(), lent_values.list());
            let got = slices::biweight(m, v, point, row.list_mut());
            same("returned", code(answer), got)?;
            lent_minutes.untouched("minutes")?;
            lent_values.untouched("values")?;
            match expected {
                Ok(front) => row.holds("row", &front)?,
                Err(_) => row.untouched("row")?,
            }
            let fields = |e: Estimate| {
                // Missing by the weight, and else the number itself.
                let value = e.value().map_or(tankcurve::MISSING, u64::from);
                [e.left(), e.right(), e.weight(), e.sum(), value]
            };
            let typed_row = typed(tankcurve::biweight(m, v, point)).map(fields);
            same("typed", result, typed_row)?;
            beside_evaluate(minutes, values, point, result)
        };
        let found = compared();
        self.biweight.count(answer.0);
        found.map_err(|difference| {
            format!("biweight: {difference}\nthe case:\n    minutes = {minutes:?}\n    values = {values:?}\n    point = {point}\n    row_len = {row_len}")
        })
    }
}

/// Refused as the proved question at one mark with this half width, and else with its edges and its run; missing alike, and a present value
/// among the values with a weight.
fn beside_evaluate(
    minutes: &[u16],
    values: &[u16],
    point: u16,
    result: Result<[u64; ROW_WIDTH], (u8, u64)>,
) -> Found {
    let plain = typed(tankcurve::evaluate(minutes, values, point, BIWEIGHT_HALF));
    let edges = plain.map(|row| (row.left(), row.right(), row.value().is_none()));
    let own = result.map(|row| (row[0], row[1], row[4] == tankcurve::MISSING));
    same("beside evaluate", own, edges)?;
    let run = typed(tankcurve::window(minutes, values, point, BIWEIGHT_HALF));
    let part = result.map(|row| &values[row[0] as usize..row[1] as usize]);
    same("the run", part, run)?;
    match result {
        Ok(row) => among(minutes, values, point, BIWEIGHT_HALF, &row),
        Err(_) => Ok(()),
    }
}

/// A point, often one with a sample on an edge of its window or beside it.
fn near_edge(random: &mut Random, minutes: &[u16]) -> u16 {
    if minutes.is_empty() || random.chance(40) {
        return some_point(random, minutes);
    }
    let away = random.pick(&[-721, -720, -719, -1, 0, 1, 719, 720, 721]);
    (i64::from(random.pick(minutes)) + away).clamp(0, 65_535) as u16
}

/// Samples whose quotient is a half or as near to one as weights come, over an even number or an odd one.
fn near_half(random: &mut Random, turn: usize) -> (Vec<u16>, Vec<u16>, u16) {
    let point = 1000 + random.below(60_000) as u16;
    let low = (2 * random.between(1, 32_767)) as u16 - (turn % 2) as u16;
    let mut samples = Vec::new();
    for _ in 0..random.between(0, 511) {
        let minute = point - 720 + random.below(1441) as u16;
        samples.extend([(minute, low), (minute, low + 1)]);
    }
    // Two more, whose weights differ.
    match turn / 2 % 3 {
        0 => samples.extend([(point, low), (point + 1, low + 1)]),
        1 => samples.extend([(point, low + 1), (point + 1, low)]),
        _ => samples.extend([(point, low), (point, low + 1)]),
    }
    samples.sort_unstable();
    let (minutes, values) = samples.into_iter().unzip();
    (minutes, values, point)
}

pub fn biweight(biweights: &mut Biweights) -> Found {
    let random = &mut Random(28);
    // Every distance up to 721 and one far away, on both sides, also where the window begins below 0.
    for away in (0..=721).chain([1440, 20_000]) {
        for point in [0, 300, 719, 720, 721, 30_000, 65_535] {
            for minute in [point + away, point - away] {
                if let Ok(minute) = u16::try_from(minute) {
                    biweights.biweight(&[minute], &[7], point as u16, ROW_WIDTH)?;
                }
            }
        }
    }
    // The greatest sum, and as many samples as there may be and one more.
    for count in [MOST_SAMPLES - 1, MOST_SAMPLES, MOST_SAMPLES + 1] {
        for (minute, point) in [
            (5, 5),
            (0, 0),
            (65_535, 65_535),
            (720, 0),
            (719, 0),
            (0, 721),
        ] {
            biweights.biweight(&vec![minute; count], &vec![65_535; count], point, ROW_WIDTH)?;
        }
        for _ in 0..20 {
            let minutes = LISTS.ordered_minutes(random, count);
            let values = LISTS.some_values(random, count);
            let point = near_edge(random, &minutes);
            biweights.biweight(&minutes, &values, point, ROW_WIDTH)?;
        }
    }
    // At a half and as near to one as weights come, also where twice the sum is over 2^64.
    for turn in 0..600 {
        let (minutes, values, point) = near_half(random, turn);
        biweights.biweight(&minutes, &values, point, ROW_WIDTH)?;
    }
    for _ in 0..40_000 {
        let count = sample_count(random);
        let mut minutes = LISTS.ordered_minutes(random, count);
        let mut values = LISTS.some_values(random, count);
        let point = near_edge(random, &minutes);
        // Samples of equal minute may change places.
        let moved = rearranged(random, &minutes, &values);
        let rows = [&values, &moved].map(|list| {
            let mut row = [0; ROW_WIDTH];
            (slices::biweight(&minutes, list, point, &mut row), row)
        });
        same("rearranged", &rows[0], &rows[1])?;
        while random.chance(20) {
            LISTS.damage_samples(random, &mut minutes, &mut values);
        }
        let row_len = match random.below(40) {
            0 => 0,
            1 => random.pick(&[4, 6, 10]),
            _ => ROW_WIDTH,
        };
        biweights.biweight(&minutes, &values, point, row_len)?;
    }
    Ok(())
}
