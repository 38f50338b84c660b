//! Half widths by neighbours: each case lent to the export and to the second implementation, everything
//! compared, and against the proved sweep with the half widths that came.

use crate::calls::{code, refused, same, typed};
use crate::lent::Lent;
use crate::lists::{sample_count, LISTS};
use crate::tally::Tally;
use reference::generators::lists::{fall, rearranged};
use reference::generators::random::Random;
use reference::ROW_WIDTH;
use tankcurve::slices;

/// The first difference, with its case.
type Found = Result<(), String>;

/// The call, with its tally.
pub struct Neighbours {
    patterns: Random,
    tally: Tally,
}

/// Samples, and points.
type Lists<'a> = (&'a [u16], &'a [u16], &'a [u16]);

impl Neighbours {
    pub fn new() -> Neighbours {
        Neighbours {
            patterns: Random(3),
            tally: Tally::new("neighbours", &[8, 6, 7, 4, 5, 14]),
        }
    }

    pub fn tallies(&self) -> [&Tally; 1] {
        [&self.tally]
    }

    /// One case, with so many half widths and numbers of rows lent.
    fn neighbours(&mut self, lists: Lists, k: usize, widths_len: usize, rows_len: usize) -> Found {
        let (minutes, values, points) = lists;
        let (mut widths, mut rows) = (vec![0; widths_len], vec![0; rows_len]);
        let expected = reference::neighbours(minutes, values, points, k, &mut widths, &mut rows)
            .map_err(refused);
        let answer = expected.map_or_else(|refusal| refusal, |()| (0, 0));
        let lent_minutes = Lent::holding(&mut self.patterns, minutes);
        let lent_values = Lent::holding(&mut self.patterns, values);
        let lent_points = Lent::holding(&mut self.patterns, points);
        let mut lent_widths = Lent::patterned(&mut self.patterns, widths_len);
        let mut lent_rows = Lent::patterned(&mut self.patterns, rows_len);
        let mut compared = || -> Found {
            let got = slices::neighbours(
                lent_minutes.list(),
                lent_values.list(),
                lent_points.list(),
                k,
                lent_widths.list_mut(),
                lent_rows.list_mut(),
            );
            same("returned", code(answer), got)?;
            lent_minutes.untouched("minutes")?;
            lent_values.untouched("values")?;
            lent_points.untouched("points")?;
            if expected.is_err() {
                lent_widths.untouched("bandwidths")?;
                lent_rows.untouched("rows")?;
            } else {
                lent_widths.holds("bandwidths", &widths)?;
                lent_rows.holds("rows", &rows)?;
            }
            let (mut typed_widths, mut typed_rows) = (vec![9; widths_len], vec![9; rows_len]);
            let got = tankcurve::neighbours(
                minutes,
                values,
                points,
                k,
                &mut typed_widths,
                &mut typed_rows,
            );
            let present = typed(got).map(|mut rows| rows.all(|row| row.value().is_some()));
            same("typed, values present", expected.map(|()| true), present)?;
            if expected.is_ok() {
                same("typed, bandwidths", &widths, &typed_widths)?;
                same("typed, rows", &rows, &typed_rows)?;
                by_sweep(lists, &widths, &rows)?;
                counted(lists, k, &widths)?;
            }
            Ok(())
        };
        let found = compared();
        self.tally.count(answer.0);
        found.map_err(|difference| {
            format!(
                "neighbours: {difference}\nthe case:\n    lists = {lists:?}\n    k = {k}\n    bandwidths_len = {widths_len}\n    rows_len = {rows_len}"
            )
        })
    }

    /// The same, with as many of both as there are points.
    fn fit(&mut self, lists: Lists, k: usize) -> Found {
        let marks = lists.2.len();
        self.neighbours(lists, k, marks, ROW_WIDTH * marks)
    }
}

/// The proved sweep accepts these half widths and leaves the same rows.
fn by_sweep((minutes, values, points): Lists, widths: &[u32], rows: &[u64]) -> Found {
    let mut swept = vec![0; rows.len()];
    let curve = tankcurve::smooth(minutes, values, points, widths, &mut swept);
    same("swept", Ok(()), typed(curve).map(|_| ()))?;
    same("rows of the sweep", rows, &swept[..])
}

/// Fewer than k samples are nearer than the half width less 1, and at least k no further.
fn counted((minutes, _, points): Lists, k: usize, widths: &[u32]) -> Found {
    for (&point, &width) in points.iter().zip(widths) {
        let distance = |minute: &u16| u32::from(minute.abs_diff(point)) + 1;
        let nearer = minutes.iter().filter(|m| distance(m) < width).count();
        let within = minutes.iter().filter(|m| distance(m) <= width).count();
        same("counted", (true, true), (nearer < k, k <= within))?;
    }
    Ok(())
}

/// Values that change places among equal minutes change neither half widths nor rows.
fn alike((minutes, values, points): Lists, others: &[u16], k: usize) -> Found {
    let ask = |values: &[u16]| {
        let (mut widths, mut rows) = (vec![0; points.len()], vec![0; ROW_WIDTH * points.len()]);
        let answer = slices::neighbours(minutes, values, points, k, &mut widths, &mut rows);
        (answer, widths, rows)
    };
    same("values in other places", ask(values), ask(others))
}

/// A K of 1, of all samples, beside it, 0, or any.
fn some_k(random: &mut Random, count: usize) -> usize {
    match random.below(12) {
        0 | 1 => 1,
        2 | 3 => count,
        4 => count + 1,
        5 => 0,
        6 => random.pick(&[1025, 65_536, usize::MAX]),
        _ => random.below(count + 1).max(1),
    }
}

/// A length that is mostly the one wanted.
fn length(random: &mut Random, wanted: usize) -> usize {
    match random.below(60) {
        0 => wanted + 1,
        1 => wanted.saturating_sub(1),
        2 => 0,
        _ => wanted,
    }
}

pub fn neighbours(calls: &mut Neighbours) -> Found {
    let random = &mut Random(13);
    // The longest lists, and lists of one more.
    for count in [0, 1, 1023, 1024, 1025] {
        for used in [0, 1, 511, 512, 513] {
            let minutes = LISTS.ordered_minutes(random, count);
            let values = LISTS.some_values(random, count);
            let (points, _) = LISTS.fit_points(random, &minutes, used);
            for k in [1, 2, count / 2, count, count + 1] {
                calls.fit((&minutes, &values, &points), k)?;
            }
        }
    }
    // Few samples, many of equal minute, and each K.
    for _ in 0..400 {
        let count = random.between(1, 12) as usize;
        let minutes = LISTS.ordered_minutes(random, count);
        let values = LISTS.some_values(random, count);
        let used = random.between(1, 6) as usize;
        let (points, _) = LISTS.fit_points(random, &minutes, used);
        let others = rearranged(random, &minutes, &values);
        for k in 0..=count + 1 {
            calls.fit((&minutes, &values, &points), k)?;
            alike((&minutes, &values, &points), &others, k)?;
        }
    }
    for _ in 0..12_000 {
        let count = sample_count(random);
        let mut minutes = LISTS.ordered_minutes(random, count);
        let mut values = LISTS.some_values(random, count);
        let used = match random.below(100) {
            0 => 512,
            1 => 0,
            _ => random.between(1, 12) as usize,
        };
        let (mut points, _) = LISTS.fit_points(random, &minutes, used);
        while random.chance(12) {
            match random.below(4) {
                0 | 1 => LISTS.damage_samples(random, &mut minutes, &mut values),
                2 => fall(random, &mut points),
                _ => points.push(65_535),
            }
        }
        let k = some_k(random, minutes.len());
        let widths_len = length(random, points.len());
        let rows_len = length(random, ROW_WIDTH * points.len());
        calls.neighbours((&minutes, &values, &points), k, widths_len, rows_len)?;
    }
    Ok(())
}
