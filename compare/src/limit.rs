//! The questions with a limit: each lent to the export and to the second implementation, everything
//! compared, and against the rows of the proved sweep.

use crate::calls::{code, refused, same, typed, WRONG_LENGTH};
use crate::lent::Lent;
use crate::lists::{near_half, sample_count, LISTS};
use crate::tally::Tally;
use reference::exported::{ANSWER, NO_POSITION};
use reference::generators::lists::{fall, some_point};
use reference::generators::random::Random;
use reference::{Refusal, ROW_WIDTH};
use tankcurve::{slices, Crossing};

/// The first difference, with its case.
type Found = Result<(), String>;

/// The questions, with their tallies.
pub struct Questions {
    patterns: Random,
    first_at_most: Tally,
    decisive: Tally,
    /// How often none was named, and how often a sample.
    named: [u64; 2],
}

/// A position or none, as the list's one number.
fn position(found: Option<usize>) -> [u64; ANSWER] {
    [found.map_or(NO_POSITION, |k| k as u64)]
}

/// Samples, and points with their bandwidths.
type Lists<'a> = (&'a [u16], &'a [u16], &'a [u16], &'a [u32]);

impl Questions {
    pub fn new() -> Questions {
        Questions {
            patterns: Random(2),
            first_at_most: Tally::new("first_at_most", &[8, 6, 7, 4, 5, 9, 10]),
            decisive: Tally::new("decisive", &[8, 6, 4, 9]),
            named: [0; 2],
        }
    }

    pub fn tallies(&self) -> [&Tally; 2] {
        [&self.first_at_most, &self.decisive]
    }

    pub fn first_at_most(&mut self, lists: Lists, limit: u16, position_len: usize) -> Found {
        let (minutes, values, points, bandwidths) = lists;
        let result =
            reference::first_at_most(minutes, values, points, bandwidths, limit).map_err(refused);
        let expected = if position_len == ANSWER {
            result
        } else {
            Err(WRONG_LENGTH)
        };
        let answer = expected.map_or_else(|refusal| refusal, |(_, passes)| (0, passes));
        let lent_minutes = Lent::holding(&mut self.patterns, minutes);
        let lent_values = Lent::holding(&mut self.patterns, values);
        let lent_points = Lent::holding(&mut self.patterns, points);
        let lent_bandwidths = Lent::holding(&mut self.patterns, bandwidths);
        let mut lent_position = Lent::patterned(&mut self.patterns, position_len);
        let compared = || -> Found {
            let got = slices::first_at_most(
                lent_minutes.list(),
                lent_values.list(),
                lent_points.list(),
                lent_bandwidths.list(),
                limit,
                lent_position.list_mut(),
            );
            same("returned", code(answer), got)?;
            lent_minutes.untouched("minutes")?;
            lent_values.untouched("values")?;
            lent_points.untouched("points")?;
            lent_bandwidths.untouched("bandwidths")?;
            match expected {
                Ok((found, _)) => lent_position.holds("position", &position(found))?,
                Err(_) => lent_position.untouched("position")?,
            }
            let got = tankcurve::first_at_most(minutes, values, points, bandwidths, limit);
            let crossing = |(point, passes)| Crossing { point, passes };
            same("typed", result.map(crossing), typed(got))?;
            same("by the rows", result, by_rows(lists, limit))?;
            behind(lists, limit, result)
        };
        self.first_at_most.count(answer.0);
        let mut compared = compared;
        compared().map_err(|difference| {
            format!(
                "first_at_most: {difference}\nthe case:\n    lists = {lists:?}\n    limit = {limit}\n    position_len = {position_len}"
            )
        })
    }
}

impl Questions {
    pub fn decisive(&mut self, mark: OneMark, limit: u16, position_len: usize) -> Found {
        let (minutes, values, point, bandwidth) = mark;
        let result = reference::decisive(minutes, values, point, bandwidth, limit).map_err(refused);
        let expected = if position_len == ANSWER {
            result
        } else {
            Err(WRONG_LENGTH)
        };
        let answer = expected.map_or_else(|refusal| refusal, |_| (0, 0));
        let lent_minutes = Lent::holding(&mut self.patterns, minutes);
        let lent_values = Lent::holding(&mut self.patterns, values);
        let mut lent_position = Lent::patterned(&mut self.patterns, position_len);
        let compared = || -> Found {
            let got = slices::decisive(
                lent_minutes.list(),
                lent_values.list(),
                point,
                bandwidth,
                limit,
                lent_position.list_mut(),
            );
            same("returned", code(answer), got)?;
            lent_minutes.untouched("minutes")?;
            lent_values.untouched("values")?;
            match expected {
                Ok(found) => lent_position.holds("position", &position(found))?,
                Err(_) => lent_position.untouched("position")?,
            }
            let got = tankcurve::decisive(minutes, values, point, bandwidth, limit);
            same("typed", result, typed(got))?;
            asked_again(mark, limit, result)
        };
        self.decisive.count(answer.0);
        if let Ok(found) = expected {
            self.named[usize::from(found.is_some())] += 1;
        }
        let mut compared = compared;
        compared().map_err(|difference| {
            format!(
                "decisive: {difference}\nthe case:\n    mark = {mark:?}\n    limit = {limit}\n    position_len = {position_len}"
            )
        })
    }
}

/// Samples, a point and its bandwidth.
type OneMark<'a> = (&'a [u16], &'a [u16], u16, u32);

/// The lists without one position.
fn without(mark: OneMark, position: usize) -> (Vec<u16>, Vec<u16>) {
    let (mut minutes, mut values) = (mark.0.to_vec(), mark.1.to_vec());
    minutes.remove(position);
    values.remove(position);
    (minutes, values)
}

/// Whether the proved question at one point has a value at or below the limit.
fn low(mark: OneMark, limit: u16) -> Result<bool, (u8, u64)> {
    let (minutes, values, point, bandwidth) = mark;
    let row = typed(tankcurve::evaluate(minutes, values, point, bandwidth))?;
    Ok(row.value().is_some_and(|value| value <= limit))
}

/// The proved question, asked again without the named sample, has the other answer, and the same one without the
/// neighbours in front of it and without the first and the last of the list.
fn asked_again(mark: OneMark, limit: u16, result: Result<Option<usize>, (u8, u64)>) -> Found {
    let whole = low(mark, limit);
    same("refused alike", result.map(|_| ()), whole.map(|_| ()))?;
    let (Ok(found), Ok(whole)) = (result, whole) else {
        return Ok(());
    };
    let count = mark.0.len();
    let before = found.unwrap_or(count);
    for position in [0, before.wrapping_sub(2), before.wrapping_sub(1), before] {
        if position < count {
            let (minutes, values) = without(mark, position);
            let again = low((&minutes, &values, mark.2, mark.3), limit);
            let other = found == Some(position);
            same("asked again", Ok(whole != other), again)?;
        }
    }
    Ok(())
}

/// What the rows of the proved sweep say of the limit.
fn by_rows(lists: Lists, limit: u16) -> Result<(Option<usize>, u64), (u8, u64)> {
    let (minutes, values, points, bandwidths) = lists;
    let mut rows = vec![0; ROW_WIDTH * points.len()];
    let curve = tankcurve::smooth(minutes, values, points, bandwidths, &mut rows);
    let curve = typed(curve)?;
    let passes = curve.passes;
    for (k, row) in curve.rows.enumerate() {
        if row.value().is_some_and(|value| value <= limit) {
            return Ok((Some(k), row.left() + row.right()));
        }
    }
    Ok((None, passes))
}

/// Other values behind the right edge of the point that answers, or of the last one, change nothing.
fn behind(lists: Lists, limit: u16, result: Result<(Option<usize>, u64), (u8, u64)>) -> Found {
    let (minutes, values, points, bandwidths) = lists;
    let Ok((found, _)) = result else {
        return Ok(());
    };
    let at = found.unwrap_or(points.len() - 1);
    let edge = u64::from(points[at]) + u64::from(bandwidths[at]);
    let mut others = values.to_vec();
    for (value, &minute) in others.iter_mut().zip(minutes) {
        if u64::from(minute) > edge {
            *value = !*value;
        }
    }
    let again = reference::first_at_most(minutes, &others, points, bandwidths, limit);
    same(
        "second implementation, other values behind",
        result,
        again.map_err(refused),
    )?;
    let got = tankcurve::first_at_most(minutes, &others, points, bandwidths, limit);
    let got = typed(got).map(|crossing| (crossing.point, crossing.passes));
    same("other values behind", result, got)
}

/// Samples and points, fit or damaged.
fn some_lists(random: &mut Random) -> (Vec<u16>, Vec<u16>, Vec<u16>, Vec<u32>) {
    let count = sample_count(random);
    let mut minutes = LISTS.ordered_minutes(random, count);
    let mut values = LISTS.some_values(random, count);
    let used = match random.below(100) {
        0 => 512,
        1 => 511,
        2 => 0,
        _ => random.between(1, 12) as usize,
    };
    let (mut points, mut bandwidths) = LISTS.fit_points(random, &minutes, used);
    while random.chance(20) {
        let at = random.below(bandwidths.len().max(1));
        match random.below(8) {
            0 | 1 => LISTS.damage_samples(random, &mut minutes, &mut values),
            2 => {
                bandwidths.pop();
            }
            3 => {
                points.pop();
            }
            4 => fall(random, &mut points),
            5 if at < bandwidths.len() => bandwidths[at] = LISTS.bad_bandwidth(random),
            _ if at < bandwidths.len() => {
                let by = random.between(-2, 2);
                bandwidths[at] = (i64::from(bandwidths[at]) + by).clamp(1, 65_536) as u32;
            }
            _ => {}
        }
    }
    (minutes, values, points, bandwidths)
}

/// A limit at the value of one of the rows, beside it, or any.
fn some_limit(random: &mut Random, lists: Lists) -> u16 {
    let (minutes, values, points, bandwidths) = lists;
    let mut rows = vec![0; ROW_WIDTH * points.len()];
    let swept: Result<u64, Refusal> =
        reference::sweep(minutes, values, points, bandwidths, &mut rows);
    if swept.is_err() || random.chance(10) {
        return random.pick(&[0, 1, 9, 1000, 65_534, 65_535]);
    }
    let value = rows[ROW_WIDTH * random.below(points.len()) + ROW_WIDTH - 1] as i64;
    (value + random.between(-1, 1)).clamp(0, 65_535) as u16
}

pub fn first_at_most(questions: &mut Questions) -> Found {
    let random = &mut Random(12);
    // The longest lists, and lists of one more.
    for count in [0, 1, 1023, 1024, 1025] {
        for used in [0, 1, 511, 512, 513] {
            let minutes = LISTS.ordered_minutes(random, count);
            let values = LISTS.some_values(random, count);
            let (points, bandwidths) = LISTS.fit_points(random, &minutes, used);
            let lists: Lists = (&minutes, &values, &points, &bandwidths);
            for _ in 0..4 {
                let limit = some_limit(random, lists);
                questions.first_at_most(lists, limit, ANSWER)?;
            }
        }
    }
    // At a half and as near to one as weights come.
    for turn in 0..240 {
        let (minutes, values, point, bandwidth) = near_half(random, turn);
        let points = [point, point + 1];
        let lists: Lists = (&minutes, &values, &points, &[bandwidth; 2]);
        let limit = some_limit(random, lists);
        questions.first_at_most(lists, limit, ANSWER)?;
    }
    for _ in 0..25_000 {
        let (minutes, values, points, bandwidths) = some_lists(random);
        let lists: Lists = (&minutes, &values, &points, &bandwidths);
        let limit = some_limit(random, lists);
        let position_len = match random.below(40) {
            0 => 0,
            1 => random.pick(&[2, 3, 8]),
            _ => ANSWER,
        };
        questions.first_at_most(lists, limit, position_len)?;
    }
    Ok(())
}

/// A limit at the value of the row or of that without one sample, beside it, or any.
fn other_limit(random: &mut Random, mark: OneMark) -> u16 {
    let (minutes, values, point, bandwidth) = mark;
    let even = minutes.len() == values.len() && !minutes.is_empty();
    let row = if even && random.chance(70) {
        let (minutes, values) = without(mark, random.below(minutes.len()));
        reference::one_mark(&minutes, &values, point, bandwidth)
    } else {
        reference::one_mark(minutes, values, point, bandwidth)
    };
    match row {
        Ok(row) if random.chance(90) => {
            let value = row[ROW_WIDTH - 1] as i64;
            (value + random.between(-1, 1)).clamp(0, 65_535) as u16
        }
        _ => random.pick(&[0, 1, 9, 1000, 65_534, 65_535]),
    }
}

/// Few samples of equal or neighbouring minutes and values, so that each one counts, some on the edges.
fn close_samples(random: &mut Random) -> (Vec<u16>, Vec<u16>, u16, u32) {
    let point = random.pick(&[0, 1, 5, 40_000, 65_530, 65_535]);
    let bandwidth = random.pick(&[1, 2, 3, 5, 65_536]);
    let count = random.below(7);
    let mut minutes: Vec<u16> = (0..count)
        .map(|_| {
            let by = random
                .between(-5, 5)
                .clamp(-(bandwidth as i64), bandwidth as i64);
            (i64::from(point) + by).clamp(0, 65_535) as u16
        })
        .collect();
    minutes.sort_unstable();
    let values = (0..count).map(|_| random.below(9) as u16).collect();
    (minutes, values, point, bandwidth)
}

pub fn decisive(questions: &mut Questions) -> Found {
    let random = &mut Random(14);
    // Every set of the faults 8, 6, 4, 9, with a list of the right length and others.
    for faults in 0..16 {
        let count = if faults & 2 == 0 { 1024 } else { 1025 };
        let mut minutes = LISTS.ordered_minutes(random, count);
        let values = LISTS.some_values(random, count - faults % 2);
        if faults & 4 != 0 {
            fall(random, &mut minutes);
        }
        let bandwidth = if faults & 8 == 0 { 65_536 } else { 65_537 };
        let mark: OneMark = (&minutes, &values, 40_000, bandwidth);
        for position_len in [ANSWER, 0, 2, 8] {
            let limit = other_limit(random, mark);
            questions.decisive(mark, limit, position_len)?;
        }
    }
    // At a half and as near to one as weights come.
    for turn in 0..120 {
        let (minutes, values, point, bandwidth) = near_half(random, turn);
        let mark: OneMark = (&minutes, &values, point, bandwidth);
        let limit = other_limit(random, mark);
        questions.decisive(mark, limit, ANSWER)?;
    }
    for _ in 0..40_000 {
        let (minutes, values, point, bandwidth) = close_samples(random);
        let mark: OneMark = (&minutes, &values, point, bandwidth);
        let limit = other_limit(random, mark);
        questions.decisive(mark, limit, ANSWER)?;
    }
    for _ in 0..15_000 {
        let count = sample_count(random);
        let mut minutes = LISTS.ordered_minutes(random, count);
        let mut values = LISTS.some_values(random, count);
        let point = some_point(random, &minutes);
        let mut bandwidth = LISTS.some_bandwidth(random, &minutes, point);
        while random.chance(15) {
            match random.below(3) {
                0 => bandwidth = LISTS.bad_bandwidth(random),
                _ => LISTS.damage_samples(random, &mut minutes, &mut values),
            }
        }
        let mark: OneMark = (&minutes, &values, point, bandwidth);
        let limit = other_limit(random, mark);
        let position_len = match random.below(40) {
            0 => 0,
            1 => random.pick(&[2, 3, 8]),
            _ => ANSWER,
        };
        questions.decisive(mark, limit, position_len)?;
    }
    let [none, some] = questions.named;
    println!("decisive: {some} cases name a sample, {none} none");
    if questions.named.contains(&0) {
        return Err("decisive: one kind of answer never came".to_string());
    }
    Ok(())
}
