//! The questions with a limit.

use crate::calls::{length as lent, listed, sized, MOST_ELEMENTS, MOST_NUMBERS};
use crate::draws::{length, sample_count, LISTS};
use crate::files::{Answer, Cases};
use reference::exported::{ANSWER, NO_POSITION};
use reference::generators::lists::some_point;
use reference::generators::random::Random;
use reference::{decisive, first_at_most, one_mark, sweep, ROW_WIDTH};

/// A position or none, as the numbers of a list.
fn position(found: Option<usize>) -> Vec<u64> {
    vec![found.map_or(NO_POSITION, |k| k as u64)]
}

/// Readings, and marks with their half widths.
type Lists<'a> = (&'a [u16], &'a [u16], &'a [u16], &'a [u32]);

/// Readings, a mark and its half width.
type OneMark<'a> = (&'a [u16], &'a [u16], u16, u32);

impl Cases {
    pub fn first_at_most(&mut self, lists: Lists, limit: u16, answer: usize) -> Answer {
        let (minutes, values, points, bandwidths) = lists;
        let mut numbers = listed(minutes, MOST_ELEMENTS);
        numbers.extend(listed(values, MOST_ELEMENTS));
        numbers.extend(listed(points, MOST_ELEMENTS));
        numbers.extend(listed(bandwidths, MOST_ELEMENTS));
        numbers.extend([limit.into(), lent(answer, MOST_NUMBERS)]);
        self.case("first_at_most", &numbers, b"");
        let result = sized(answer, ANSWER)
            .and_then(|()| first_at_most(minutes, values, points, bandwidths, limit));
        let list = result.map_or(vec![7; answer], |(found, _)| position(found));
        let passes = result.map(|(_, passes)| passes);
        self.answer("first_at_most", passes, b"", vec![list])
    }

    pub fn decisive(&mut self, mark: OneMark, limit: u16, answer: usize) -> Answer {
        let (minutes, values, point, bandwidth) = mark;
        let mut numbers = listed(minutes, MOST_ELEMENTS);
        numbers.extend(listed(values, MOST_ELEMENTS));
        let single = [u64::from(point), u64::from(bandwidth), u64::from(limit)];
        numbers.extend(single);
        numbers.push(lent(answer, MOST_NUMBERS));
        self.case("decisive", &numbers, b"");
        let result =
            sized(answer, ANSWER).and_then(|()| decisive(minutes, values, point, bandwidth, limit));
        let list = result.map_or(vec![7; answer], position);
        let detail = result.map(|_| 0);
        self.answer("decisive", detail, b"", vec![list])
    }
}

/// The published sheet's lists.
const SHEET: Lists = (
    &[10, 20, 20, 35],
    &[40, 60, 80, 20],
    &[20, 25, 60],
    &[10, 15, 20],
);

pub fn cases(cases: &mut Cases) {
    first(cases);
    first_order(cases);
    first_lengths(cases);
    decides(cases);
    decides_order(cases);
    decides_lengths(cases);
}

#[rustfmt::skip]
fn first(cases: &mut Cases) {
    for (limit, passes, found) in [
        (0, 8, None), (57, 8, None), (58, 4, Some(1)), (69, 4, Some(1)), (70, 3, Some(0)), (65535, 3, Some(0)),
    ] {
        cases.first_at_most(SHEET, limit, ANSWER).accepted(passes, &position(found));
    }
    // No value is present: C9, C5, C4.
    cases.first_at_most((&[50], &[9], &[0, 100], &[1, 1]), 65535, ANSWER).accepted(2, &[NO_POSITION]);
    cases.first_at_most((&[10], &[40], &[20], &[10]), 65535, ANSWER).accepted(1, &[NO_POSITION]);
    cases.first_at_most((&[], &[], &[5], &[1]), 65535, ANSWER).accepted(0, &[NO_POSITION]);
    // A missing value in front of one of 0.
    cases.first_at_most((&[50], &[0], &[0, 50], &[1, 1]), 0, ANSWER).accepted(1, &[1]);
    // A half to the even number: C7.
    cases.first_at_most((&[0, 0], &[2, 3], &[0], &[1]), 2, ANSWER).accepted(2, &[0]);
    cases.first_at_most((&[0, 0], &[2, 3], &[0], &[1]), 1, ANSWER).accepted(2, &[NO_POSITION]);
    // The curve rises behind the mark that answers, and values there do not count.
    let (minutes, points) = ([0, 9, 18, 27], [0, 9, 18, 27]);
    for behind in [0, 7, 65535] {
        let values = [9, 5, behind, behind];
        cases.first_at_most((&minutes, &values, &points, &[1; 4]), 5, ANSWER).accepted(3, &[1]);
    }
    // As many readings and marks as there may be.
    let full = [65535; 1024];
    cases.first_at_most((&full, &full, &[65535; 512], &[65536; 512]), 65535, ANSWER).accepted(1024, &[0]);
    cases.first_at_most((&full, &full, &[65535; 512], &[65536; 512]), 65534, ANSWER).accepted(1024, &[NO_POSITION]);
    // The last of 512 marks.
    let points: Vec<u16> = (0..512).collect();
    cases.first_at_most((&[510, 511], &[9, 8], &points, &[1; 512]), 8, ANSWER).accepted(2, &[511]);
}

/// Each case has the fault of its report and the faults of those that come
/// later in the call's order, and mark 0 would answer where it can.
#[rustfmt::skip]
fn first_order(cases: &mut Cases) {
    let mut falling = vec![3; 1025];
    falling[1] = 2;
    let ones = [1; 1025];
    let three = &falling[..3];
    let mut refused = |lists, number, place| cases.first_at_most(lists, 65535, ANSWER).refused(number, place);

    // 8, 6, 7, 4, 5, 9, 10, lowest position each.
    refused((&falling, &[], &[], &[]), 8, 0);
    refused((three, &ones[..3], &[], &[0]), 8, 0);
    refused((&[3], &[1], &[3], &[]), 8, 0);
    refused((&falling, &ones, &[], &[]), 6, 0);
    refused((three, &ones[..3], &[5; 513], &[0; 513]), 6, 0);
    refused((three, &ones[..3], &[], &[]), 7, 0);
    refused((&[], &[], &[], &[]), 7, 0);
    refused((three, &ones[..3], &[7, 6, 8], &[5, 5, 0]), 4, 1);
    refused((&[1, 1, 0, 5, 4], &ones[..5], &[5], &[5]), 4, 2);
    refused((&[3], &[1], &[7, 8, 7], &[9, 0, 9]), 5, 2);
    refused((&[7], &[1], &[7, 7, 6], &[9, 9, 9]), 5, 2);
    refused((&[3], &[1], &[7, 7, 7], &[9, 8, 0]), 9, 2);
    refused((&[7], &[1], &[7, 7, 7], &[9, 9, 65537]), 9, 2);
    refused((&[7], &[1], &[7, 7, 7], &[9, 9, 8]), 10, 2);
    refused((&[7], &[1], &[7, 8], &[9, 11]), 10, 1);
}

/// The lent list one short and long, alone and with other faults.
fn first_lengths(cases: &mut Cases) {
    let (m, v, z, h) = SHEET;
    for answer in [0, 2, 8] {
        cases.first_at_most(SHEET, 58, answer).refused(8, 0);
        cases
            .first_at_most((m, v, z, &[10, 0, 20]), 58, answer)
            .refused(8, 0);
        cases
            .first_at_most((&[2, 1, 3, 4], v, z, h), 58, answer)
            .refused(8, 0);
    }
}

#[rustfmt::skip]
fn decides(cases: &mut Cases) {
    let (minutes, values, _, _) = SHEET;
    let mut asked = |mark, limit, found| cases.decisive(mark, limit, ANSWER).accepted(0, &position(found));
    for (limit, found) in [
        (0, None), (59, None), (60, Some(2)), (69, Some(2)), (70, Some(1)), (79, Some(1)), (80, None), (65535, None),
    ] {
        asked((minutes, values, 20, 10), limit, found);
    }
    asked((minutes, values, 25, 15), 65, Some(3));
    // One reading, alone in its window, and on the edge; two alike; none.
    asked((&[10], &[40], 10, 5), 40, Some(0));
    asked((&[10], &[40], 10, 5), 39, None);
    asked((&[10], &[40], 20, 10), 65535, None);
    asked((&[10, 10], &[40, 40], 10, 5), 40, None);
    asked((&[], &[], 10, 5), 65535, None);
    // Halves to the even number.
    asked((&[0, 0], &[2, 3], 0, 1), 2, Some(0));
    asked((&[0, 0, 0], &[2, 3, 3], 0, 1), 2, Some(1));
    // A position in the whole list, the run's last reading, readings on both edges.
    asked((&[0, 1, 50], &[9, 9, 4], 50, 5), 4, Some(2));
    asked((&[0, 1, 2], &[9, 9, 0], 1, 9), 6, Some(2));
    asked((&[5, 10, 15], &[9, 4, 9], 10, 5), 4, Some(1));
    // As many readings as there may be: none decides, the last, the first of two.
    let (full, ones) = ([65535; 1024], [1; 1024]);
    asked((&full, &ones, 65535, 65536), 1, None);
    asked((&full, &ones, 65535, 65536), 0, None);
    let (mut last, mut both) = (ones, ones);
    last[1023] = 514;
    asked((&full, &last, 65535, 65536), 1, Some(1023));
    both[0] = 512;
    both[1023] = 512;
    asked((&full, &both, 65535, 65536), 2, None);
    asked((&full, &both, 65535, 65536), 1, Some(0));
}

/// Each case has the fault of its report and the faults of those that come
/// later in the call's order.
#[rustfmt::skip]
fn decides_order(cases: &mut Cases) {
    let mut falling = vec![3; 1025];
    falling[1] = 2;
    let ones = [1; 1025];
    let mut refused = |mark, number, place| cases.decisive(mark, 65535, ANSWER).refused(number, place);

    refused((&falling, &[], 3, 0), 8, 0);
    refused((&[3], &[], 3, 5), 8, 0);
    refused((&falling, &ones, 3, 0), 6, 0);
    refused((&[3; 1025], &ones, 3, 5), 6, 0);
    refused((&falling[..3], &ones[..3], 3, 0), 4, 1);
    refused((&[1, 1, 0, 5, 4], &ones[..5], 3, 5), 4, 2);
    refused((&[3; 3], &ones[..3], 3, 0), 9, 0);
    refused((&[3; 3], &ones[..3], 3, 65537), 9, 0);
}

/// The lent list one short and long, alone and with other faults.
fn decides_lengths(cases: &mut Cases) {
    let (m, v, _, _) = SHEET;
    for answer in [0, 2, 8] {
        cases.decisive((m, v, 20, 10), 60, answer).refused(8, 0);
        cases.decisive((m, v, 20, 0), 60, answer).refused(8, 0);
        cases
            .decisive((&[2, 1, 3, 4], v, 20, 10), 60, answer)
            .refused(8, 0);
    }
}

/// A limit at one of the values of the sweep's rows or beside it, else any.
fn near_limit(random: &mut Random, lists: Lists) -> u16 {
    let (minutes, values, points, bandwidths) = lists;
    let mut rows = vec![0; ROW_WIDTH * points.len()];
    match sweep(minutes, values, points, bandwidths, &mut rows) {
        Ok(_) if random.chance(85) => {
            let value = rows[ROW_WIDTH * random.below(points.len()) + ROW_WIDTH - 1] as i64;
            (value + random.between(-1, 1)).clamp(0, 65_535) as u16
        }
        _ => random.pick(&[0, 1, 1000, 65_534, 65_535]),
    }
}

fn random_first(random: &mut Random, cases: &mut Cases) {
    let count = sample_count(random);
    let mut minutes = LISTS.ordered_minutes(random, count);
    let mut values = LISTS.some_values(random, count);
    let used = random.between(1, 7) as usize;
    let (mut points, mut bandwidths) = LISTS.fit_points(random, &minutes, used);
    while random.chance(20) {
        let at = random.below(used);
        match random.below(6) {
            0 | 1 => LISTS.damage_samples(random, &mut minutes, &mut values),
            2 => {
                bandwidths.pop();
            }
            3 if at + 1 < points.len() => points[at + 1] = points[at].saturating_sub(1),
            4 if at < bandwidths.len() => bandwidths[at] = LISTS.bad_bandwidth(random),
            _ if at < bandwidths.len() => bandwidths[at] = bandwidths[at].saturating_add(1),
            _ => {}
        }
    }
    let lists: Lists = (&minutes, &values, &points, &bandwidths);
    let limit = near_limit(random, lists);
    cases.first_at_most(lists, limit, length(random, ANSWER));
}

/// A limit at the value without one of the readings or beside it, else any.
fn near_other(random: &mut Random, mark: OneMark) -> u16 {
    let (minutes, values, point, bandwidth) = mark;
    let (mut fewer, mut others) = (minutes.to_vec(), values.to_vec());
    if minutes.len() == values.len() && !minutes.is_empty() {
        let at = random.below(minutes.len());
        fewer.remove(at);
        others.remove(at);
    }
    match one_mark(&fewer, &others, point, bandwidth) {
        Ok(row) if random.chance(85) => {
            let value = row[ROW_WIDTH - 1] as i64;
            (value + random.between(-1, 1)).clamp(0, 65_535) as u16
        }
        _ => random.pick(&[0, 1, 1000, 65_534, 65_535]),
    }
}

fn random_decides(random: &mut Random, cases: &mut Cases) {
    let count = sample_count(random);
    let mut minutes = LISTS.ordered_minutes(random, count);
    let mut values = LISTS.some_values(random, count);
    let point = some_point(random, &minutes);
    let mut bandwidth = LISTS.some_bandwidth(random, &minutes, point);
    while random.chance(15) {
        match random.below(3) {
            0 => bandwidth = LISTS.bad_bandwidth(random),
            _ => LISTS.damage_samples(random, &mut minutes, &mut values),
        }
    }
    let mark: OneMark = (&minutes, &values, point, bandwidth);
    let limit = near_other(random, mark);
    cases.decisive(mark, limit, length(random, ANSWER));
}

pub fn random_cases(random: &mut Random, cases: &mut Cases) {
    (0..120).for_each(|_| random_first(random, cases));
    (0..180).for_each(|_| random_decides(random, cases));
}
