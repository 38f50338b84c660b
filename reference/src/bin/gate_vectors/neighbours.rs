//! Half widths by neighbours.

use crate::calls::{length as lent, listed, wide, MOST_ELEMENTS, MOST_ROWS};
use crate::draws::{length, sample_count, LISTS};
use crate::files::{Answer, Cases};
use reference::generators::lists::fall;
use reference::generators::random::Random;
use reference::{neighbours, ROW_WIDTH};

/// Readings and marks.
type Lists<'a> = (&'a [u16], &'a [u16], &'a [u16]);

impl Cases {
    /// The call, with so many half widths and numbers of rows lent.
    pub fn neighbours(
        &mut self,
        (minutes, values, points): Lists,
        k: usize,
        bandwidths: usize,
        rows: usize,
    ) -> Answer {
        let mut numbers = listed(minutes, MOST_ELEMENTS);
        numbers.extend(listed(values, MOST_ELEMENTS));
        numbers.extend(listed(points, MOST_ELEMENTS));
        numbers.push(k as u64);
        numbers.push(lent(bandwidths, MOST_ELEMENTS));
        numbers.push(lent(rows, MOST_ROWS));
        self.case("neighbours", &numbers, b"");
        let (mut widths, mut list) = (vec![7; bandwidths], vec![7; rows]);
        let result = neighbours(minutes, values, points, k, &mut widths, &mut list);
        let lists = vec![wide(&widths), list];
        self.answer("neighbours", result.map(|()| 0), b"", lists)
    }

    /// The same, with as many of both as there are marks.
    fn fit(&mut self, lists: Lists, k: usize) -> Answer {
        let marks = lists.2.len();
        self.neighbours(lists, k, marks, ROW_WIDTH * marks)
    }
}

/// The published sheet's readings and marks.
const SHEET: Lists = (&[10, 20, 20, 35], &[40, 60, 80, 20], &[20, 25, 60]);

pub fn cases(cases: &mut Cases) {
    widths(cases);
    order(cases);
    lengths(cases);
}

#[rustfmt::skip]
fn widths(cases: &mut Cases) {
    for (k, bandwidths) in [(1, [1, 6, 26]), (2, [1, 6, 41]), (3, [11, 11, 41]), (4, [16, 16, 51])] {
        cases.fit(SHEET, k).accepted(0, &bandwidths);
    }
    // Equal minutes, all of them and some, on a mark and far from it.
    let far: Lists = (&[0, 0, 0, 10], &[1, 2, 3, 4], &[10]);
    cases.fit(far, 1).accepted(0, &[1]);
    for k in [2, 3, 4] {
        cases.fit(far, k).accepted(0, &[11]);
    }
    for k in [1, 2, 5] {
        cases.fit((&[7; 5], &[1, 2, 3, 4, 5], &[0, 7, 7, 9]), k).accepted(0, &[8, 1, 1, 3]);
    }
    // As wide as a half width comes, from both ends.
    cases.fit((&[65535], &[9], &[0]), 1).accepted(0, &[65536]);
    cases.fit((&[0], &[9], &[65535]), 1).accepted(0, &[65536]);
    cases.fit((&[0, 65535], &[9, 8], &[0, 32767, 32768, 65535]), 2).accepted(0, &[65536, 32769, 32769, 65536]);
    // Two readings as far as each other: either decides.
    for k in [1, 2] {
        cases.fit((&[10, 30], &[1, 2], &[20]), k).accepted(0, &[11]);
    }
    // As many readings and marks as there may be.
    let full = [65535; 1024];
    for k in [1, 1024] {
        cases.fit((&full, &full, &[65535; 512]), k).accepted(0, &[1; 512]);
    }
}

/// Each case has the fault of its report and the faults of those that come
/// later in the call's order.
#[rustfmt::skip]
fn order(cases: &mut Cases) {
    let mut falling = vec![3; 1025];
    falling[1] = 2;
    let ones = [1; 1025];
    let three = &falling[..3];
    let mut refused = |lists: Lists, k, bandwidths, rows, number, place| {
        cases.neighbours(lists, k, bandwidths, rows).refused(number, place);
    };

    // 8, 6, 7, 4, 5, 14, lowest position each.
    refused((&falling, &[], &[]), 0, 0, 0, 8, 0);
    refused((three, &ones[..3], &[7, 6]), 0, 1, 10, 8, 0);
    refused((three, &ones[..3], &[7, 6]), 0, 2, 9, 8, 0);
    refused((&falling, &ones, &[]), 0, 0, 0, 6, 0);
    refused((three, &ones[..3], &[5; 513]), 0, 513, 2565, 6, 0);
    refused((three, &ones[..3], &[]), 0, 0, 0, 7, 0);
    refused((&[], &[], &[]), 1, 0, 0, 7, 0);
    refused((three, &ones[..3], &[7, 6]), 0, 2, 10, 4, 1);
    refused((&[1, 1, 0, 5, 4], &ones[..5], &[5]), 1, 1, 5, 4, 2);
    refused((&[3], &[1], &[7, 8, 7]), 0, 3, 15, 5, 2);
    refused((&[], &[], &[7, 8, 7, 6]), 1, 4, 20, 5, 2);
    // K of 0, of one more than there are readings, and far over.
    for k in [0, 5, 6, 1024, usize::MAX] {
        refused(SHEET, k, 3, 15, 14, 0);
    }
    for k in [0, 1, 2] {
        refused((&[], &[], &[5]), k, 1, 5, 14, 0);
    }
}

/// The lent lists one short and long, alone and with other faults.
fn lengths(cases: &mut Cases) {
    for (bandwidths, rows) in [(2, 15), (4, 15), (3, 14), (3, 16), (0, 0), (15, 3)] {
        cases.neighbours(SHEET, 2, bandwidths, rows).refused(8, 0);
        cases.neighbours(SHEET, 0, bandwidths, rows).refused(8, 0);
    }
}

/// A K of 1, of all readings, of one more, or any.
fn some_k(random: &mut Random, count: usize) -> usize {
    match random.below(8) {
        0 => 1,
        1 => count,
        2 => count + 1,
        3 => 0,
        _ => random.below(count + 2),
    }
}

fn random_case(random: &mut Random, cases: &mut Cases) {
    let count = sample_count(random);
    let mut minutes = LISTS.ordered_minutes(random, count);
    let mut values = LISTS.some_values(random, count);
    let used = random.between(1, 7) as usize;
    let (mut points, _) = LISTS.fit_points(random, &minutes, used);
    while random.chance(12) {
        match random.below(3) {
            0 | 1 => LISTS.damage_samples(random, &mut minutes, &mut values),
            _ => fall(random, &mut points),
        }
    }
    let k = some_k(random, minutes.len());
    let bandwidths = length(random, points.len());
    let rows = length(random, ROW_WIDTH * points.len());
    cases.neighbours((&minutes, &values, &points), k, bandwidths, rows);
}

/// Drawn apart from the cases of the other calls.
pub fn random_cases(cases: &mut Cases) {
    let random = &mut Random(15);
    (0..160).for_each(|_| random_case(random, cases));
}
