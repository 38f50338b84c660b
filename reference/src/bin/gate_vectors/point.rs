//! The question at one mark, the single step and the turn.

use crate::draws::{length, record, sample_count, LISTS};
use crate::files::Cases;
use reference::exported::{BOUNDS, RECORD};
use reference::generators::lists::some_point;
use reference::generators::random::Random;
use reference::{MISSING, ROW_WIDTH};

const FRESH: [u64; RECORD] = [0; RECORD];

/// Left, right, weight, sum and value.
type Row = [u64; ROW_WIDTH];

/// Readings, a mark and its half width, and the row.
type OneMark = (&'static [u16], &'static [u16], u16, u32, Row);

/// A tank sampled once a day, then four times in an afternoon.
const DAYS: [u16; 12] = [
    0, 1440, 2880, 4320, 5760, 7200, 8640, 9900, 9960, 10020, 10080, 11520,
];
const LEVELS: [u16; 12] = [12, 180, 640, 910, 870, 655, 430, 402, 118, 395, 97, 60];

/// C4 to C8.
#[rustfmt::skip]
pub const ONE_MARK: [OneMark; 5] = [
    // C4.
    (&[], &[], 5, 1, [0, 0, 0, 0, MISSING]),
    // C5: edge readings only are no error.
    (&[10], &[40], 20, 10, [0, 1, 0, 0, MISSING]),
    // C6: mark minus half width below 0.
    (&[0], &[50], 3, 10, [0, 1, 91, 4550, 50]),
    // C7.
    (&[0, 0], &[2, 3], 0, 1, [0, 2, 2, 5, 2]),
    // C8.
    (&[65535], &[65535], 65535, 65536, [0, 1, 4294967296, 281470681743360, 65535]),
];

/// Values of readings at minute 0, and the row at mark 0 and half width 1: at a half over even and odd numbers, and beside one.
#[rustfmt::skip]
pub const HALVES: [(&[u16], Row); 9] = [
    (&[0, 1], [0, 2, 2, 1, 0]),
    (&[1, 2], [0, 2, 2, 3, 2]),
    (&[65534, 65535], [0, 2, 2, 131069, 65534]),
    (&[1, 1, 1, 2], [0, 4, 4, 5, 1]),
    (&[1, 1, 2, 2], [0, 4, 4, 6, 2]),
    (&[1, 2, 2, 2], [0, 4, 4, 7, 2]),
    (&[2, 2, 2, 3], [0, 4, 4, 9, 2]),
    (&[2, 2, 3, 3], [0, 4, 4, 10, 2]),
    (&[2, 3, 3, 3], [0, 4, 4, 11, 3]),
];

/// The greatest sum possible.
pub const GREATEST: Row = [0, 1024, 1 << 42, (1 << 58) - (1 << 42), 65535];

pub fn cases(cases: &mut Cases) {
    published(cases);
    one_mark(cases);
    halves(cases);
    steps(cases);
    turns(cases);
    rows_of_records(cases);
    order(cases);
    lengths(cases);
}

/// The cases C1 to C9, and what the specification says of single numbers.
#[rustfmt::skip]
fn published(cases: &mut Cases) {
    let (m, v) = ([10, 20, 20, 35], [40, 60, 80, 20]);

    // C1, C2, C3.
    cases.point(&m, &v, 20, 10).accepted(0, &[0, 3, 200, 14000, 70]);
    cases.point(&m, &v, 25, 15).accepted(0, &[0, 4, 525, 30500, 58]);
    cases.point(&m, &v, 60, 20).accepted(0, &[4, 4, 0, 0, MISSING]);
    cases.steps(FRESH, &m, &v, &[(20, 10), (25, 15), (60, 20)]);

    for (m, v, point, bandwidth, row) in ONE_MARK {
        cases.point(m, v, point, bandwidth).accepted(0, &row);
        cases.steps(FRESH, m, v, &[(point, bandwidth)]);
    }

    // C9: a reading jumped over; letting go first would leave it in the sums.
    let record = cases.steps(FRESH, &[50], &[9], &[(0, 1), (100, 1)]);
    assert_eq!(record, [1, 1, 0, 0, 0, 0, 0, 0, 2]);

    // A reading on the right edge: the row is C5's, the sums are not 0.
    cases.point(&[30], &[40], 20, 10).accepted(0, &[0, 1, 0, 0, MISSING]);
    let record = cases.steps(FRESH, &[30], &[40], &[(20, 10)]);
    assert_eq!(record, [0, 1, 1, 30, 900, 40, 1200, 36000, 1]);

    cases.evaluate(&[65535; 1024], &[65535; 1024], 65535, 65536, ROW_WIDTH).accepted(0, &GREATEST);

    // A step neither checks order nor trusts the sums.
    let (m, v) = ([15, 3, 30, 10], [2, 7, 1, 1]);
    cases.steps(FRESH, &m, &v, &[(15, 5), (30, 18), (30, 10), (0, 1)]);
    let full = [0, 0, !0, !0, !0, !0, !0, !0, !0];
    let record = cases.steps(full, &[2], &[3], &[(2, 1)]);
    assert_eq!(record, [0, 1, 0, 1, 3, 2, 5, 11, 0]);
    let record = cases.steps([0, 1, 0, 0, 0, 0, 0, 0, 0], &[2], &[3], &[(9, 1)]);
    assert_eq!(record, [1, 1, !0, !1, !3, !2, !5, !11, 1]);

    // Refused steps leave the record.
    let (m, v) = ([1, 5, 5, 9, 40], [10, 20, 30, 40, 50]);
    let record = cases.steps(FRESH, &m, &v, &[(4, 2), (5, 0), (5, 2), (6, 65537), (30, 9)]);
    cases.advance(&record, &m, &v[1..], 31, 9).refused(8, 0);
    cases.steps([4, 4, 0, 0, 0, 0, 0, 0, 8], &m, &v, &[(40, 9), (65535, 1)]);
}

#[rustfmt::skip]
fn one_mark(cases: &mut Cases) {
    // Unfit readings.
    cases.point(&[1, 0], &[1], 0, 0).refused(8, 0);
    cases.point(&[5, 4, 3], &[1, 2, 3], 0, 0).refused(4, 1);
    cases.point(&[4, 5], &[1, 2], 0, 0).refused(9, 0);
    cases.point(&[4, 5], &[1, 2], 0, 65537).refused(9, 0);
    cases.point(&[4, 5], &[1, 2], 0, u32::MAX).refused(9, 0);
    cases.point(&[5, 5, 4, 3], &[1; 4], 5, 5).refused(4, 2);
    cases.point(&[], &[1], 5, 5).refused(8, 0);
    cases.point(&[1], &[1, 1], 5, 5).refused(8, 0);

    // As many readings as there may be, and one more.
    cases.window(&[9; 1024], &[9; 1024], 9, 9, BOUNDS).accepted(0, &[0, 1024]);
    cases.point(&[9; 1025], &[9; 1025], 9, 9).refused(6, 0);

    // Days.
    let marks = [
        (0, 30), (720, 720), (720, 719), (1440, 1440), (2000, 1440), (4320, 1440), (5000, 2880), (8640, 1260),
        (9960, 60), (9990, 31), (10000, 720), (10080, 1440), (11520, 1), (30000, 65536), (65535, 1440),
    ];
    for (point, bandwidth) in marks {
        cases.point(&DAYS, &LEVELS, point, bandwidth);
    }
}

fn halves(cases: &mut Cases) {
    for (values, row) in HALVES {
        cases
            .point(&vec![0; values.len()], values, 0, 1)
            .accepted(0, &row);
    }

    // At a half of the widest window, and as near to one as its weights come, over an even number and an odd one.
    for values in [
        [65532, 65533],
        [65533, 65532],
        [65533, 65534],
        [65534, 65533],
    ] {
        cases.point(&[0, 0], &values, 0, 65536);
        cases.point(&[0, 1], &values, 0, 65536);
    }
}

fn steps(cases: &mut Cases) {
    cases.steps(FRESH, &[50], &[9], &[(100, 1)]);
    let one = [0, 1, 0, 0, 0, 0, 0, 0, 1];
    cases.steps(one, &[3], &[2], &[(9, 1)]);
    cases.advance(&one, &[], &[], 9, 1).refused(11, 0);
    cases.steps(FRESH, &[1, 9, 1], &[1, 1, 1], &[(1, 1)]);
    cases.advance(&FRESH, &[1], &[1], 1, 0).refused(9, 0);
}

/// The record turned forth and back, from a step and from elsewhere; its row is then that of the question.
#[rustfmt::skip]
fn turns(cases: &mut Cases) {
    let (m, v) = ([10, 20, 20, 35], [40, 60, 80, 20]);
    let two = [2, 40, 800, 140, 2800, 56000];
    let four = [4, 85, 2125, 200, 3900, 84500];
    let mut record = cases.steps(FRESH, &m, &v, &[(20, 5)]);
    let expected = [
        ((20, 15), [0, 4], four, 6), ((20, 5), [1, 3], two, 8), ((60, 20), [4, 4], [0; 6], 12), ((20, 5), [1, 3], two, 16),
    ];
    for ((point, bandwidth), edges, sums, passes) in expected {
        let after = [&edges[..], &sums[..], &[passes]].concat();
        cases.turn(&record, &m, &v, point, bandwidth).accepted(0, &after);
        record = after;
        let five = cases.evaluate(&m, &v, point, bandwidth, ROW_WIDTH).lists[0].clone();
        cases.record_row(&record, point, bandwidth, ROW_WIDTH).accepted(0, &five);
    }
    // A refused turn leaves the record.
    cases.turn(&record, &m, &v, 20, 0).refused(9, 0);
    // Sums and passes of a record from elsewhere wrap.
    let full = [1, 3, 7, 0, 0, 0, 0, !0, !0];
    cases.turn(&full, &m, &v, 20, 15).accepted(0, &[0, 4, 9, 45, 1325, 60, 1100, 28499, 1]);
    // A step does not go back, a turn does.
    let ahead = cases.steps(FRESH, &m, &v, &[(35, 5), (20, 5)]);
    assert_eq!(ahead, [3, 4, 1, 35, 1225, 20, 700, 24500, 7]);
    cases.turn(&ahead, &m, &v, 20, 5);
    cases.turn(&ahead, &m, &v, 15, 1);
    // As many readings as there may be, all passed at once.
    let all = cases.turn(&FRESH, &[9; 1024], &[9; 1024], 9, 9).lists[0].clone();
    cases.turn(&all, &[9; 1024], &[9; 1024], 65535, 1);
}

/// A record's row: after each of C1 to C3 that of the question at the mark, and of records that no steps lead to.
#[rustfmt::skip]
fn rows_of_records(cases: &mut Cases) {
    let (m, v) = ([10, 20, 20, 35], [40, 60, 80, 20]);
    let mut record = FRESH.to_vec();
    for (point, bandwidth) in [(20, 10), (25, 15), (60, 20)] {
        let five = cases.evaluate(&m, &v, point, bandwidth, ROW_WIDTH).lists[0].clone();
        record = cases.advance(&record, &m, &v, point, bandwidth).lists[0].clone();
        cases.record_row(&record, point, bandwidth, ROW_WIDTH).accepted(0, &five);
    }
    for (point, bandwidth) in [(0, 0), (0, 1), (65535, 0), (65535, 65536), (1, u32::MAX), (65535, u32::MAX)] {
        for numbers in [FRESH, [!0; RECORD], [3, 1, 2, 0, 0, 5, 0, 0, 4], [0, 0, 1 << 63, 1 << 62, 1, !1, 7, !0, 9]] {
            cases.record_row(&numbers, point, bandwidth, ROW_WIDTH);
        }
    }
    // A half over an even number and over an odd one, and over a sum near 2^64.
    cases.record_row(&[0, 2, 2, 0, 0, 5, 0, 0, 2], 0, 1, ROW_WIDTH).accepted(0, &[0, 2, 2, 5, 2]);
    cases.record_row(&[0, 2, 2, 0, 0, 7, 0, 0, 2], 0, 1, ROW_WIDTH).accepted(0, &[0, 2, 2, 7, 4]);
    cases.record_row(&[0, 2, 2, 0, 0, !0, 0, 0, 2], 0, 1, ROW_WIDTH).accepted(0, &[0, 2, 2, !0, 1 << 63]);
    // Records and rows of another length.
    let numbers = [1, 2, 3, 4, 5, 6, 7, 8, 9, 10, 11, 12, 13, 14, 15, 16];
    for length in [RECORD - 1, RECORD + 1, 0, 1, 16] {
        cases.record_row(&numbers[..length], 20, 10, ROW_WIDTH).refused(8, 0);
    }
    for row in [ROW_WIDTH - 1, ROW_WIDTH + 1, 0, 8] {
        cases.record_row(&FRESH, 20, 10, row).refused(8, 0);
    }
}

/// Each case has the fault of its report and the faults of those that come
/// later in the call's order.
#[rustfmt::skip]
fn order(cases: &mut Cases) {
    let mut falling = vec![3; 1025];
    falling[1] = 2;
    let ones = [1; 1025];
    let three = &falling[..3];

    // One mark 8, 6, 4, 9; 8 first for the length of the row or the bounds.
    cases.evaluate(three, &ones[..3], 5, 0, ROW_WIDTH - 1).refused(8, 0);
    cases.window(three, &ones[..3], 5, 0, BOUNDS - 1).refused(8, 0);
    cases.point(&falling, &[], 5, 0).refused(8, 0);
    cases.point(&falling, &ones, 5, 0).refused(6, 0);
    cases.point(three, &ones[..3], 5, 0).refused(4, 1);
    cases.point(&[3; 3], &ones[..3], 5, 0).refused(9, 0);

    // Step 8, 6, 11, 9; 8 first for the length of the record.
    let foreign = [1, 0, 5, 5, 5, 5, 5, 5, 5];
    cases.advance(&foreign[..8], three, &ones[..3], 5, 0).refused(8, 0);
    cases.advance(&foreign, &ones, &[], 5, 0).refused(8, 0);
    cases.advance(&foreign, &ones, &ones, 5, 0).refused(6, 0);
    cases.advance(&FRESH, &ones, &ones, 5, 5).refused(6, 0);
    cases.advance(&foreign, three, &ones[..3], 5, 0).refused(11, 0);
    cases.advance(&FRESH, three, &ones[..3], 5, 0).refused(9, 0);

    // Turn 8, 6, 4, 11, 9; 8 first for the length of the record.
    cases.turn(&foreign[..8], three, &ones[..3], 5, 0).refused(8, 0);
    cases.turn(&foreign, &falling, &[], 5, 0).refused(8, 0);
    cases.turn(&foreign, &falling, &ones, 5, 0).refused(6, 0);
    cases.turn(&FRESH, &ones, &ones, 5, 5).refused(6, 0);
    cases.turn(&foreign, three, &ones[..3], 5, 0).refused(4, 1);
    cases.turn(&foreign, &[3; 3], &ones[..3], 5, 0).refused(11, 0);
    cases.turn(&FRESH, &[3; 3], &ones[..3], 5, 0).refused(9, 0);
    cases.turn(&FRESH, &[3; 3], &ones[..3], 5, 65537).refused(9, 0);
    cases.turn(&FRESH, &[5, 6, 4, 3], &ones[..4], 5, 5).refused(4, 2);

    // As many readings as there may be.
    let record = cases.steps(FRESH, &ones[..1024], &ones[..1024], &[(1, 1)]);
    assert_eq!(record, [0, 1024, 1024, 1024, 1024, 1024, 1024, 1024, 1024]);

    // Foreign records.
    for (left, right) in [
        (1, 0), (0, 2), (2, 2), (0, !0), (!0, 1), (!0, !0), (0, 1 << 32), (1 << 32, (1 << 32) + 1), (1 << 63, 1),
    ] {
        let record = [left, right, 5, 5, 5, 5, 5, 5, 5];
        cases.advance(&record, &[1], &[1], 5, 5).refused(11, 0);
        cases.turn(&record, &[1], &[1], 5, 5).refused(11, 0);
    }
    cases.steps([1, 1, 5, 5, 5, 5, 5, 5, 5], &[1], &[1], &[(5, 65536)]);
}

/// Lent lists one short, one long and empty, alone and with other faults.
#[rustfmt::skip]
fn lengths(cases: &mut Cases) {
    let (m, v) = ([10, 20, 20, 35], [40, 60, 80, 20]);
    let falling = [10, 20, 19, 35];

    for row in [ROW_WIDTH - 1, ROW_WIDTH + 1, 0, 8] {
        cases.evaluate(&m, &v, 20, 10, row).refused(8, 0);
        cases.evaluate(&m, &v, 20, 0, row).refused(8, 0);
        cases.evaluate(&falling, &v, 20, 10, row).refused(8, 0);
        cases.evaluate(&m, &v[1..], 20, 10, row).refused(8, 0);
    }
    for bounds in [BOUNDS - 1, BOUNDS + 1, 0, 8] {
        cases.window(&m, &v, 20, 10, bounds).refused(8, 0);
        cases.window(&m, &v, 20, 0, bounds).refused(8, 0);
        cases.window(&falling, &v, 20, 10, bounds).refused(8, 0);
        cases.window(&m, &v[1..], 20, 10, bounds).refused(8, 0);
    }
    let record = [1, 2, 3, 4, 5, 6, 7, 8, 9, 10, 11, 12, 13, 14, 15, 16];
    for length in [RECORD - 1, RECORD + 1, 0, 1, 16] {
        cases.advance(&record[..length], &m, &v, 20, 10).refused(8, 0);
        cases.advance(&record[..length], &m, &v, 20, 0).refused(8, 0);
        cases.advance(&record[..length], &[1], &[1], 20, 10).refused(8, 0);
        cases.advance(&record[..length], &m, &v[1..], 20, 10).refused(8, 0);
        cases.turn(&record[..length], &m, &v, 20, 10).refused(8, 0);
        cases.turn(&record[..length], &falling, &v, 20, 0).refused(8, 0);
    }
}

fn random_one_mark(random: &mut Random, cases: &mut Cases) {
    let count = sample_count(random);
    let mut minutes = LISTS.ordered_minutes(random, count);
    let mut values = LISTS.some_values(random, count);
    let mark = some_point(random, &minutes);
    let mut half = LISTS.some_bandwidth(random, &minutes, mark);
    while random.chance(20) {
        LISTS.damage_samples(random, &mut minutes, &mut values);
    }
    if random.chance(10) {
        half = LISTS.bad_bandwidth(random);
    }
    if random.chance(60) {
        cases.evaluate(&minutes, &values, mark, half, length(random, ROW_WIDTH));
    } else {
        cases.window(&minutes, &values, mark, half, length(random, BOUNDS));
    }
}

/// A step from a record of any origin over readings in any order.
fn random_step(random: &mut Random, cases: &mut Cases) {
    let count = sample_count(random);
    let mut minutes = LISTS.ordered_minutes(random, count);
    if random.chance(50) {
        minutes = (0..count).map(|_| random.below(100) as u16).collect();
    }
    let mut values = LISTS.some_values(random, count);
    let mark = some_point(random, &minutes);
    let mut half = LISTS.some_bandwidth(random, &minutes, mark);
    if random.chance(10) {
        LISTS.damage_samples(random, &mut minutes, &mut values);
    }
    if random.chance(10) {
        half = LISTS.bad_bandwidth(random);
    }
    let record = record(random, minutes.len());
    let length = length(random, RECORD).min(RECORD);
    cases.advance(&record[..length], &minutes, &values, mark, half);
}

/// Steps over the same readings, each with the record of the one before, some
/// refused. The first record is fresh and no edge falls, or neither.
fn random_steps(random: &mut Random, cases: &mut Cases) {
    let count = sample_count(random).max(2);
    let minutes = LISTS.ordered_minutes(random, count);
    let values = LISTS.some_values(random, count);
    let any = random.chance(30);
    let (mut points, mut bandwidths) = LISTS.fit_points(random, &minutes, 7);
    let mut running = FRESH.to_vec();
    if any {
        running = record(random, count).to_vec();
        for (point, bandwidth) in points.iter_mut().zip(&mut bandwidths) {
            *point = some_point(random, &minutes);
            *bandwidth = LISTS.some_bandwidth(random, &minutes, *point);
        }
    }
    for (point, bandwidth) in points.into_iter().zip(bandwidths) {
        let bandwidth = if random.chance(15) {
            LISTS.bad_bandwidth(random)
        } else {
            bandwidth
        };
        let fewer = usize::from(random.chance(10));
        let answer = cases.advance(&running, &minutes, &values[fewer..], point, bandwidth);
        running = answer.lists[0].clone();
    }
}

/// Turns with some steps between, over ordered readings that stay the same; the first record is fresh or of any origin, and some are refused.
fn random_turns(random: &mut Random, cases: &mut Cases) {
    let count = sample_count(random).max(2);
    let mut minutes = LISTS.ordered_minutes(random, count);
    let values = LISTS.some_values(random, count);
    let mut running = FRESH.to_vec();
    if random.chance(30) {
        running = record(random, count).to_vec();
    }
    if random.chance(10) {
        minutes.reverse();
    }
    for _ in 0..7 {
        let point = some_point(random, &minutes);
        let bandwidth = if random.chance(15) {
            LISTS.bad_bandwidth(random)
        } else {
            LISTS.some_bandwidth(random, &minutes, point)
        };
        let answer = if random.chance(75) {
            cases.turn(&running, &minutes, &values, point, bandwidth)
        } else {
            cases.advance(&running, &minutes, &values, point, bandwidth)
        };
        running = answer.lists[0].clone();
    }
}

pub fn random_cases(random: &mut Random, cases: &mut Cases) {
    (0..70).for_each(|_| random_one_mark(random, cases));
    (0..40).for_each(|_| random_step(random, cases));
    (0..10).for_each(|_| random_steps(random, cases));
    // Draws of their own, so that those of the cases behind stay.
    let random = &mut Random(19);
    (0..10).for_each(|_| random_turns(random, cases));
}
