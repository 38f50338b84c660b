//! The sweep and the mark filler.

use crate::draws::{length, sample_count, LISTS};
use crate::files::Cases;
use crate::point::{GREATEST, HALVES, ONE_MARK};
use reference::generators::random::Random;
use reference::{KNOB, MISSING, ROW_WIDTH};

/// Readings, and marks with their half widths.
type Swept = (
    &'static [u16],
    &'static [u16],
    &'static [u16],
    &'static [u32],
);

pub fn cases(cases: &mut Cases) {
    published(cases);
    sweeps(cases);
    halves(cases);
    fillings(cases);
    order(cases);
    lengths(cases);
    previews(cases);
}

/// The cases C1 to C11, and the knob.
#[rustfmt::skip]
fn published(cases: &mut Cases) {
    let (m, v) = ([10, 20, 20, 35], [40, 60, 80, 20]);

    // C1, C2, C3.
    let rows = [0, 3, 200, 14000, 70, 0, 4, 525, 30500, 58, 4, 4, 0, 0, MISSING];
    cases.smooth(&m, &v, &[20, 25, 60], &[10, 15, 20], 3 * ROW_WIDTH).accepted(8, &rows);

    // C4 to C8.
    for (m, v, point, bandwidth, row) in ONE_MARK {
        cases.smooth(m, v, &[point], &[bandwidth], ROW_WIDTH).accepted(row[0] + row[1], &row);
    }

    // C9: a reading jumped over.
    let rows = [0, 0, 0, 0, MISSING, 1, 1, 0, 0, MISSING];
    cases.smooth(&[50], &[9], &[0, 100], &[1, 1], 2 * ROW_WIDTH).accepted(2, &rows);

    // C10, C11.
    let rows = [0, 0, 0, 0, MISSING, 0, 0, 0, 0, MISSING];
    cases.smooth(&[], &[], &[100, 101], &[10, 11], 2 * ROW_WIDTH).accepted(0, &rows);
    cases.smooth(&[], &[], &[100, 101], &[10, 12], 2 * ROW_WIDTH).refused(10, 1);

    // The knob, and one position more.
    for (position, &half) in (0..).zip(&KNOB) {
        let answer = cases.fill(100, 7, position, 3, 3);
        answer.accepted(0, &[100, 107, 114]);
        assert_eq!(answer.lists[1], [u64::from(half); 3]);
    }
    cases.fill(100, 7, 12, 3, 3).refused(12, 0);
}

#[rustfmt::skip]
fn halves(cases: &mut Cases) {
    for (values, row) in HALVES {
        cases.smooth(&vec![0; values.len()], values, &[0], &[1], ROW_WIDTH).accepted(row[1], &row);
    }
    // One down and one up.
    let (minutes, values) = ([0, 0, 9, 9], [2, 3, 3, 4]);
    let rows = [0, 2, 2, 5, 2, 2, 4, 2, 7, 4];
    cases.smooth(&minutes, &values, &[0, 9], &[1, 1], 2 * ROW_WIDTH).accepted(6, &rows);
}

/// The next drawn number, below 65,537.
fn next(x: u32) -> u32 {
    (x % 65_537 * 75 + 74) % 65_537
}

/// Minutes that rise by drawn steps of 0 to 63, and drawn values.
fn drawn_readings(seed: u32) -> (Vec<u16>, Vec<u16>) {
    let (mut x, mut minute) = (seed, 0u16);
    let mut readings = (Vec::new(), Vec::new());
    for _ in 0..1024 {
        x = next(x);
        if minute < 65_000 {
            minute += (x % 64) as u16;
        }
        readings.0.push(minute);
        x = next(x);
        readings.1.push((x % 65_536) as u16);
    }
    readings
}

#[rustfmt::skip]
fn sweeps(cases: &mut Cases) {
    // Two marks, fit and unfit.
    let pairs: [Swept; 7] = [
        (&[0, 3, 9], &[5, 6, 7], &[0, 1], &[10, 11]),
        (&[3, 2], &[5, 6], &[1, 0], &[1, 1]),
        (&[2, 3], &[5, 6], &[1, 0], &[0, 1]),
        (&[2, 3], &[5, 6], &[1, 1], &[1, 0]),
        (&[2, 3], &[5, 6], &[1, 1, 1], &[1, 1, 1]),
        (&[2], &[5, 6], &[1, 1], &[1, 1]),
        (&[65535; 3], &[65535; 3], &[0, 65535], &[65535, 65536]),
    ];
    for (minutes, values, points, bandwidths) in pairs {
        cases.smooth(minutes, values, points, bandwidths, 2 * ROW_WIDTH);
    }

    // A mark far below the readings, then one at the clock's end.
    cases.smooth(&[65534], &[157], &[3, 65535], &[1, 5], 2 * ROW_WIDTH);

    // 1,024 drawn readings, 64 marks a fixed spacing apart.
    for (seed, spacing, bandwidth) in [(1, 500, 30), (2, 500, 1440), (3, 7, 65536), (4, 0, 720), (5, 511, 1)] {
        let (minutes, values) = drawn_readings(seed);
        let points: Vec<u16> = (0..64).map(|k| k * spacing).collect();
        cases.smooth(&minutes, &values, &points, &[bandwidth; 64], 64 * ROW_WIDTH);
    }

    // 1,024 drawn readings, 512 drawn marks of which no edge falls.
    let (minutes, values) = drawn_readings(6);
    let (mut points, mut bandwidths) = (Vec::new(), Vec::new());
    let (mut x, mut mark, mut half) = (7, 0, 40);
    for _ in 0..512 {
        points.push(mark as u16);
        bandwidths.push(half as u32);
        x = next(x);
        let by = (x % 126) as i64;
        x = next(x);
        mark += by;
        half = (half + i64::from(x) % (2 * by + 1) - by).max(1);
    }
    let answer = cases.smooth(&minutes, &values, &points, &bandwidths, 512 * ROW_WIDTH);
    assert_eq!(answer.number, 0);

    // The greatest sum possible, 512 times.
    let readings = [65535; 1024];
    cases
        .smooth(&readings, &readings, &[65535; 512], &[65536; 512], 512 * ROW_WIDTH)
        .accepted(1024, &GREATEST.repeat(512));
}

#[rustfmt::skip]
fn fillings(cases: &mut Cases) {
    // Four marks, filled and swept over.
    let minutes = [0, 1440, 2880, 4320, 4380, 4440];
    let values = [12, 180, 640, 910, 870, 655];
    for (first, spacing, preset) in
        [(0, 1440, 0), (100, 30, 2), (65532, 1, 11), (65532, 2, 11), (4000, 0, 9), (0, 0, 12)]
    {
        let filled = cases.fill(first, spacing, preset, 4, 4);
        let points: Vec<u16> = filled.lists[0].iter().map(|&z| z as u16).collect();
        let bandwidths: Vec<u32> = filled.lists[1].iter().map(|&h| h as u32).collect();
        cases.smooth(&minutes, &values, &points, &bandwidths, 4 * ROW_WIDTH);
    }

    // Lists that do not agree, none at all, one mark too many.
    cases.fill(0, 0, 12, 2, 3).refused(8, 0);
    cases.fill(0, 0, 12, 0, 0).refused(7, 0);
    cases.fill(0, 0, 12, 513, 513).refused(6, 0);
    cases.fill(0, 0, 3, 513, 513).refused(6, 0);
    cases.fill(0, 1, 3, 1100, 1100).refused(6, 0);
    cases.fill(0, 1, 3, 0, 0).refused(7, 0);

    // 512 marks up to the clock's end and one minute over.
    cases.fill(127, 128, 3, 512, 512);
    cases.fill(128, 128, 4, 512, 512).refused(13, 0);
    cases.fill(65535, 0, 11, 512, 512);
    cases.fill(65535, 65535, 0, 1, 1).accepted(0, &[65535]);
    cases.fill(0, 65535, 11, 2, 2).accepted(0, &[0, 65535]);
    cases.fill(1, 65535, 11, 2, 2).refused(13, 0);
    cases.fill(65535, 1, 0, 2, 2).refused(13, 0);
    cases.fill(65535, 65535, 11, 512, 512).refused(13, 0);

    // Other positions over 11.
    for preset in [13, 255, 256, 65_536, 1 << 31, u32::MAX] {
        cases.fill(0, 1, preset, 1, 1).refused(12, 0);
    }
}

/// Each case has the fault of its report and the faults of those that come
/// later in the call's order.
#[rustfmt::skip]
fn order(cases: &mut Cases) {
    let mut falling = vec![3; 1025];
    falling[1] = 2;
    let ones = [1; 1025];
    let three = &falling[..3];

    // Sweep 8, 6, 7, 4, 5, 9, 10, lowest position each.
    cases.smooth(&falling, &[], &[], &[], 0).refused(8, 0);
    cases.smooth(three, &ones[..3], &[], &[0], 0).refused(8, 0);
    cases.smooth(three, &ones[..3], &[], &[], ROW_WIDTH).refused(8, 0);
    cases.smooth(&[], &[], &[5; 513], &[5; 513], 512 * ROW_WIDTH).refused(8, 0);
    cases.smooth(&falling, &ones, &[], &[], 0).refused(6, 0);
    cases.smooth(three, &ones[..3], &[5; 513], &[0; 513], 513 * ROW_WIDTH).refused(6, 0);
    cases.smooth(three, &ones[..3], &[], &[], 0).refused(7, 0);
    cases.smooth(&[], &[], &[], &[], 0).refused(7, 0);
    cases.smooth(three, &ones[..3], &[7, 6, 8], &[5, 5, 0], 3 * ROW_WIDTH).refused(4, 1);
    cases.smooth(&[1, 1, 0, 5, 4], &[1; 5], &[5], &[5], ROW_WIDTH).refused(4, 2);
    cases.smooth(&[3], &[1], &[7, 8, 7], &[0, 9, 9], 3 * ROW_WIDTH).refused(5, 2);
    cases.smooth(&[], &[], &[5, 6, 6, 4, 3], &[9; 5], 5 * ROW_WIDTH).refused(5, 3);
    cases.smooth(&[3], &[1], &[7, 7, 7], &[1, 9, 0], 3 * ROW_WIDTH).refused(9, 2);
    cases.smooth(&[], &[], &[5, 5, 5], &[5, 65537, 0], 3 * ROW_WIDTH).refused(9, 1);
    cases.smooth(&[3], &[1], &[7, 7, 7], &[1, 9, 1], 3 * ROW_WIDTH).refused(10, 1);
    cases.smooth(&[], &[], &[5, 6, 7, 9], &[5, 5, 7, 5], 4 * ROW_WIDTH).refused(10, 2);
    cases.smooth(&[], &[], &[5, 6], &[5, 3], 2 * ROW_WIDTH).refused(10, 1);
    cases.smooth(&[], &[], &[0, 1], &[65535, 65537], 2 * ROW_WIDTH).refused(9, 1);
    cases.smooth(&[], &[], &[0, 0], &[65535, 65536], 2 * ROW_WIDTH).refused(10, 1);

    // Filler 8, 7, 6, 12, 13; no list is empty and crowded.
    cases.fill(65535, 9, 12, 514, 513).refused(8, 0);
    cases.fill(65535, 9, 12, 0, 1).refused(8, 0);
    cases.fill(65535, 9, 12, 1, 0).refused(8, 0);
    cases.fill(65535, 9, 12, 0, 0).refused(7, 0);
    cases.fill(65535, 9, 12, 513, 513).refused(6, 0);
    cases.fill(65535, 9, 11, 513, 513).refused(6, 0);
    cases.fill(65535, 9, 12, 512, 512).refused(12, 0);
    cases.fill(65535, 9, 11, 512, 512).refused(13, 0);
}

/// Lent lists one short, one long and empty, alone and with other faults.
#[rustfmt::skip]
fn lengths(cases: &mut Cases) {
    let (m, v) = ([10, 20, 20, 35], [40, 60, 80, 20]);
    let falling = [10, 20, 19, 35];

    for rows in [3 * ROW_WIDTH - 1, 3 * ROW_WIDTH + 1, 0, 2 * ROW_WIDTH, 4 * ROW_WIDTH, 3] {
        cases.smooth(&m, &v, &[20, 25, 60], &[10, 15, 20], rows).refused(8, 0);
        cases.smooth(&falling, &v, &[20, 25, 60], &[10, 15, 20], rows).refused(8, 0);
        cases.smooth(&m, &v, &[20, 25, 24], &[10, 15, 20], rows).refused(8, 0);
        cases.smooth(&m, &v, &[20, 25, 60], &[10, 0, 20], rows).refused(8, 0);
        cases.smooth(&m, &v, &[20, 25, 60], &[10, 16, 20], rows).refused(8, 0);
    }
    for rows in [1, ROW_WIDTH] {
        cases.smooth(&m, &v, &[], &[], rows).refused(8, 0);
    }
    // Rows as many as the half widths want, or as the marks.
    cases.smooth(&m, &v, &[20, 25, 60], &[10, 15], 2 * ROW_WIDTH).refused(8, 0);
    cases.smooth(&m, &v, &[20, 25, 60], &[10, 15], 3 * ROW_WIDTH).refused(8, 0);
    cases.smooth(&m, &v, &[20, 25], &[10, 15, 20], 2 * ROW_WIDTH).refused(8, 0);
    cases.smooth(&m, &v, &[20, 25], &[10, 15, 20], 3 * ROW_WIDTH).refused(8, 0);
    for (points, bandwidths) in [(3, 4), (4, 3), (0, 4), (4, 0), (512, 511), (512, 513)] {
        cases.fill(5, 10, 3, points, bandwidths).refused(8, 0);
        cases.fill(5, 10, 12, points, bandwidths).refused(8, 0);
        cases.fill(65535, 10, 3, points, bandwidths).refused(8, 0);
    }
}

/// The preview at its limits and beside them, its reports in their order, and
/// what it accepts beside the sweep's rows.
#[rustfmt::skip]
fn previews(cases: &mut Cases) {
    let (m, v) = ([10, 20, 20, 35], [40, 60, 80, 20]);
    let rows = [0, 3, 200, 14000, 70, 0, 4, 525, 30500, 58, 4, 4, 0, 0, MISSING];
    cases.preview(&m, &v, &[20, 25, 60], &[10, 15, 20], 3 * ROW_WIDTH).accepted(8, &rows);

    // As many readings and marks as there may be, one fewer and one more.
    let (minutes, values) = drawn_readings(8);
    for (readings, marks) in [(0, 63), (0, 64), (0, 65), (255, 1), (256, 1), (257, 1), (256, 64), (257, 64), (256, 65)] {
        let points: Vec<u16> = (0..marks as u16).map(|k| 100 * k).collect();
        let bandwidths = vec![90; marks];
        let answer = cases.preview(&minutes[..readings], &values[..readings], &points, &bandwidths, marks * ROW_WIDTH);
        if readings > 256 || marks > 64 {
            answer.refused(6, 0);
        } else {
            let full = cases.smooth(&minutes[..readings], &values[..readings], &points, &bandwidths, marks * ROW_WIDTH);
            answer.accepted(full.detail, &full.lists[0]);
        }
    }

    // 8, 6, 7, 4, 5, 9, 10.
    let falling = [&[3, 2], &[3; 255][..]].concat();
    cases.preview(&[1; 257], &[1; 256], &[5], &[5], ROW_WIDTH).refused(8, 0);
    cases.preview(&[1; 256], &[1; 257], &[5], &[5], ROW_WIDTH).refused(8, 0);
    cases.preview(&[], &[], &[5; 65], &[5; 64], 65 * ROW_WIDTH).refused(8, 0);
    cases.preview(&[], &[], &[5; 65], &[5; 65], 64 * ROW_WIDTH).refused(8, 0);
    cases.preview(&falling, &[1; 257], &[], &[], 0).refused(6, 0);
    cases.preview(&falling[..2], &[1; 2], &[5; 65], &[0; 65], 65 * ROW_WIDTH).refused(6, 0);
    cases.preview(&falling[..2], &[1; 2], &[], &[], 0).refused(7, 0);
    cases.preview(&[], &[], &[], &[], 0).refused(7, 0);
    cases.preview(&falling[..256], &[1; 256], &[7, 6, 8], &[5, 5, 0], 3 * ROW_WIDTH).refused(4, 1);
    cases.preview(&[1, 1, 0], &[1; 3], &[5], &[5], ROW_WIDTH).refused(4, 2);
    cases.preview(&[3], &[1], &[7, 8, 7], &[0, 9, 9], 3 * ROW_WIDTH).refused(5, 2);
    cases.preview(&[], &[], &[5, 6, 6, 4, 3], &[9; 5], 5 * ROW_WIDTH).refused(5, 3);
    cases.preview(&[3], &[1], &[7, 7, 7], &[1, 9, 0], 3 * ROW_WIDTH).refused(9, 2);
    cases.preview(&[], &[], &[5, 5, 5], &[5, 65537, 0], 3 * ROW_WIDTH).refused(9, 1);
    cases.preview(&[3], &[1], &[7, 7, 7], &[1, 9, 1], 3 * ROW_WIDTH).refused(10, 1);
    cases.preview(&[], &[], &[5, 6], &[5, 3], 2 * ROW_WIDTH).refused(10, 1);
}

fn random_sweep(random: &mut Random, cases: &mut Cases) {
    let count = sample_count(random);
    let mut minutes = LISTS.ordered_minutes(random, count);
    let mut values = LISTS.some_values(random, count);
    let used = if random.chance(4) {
        0
    } else {
        random.between(1, 6) as usize
    };
    let (mut points, mut bandwidths) = LISTS.fit_points(random, &minutes, used);
    while random.chance(40) {
        let at = random.below(used);
        match random.below(9) {
            0 | 1 => LISTS.damage_samples(random, &mut minutes, &mut values),
            2 => {
                bandwidths.pop();
            }
            3 | 4 if at + 1 < points.len() => {
                points[at + 1] = points[at].saturating_sub(1);
            }
            5 | 6 if at < bandwidths.len() => bandwidths[at] = LISTS.bad_bandwidth(random),
            _ if at < bandwidths.len() => {
                bandwidths[at] = bandwidths[at]
                    .saturating_add(random.pick(&[1, 2]))
                    .min(65_536);
            }
            _ => {}
        }
    }
    let rows = if used == 0 {
        0
    } else {
        length(random, ROW_WIDTH * points.len())
    };
    cases.smooth(&minutes, &values, &points, &bandwidths, rows);
}

fn random_fill(random: &mut Random, cases: &mut Cases) {
    let points = match random.below(20) {
        0 => random.pick(&[511, 512]),
        1 => 513,
        2 => 0,
        3 => random.below(100),
        _ => random.between(1, 12) as usize,
    };
    let bandwidths = if points == 0 {
        0
    } else {
        length(random, points)
    };
    let first = if random.chance(50) {
        random.number() as u16
    } else {
        random.pick(&[0, 1, 30, 65_535])
    };
    let spacing = match random.below(5) {
        0 => 0,
        1 => random.number() as u16,
        // The last mark about the clock's end.
        2 | 3 => {
            let most = (65_535 - usize::from(first)) / (points.max(2) - 1);
            (most + random.below(2)).min(65_535) as u16
        }
        _ => random.below(120) as u16,
    };
    let preset = if random.chance(12) {
        random.pick(&[12, 13, u32::MAX])
    } else {
        random.below(12) as u32
    };
    cases.fill(first, spacing, preset, points, bandwidths);
}

pub fn random_cases(random: &mut Random, cases: &mut Cases) {
    (0..60).for_each(|_| random_sweep(random, cases));
    (0..50).for_each(|_| random_fill(random, cases));
}
