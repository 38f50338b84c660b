//! Two tanks, and the runs that are handed back.

use crate::draws::{length, sample_count, LISTS};
use crate::files::Cases;
use crate::point::ONE_MARK;
use reference::exported::PARTING;
use reference::generators::lists::some_point;
use reference::generators::random::Random;
use reference::pair::Readings;
use reference::{MOST_MARKS, MOST_READINGS};

const NONE: Readings = (&[], &[]);

pub fn cases(cases: &mut Cases) {
    parting(cases);
    lagers(cases);
    order(cases);
    lengths(cases);
    windows(cases);
}

#[rustfmt::skip]
fn parting(cases: &mut Cases) {
    // Missing against present, both ways, and against missing.
    let some: Readings = (&[50], &[9]);
    cases.compare(some, NONE, &[50], &[1], PARTING).accepted(2, &[0, 0, 0]);
    cases.compare(NONE, some, &[50], &[1], PARTING).accepted(1, &[0, 0, 0]);
    cases.compare(NONE, NONE, &[50], &[1], PARTING).accepted(0, &[7; 3]);
    // A missing value over readings at the window's edge, and over none behind others.
    let edge: Readings = (&[3, 49], &[7, 9]);
    cases.compare(some, edge, &[50], &[1], PARTING).accepted(2, &[0, 1, 2]);
    cases.compare(edge, some, &[50], &[1], PARTING).accepted(1, &[0, 1, 2]);
    let before: Readings = (&[3, 4, 40], &[7, 9, 5]);
    cases.compare(some, before, &[50], &[1], PARTING).accepted(2, &[0, 3, 3]);
    // Values and not rows: twice the same reading; a greater weight and sum below a smaller value.
    let once: Readings = (&[20], &[60]);
    let twice: Readings = (&[20, 20], &[60, 60]);
    cases.compare(once, twice, &[20, 25], &[10, 15], PARTING).accepted(0, &[7; 3]);
    cases.compare((&[20, 20], &[50, 50]), once, &[20], &[10], PARTING).accepted(2, &[0, 0, 1]);
    cases.compare(once, (&[20, 20], &[50, 50]), &[20], &[10], PARTING).accepted(1, &[0, 0, 1]);
    // Rounded values that agree over sums that differ.
    cases.compare((&[0; 3], &[2, 2, 3]), (&[0; 3], &[2, 2, 2]), &[0], &[1], PARTING).accepted(0, &[7; 3]);
    // An equal front; the first difference decides, and later ones do not.
    let one: Readings = (&[10, 30, 50], &[5, 7, 3]);
    let two: Readings = (&[10, 30, 50], &[5, 6, 4]);
    cases.compare(one, two, &[10, 30, 50], &[5; 3], PARTING).accepted(1, &[1, 1, 2]);
    cases.compare(two, one, &[10, 30, 50], &[5; 3], PARTING).accepted(2, &[1, 1, 2]);
    // Other positions in the two lists.
    let late: Readings = (&[1, 2, 3, 50, 51], &[9, 9, 9, 3, 3]);
    cases.compare((&[50], &[2]), late, &[50], &[5], PARTING).accepted(2, &[0, 3, 5]);
    cases.compare(late, (&[50], &[2]), &[50], &[5], PARTING).accepted(1, &[0, 3, 5]);
    cases.compare((&[50], &[4]), late, &[50], &[5], PARTING).accepted(1, &[0, 0, 1]);
    // 0 against missing, and the greatest value against missing.
    cases.compare((&[50], &[0]), NONE, &[50], &[1], PARTING).accepted(2, &[0, 0, 0]);
    cases.compare((&[50], &[65535]), NONE, &[50], &[1], PARTING).accepted(2, &[0, 0, 0]);
    // The last of 512 marks.
    let points: Vec<u16> = (0..512).collect();
    cases.compare((&[511], &[9]), (&[511], &[8]), &points, &[1; 512], PARTING).accepted(1, &[511, 0, 1]);
    // As many readings as there may be.
    cases.compare((&[5; 1024], &[9; 1024]), (&[5; 1024], &[9; 1024]), &[5], &[65536], PARTING).accepted(0, &[7; 3]);
    cases.compare((&[5; 1024], &[8; 1024]), (&[5; 1024], &[9; 1024]), &[5], &[65536], PARTING).accepted(2, &[0, 0, 1024]);
}

/// The two lagers of `examples`, both ways, and each beside itself.
#[rustfmt::skip]
fn lagers(cases: &mut Cases) {
    let (minutes, even_fall, points, bandwidths) = sheet(include_bytes!("../../../../examples/even-fall.sheet"));
    let (others, afternoon, _, _) = sheet(include_bytes!("../../../../examples/afternoon.sheet"));
    let (one, two): (Readings, Readings) = ((&minutes, &even_fall), (&others, &afternoon));
    cases.compare(one, two, &points, &bandwidths, PARTING).accepted(1, &[9, 5, 10]);
    cases.compare(two, one, &points, &bandwidths, PARTING).accepted(2, &[9, 5, 10]);
    cases.compare(one, one, &points, &bandwidths, PARTING).accepted(0, &[7; 3]);
}

/// Kept readings, marks and half widths of a sheet.
fn sheet(bytes: &[u8]) -> (Vec<u16>, Vec<u16>, Vec<u16>, Vec<u32>) {
    let (mut m, mut v) = (vec![0; MOST_READINGS], vec![0; MOST_READINGS]);
    let (mut z, mut h) = (vec![0; MOST_MARKS], vec![0; MOST_MARKS]);
    let (kept, used) = reference::read(bytes, &mut m, &mut v, &mut z, &mut h).expect("a fit sheet");
    (
        m[..kept].into(),
        v[..kept].into(),
        z[..used].into(),
        h[..used].into(),
    )
}

/// Each case has the fault of its report and the faults of those that come
/// later in the call's order.
#[rustfmt::skip]
fn order(cases: &mut Cases) {
    let falling: Readings = (&[3, 2], &[1, 1]);
    let uneven: Readings = (&[3, 2], &[1]);
    let fit: Readings = (&[3], &[1]);
    let many = [3; 1025];
    let crowded: Readings = (&many, &many);
    let p = PARTING;
    cases.compare(uneven, uneven, &[], &[], p).refused(8, 0);
    cases.compare(falling, uneven, &[], &[0], p).refused(8, 0);
    cases.compare(crowded, uneven, &[], &[], p).refused(6, 0);
    cases.compare(falling, uneven, &[7; 513], &[0; 513], p).refused(6, 0);
    cases.compare(falling, uneven, &[], &[], p).refused(7, 0);
    cases.compare(fit, crowded, &[], &[], p).refused(7, 0);
    cases.compare(falling, uneven, &[7, 6, 8], &[5, 5, 0], p).refused(4, 1);
    cases.compare((&[1, 1, 5, 4], &[1; 4]), falling, &[7], &[5], p).refused(4, 3);
    cases.compare(fit, uneven, &[7, 8, 7], &[0, 9, 9], p).refused(5, 2);
    cases.compare(fit, falling, &[7, 6], &[9, 9], p).refused(5, 1);
    cases.compare(fit, uneven, &[7, 7, 7], &[1, 9, 0], p).refused(9, 2);
    cases.compare(fit, crowded, &[7], &[65537], p).refused(9, 0);
    cases.compare(fit, uneven, &[7, 7], &[1, 9], p).refused(10, 1);
    cases.compare(fit, falling, &[7, 7, 7], &[9, 9, 1], p).refused(10, 2);
    // The second tank: uneven both ways and crowded at 0, out of order at the later; uneven before the rest.
    cases.compare(fit, uneven, &[7], &[1], p).refused(16, 0);
    cases.compare(fit, (&[3], &[1, 1]), &[7], &[1], p).refused(16, 0);
    cases.compare(fit, crowded, &[7], &[1], p).refused(16, 0);
    cases.compare(fit, falling, &[7], &[1], p).refused(16, 1);
    cases.compare(fit, (&[1, 1, 5, 4, 3], &[1; 5]), &[7], &[1], p).refused(16, 3);
    cases.compare(fit, (&[1, 1, 5, 4, 3], &[1; 4]), &[7], &[1], p).refused(16, 0);
    cases.compare(falling, fit, &[7], &[1], p).refused(4, 1);
}

/// An out that is one short, one long or empty, alone and with other faults.
#[rustfmt::skip]
fn lengths(cases: &mut Cases) {
    let (one, two): (Readings, Readings) = ((&[50], &[9]), (&[50], &[8]));
    for out in [PARTING - 1, PARTING + 1, 0, 8] {
        cases.compare(one, two, &[50], &[1], out).refused(8, 0);
        cases.compare(one, (&[5, 4], &[1, 1]), &[50], &[1], out).refused(8, 0);
        cases.compare(one, two, &[50], &[0], out).refused(8, 0);
    }
}

/// The window's run as a part: accepted, empty and refused.
fn windows(cases: &mut Cases) {
    for (minutes, values, point, bandwidth, _) in ONE_MARK {
        cases.window_part(minutes, values, point, bandwidth);
    }
    let (minutes, values) = ([10, 20, 20, 35], [40, 60, 80, 20]);
    for (point, bandwidth) in [(20, 10), (25, 15), (60, 20), (0, 1), (20, 0), (35, 65536)] {
        cases.window_part(&minutes, &values, point, bandwidth);
    }
    cases.window_part(&[3, 2], &[1, 1], 3, 1);
    cases.window_part(&[3, 4], &[1], 3, 1);
    cases.window_part(&[5; 1024], &[9; 1024], 5, 1);
}

fn random_compare(random: &mut Random, cases: &mut Cases) {
    let count = sample_count(random);
    let mut minutes = LISTS.ordered_minutes(random, count);
    let mut values = LISTS.some_values(random, count);
    // The second tank is mostly the first with a few changes, so that they part late.
    let (mut others, mut other_values) = (minutes.clone(), values.clone());
    match random.below(6) {
        0 => {
            let count = sample_count(random);
            others = LISTS.ordered_minutes(random, count);
            other_values = LISTS.some_values(random, count);
        }
        1 => {}
        2 if count > 0 => {
            let at = random.below(count);
            others.insert(at, minutes[at]);
            other_values.insert(at, values[at]);
        }
        3 if count > 0 => {
            others.pop();
            other_values.pop();
        }
        _ if count > 0 => {
            let at = random.below(count);
            other_values[at] = other_values[at].wrapping_add(random.pick(&[1, 1, 9, 65_535]));
        }
        _ => {}
    }
    let used = random.between(1, 6) as usize;
    let (points, mut bandwidths) = LISTS.fit_points(random, &minutes, used);
    match random.below(12) {
        0 => LISTS.damage_samples(random, &mut minutes, &mut values),
        1 | 2 => LISTS.damage_samples(random, &mut others, &mut other_values),
        3 => bandwidths[used - 1] = LISTS.bad_bandwidth(random),
        _ => {}
    }
    let out = length(random, PARTING);
    let (first, second): (Readings, Readings) = ((&minutes, &values), (&others, &other_values));
    if random.chance(30) {
        cases.compare(second, first, &points, &bandwidths, out);
    }
    cases.compare(first, second, &points, &bandwidths, out);
}

fn random_window(random: &mut Random, cases: &mut Cases) {
    let count = sample_count(random);
    let minutes = LISTS.ordered_minutes(random, count);
    let values = LISTS.some_values(random, count);
    let point = some_point(random, &minutes);
    let bandwidth = LISTS.some_bandwidth(random, &minutes, point);
    cases.window_part(&minutes, &values, point, bandwidth);
}

pub fn random_cases(random: &mut Random, cases: &mut Cases) {
    (0..120).for_each(|_| random_compare(random, cases));
    (0..30).for_each(|_| random_window(random, cases));
}
