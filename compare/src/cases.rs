//! The cases of each call: small ones all together, those at the limits, every set of faults, and
//! random ones from a fixed seed.

use crate::calls::Calls;
use crate::lists::{any_minutes, near_half, sample_count, LISTS};
use crate::sheets;
use reference::exported::{BOUNDS, READER, RECORD};
use reference::generators::lists::{fall, rearranged, some_point};
use reference::generators::random::Random;
use reference::generators::sheets::feed_sheets;
use reference::{
    Record, MOST_MARKS, MOST_OUTPUT, MOST_READINGS, PREVIEW_MARKS, PREVIEW_READINGS, ROW_WIDTH,
};

type Found = Result<(), String>;

/// Bandwidths at the limits, beside them, and such that cut to fewer bits would be in range.
pub const BANDWIDTHS: [u32; 12] = [
    0,
    1,
    2,
    65_535,
    65_536,
    65_537,
    65_538,
    0x0002_0001,
    0x0100_0001,
    0x8000_0001,
    0xffff_0001,
    u32::MAX,
];

/// How many samples: none, few, at the limit, beside it, and such that cut to 16 bits would be fit.
pub const SAMPLES: [usize; 10] = [0, 1, 2, 1023, 1024, 1025, 1026, 2048, 65_536, 66_560];

/// All lists of at most `most` numbers below `end`.
pub fn small_lists(most: usize, end: u16) -> Vec<Vec<u16>> {
    let mut lists = vec![Vec::new()];
    let mut last = lists.clone();
    for _ in 0..most {
        let longer = |list: &Vec<u16>| -> Vec<Vec<u16>> {
            (0..end)
                .map(|number| [&list[..], &[number]].concat())
                .collect()
        };
        last = last.iter().flat_map(longer).collect();
        lists.extend(last.clone());
    }
    lists
}

/// Lengths of a list that should have `length` elements, 2 or more: others than that.
pub fn wrong_lengths(length: usize) -> [usize; 5] {
    [0, length - 1, length + 1, 2 * length, length + 65_536]
}

// ------------------------------------------------------------------ one point

fn both(calls: &mut Calls, minutes: &[u16], values: &[u16], point: u16, bandwidth: u32) -> Found {
    calls.evaluate(minutes, values, point, bandwidth, ROW_WIDTH)?;
    calls.window(minutes, values, point, bandwidth, BOUNDS)
}

pub fn evaluate_and_window(calls: &mut Calls) -> Found {
    let random = &mut Random(2);
    for minutes in small_lists(3, 5) {
        for point in 0..5 {
            for bandwidth in 0..6 {
                both(
                    calls,
                    &minutes,
                    &[2, 3, 7][..minutes.len()],
                    point,
                    bandwidth,
                )?;
            }
        }
    }
    for count in SAMPLES {
        for bandwidth in BANDWIDTHS {
            for point in [0, 1, 32_767, 65_534, 65_535] {
                let minutes = LISTS.ordered_minutes(random, count);
                let values = LISTS.some_values(random, count);
                both(calls, &minutes, &values, point, bandwidth)?;
            }
        }
    }
    // Every set of the faults 8, 6, 4, 9.
    for faults in 0..16 {
        let count = if faults & 2 == 0 { 1024 } else { 1025 };
        let mut minutes = LISTS.ordered_minutes(random, count);
        let values = LISTS.some_values(random, count - faults % 2);
        if faults & 4 != 0 {
            fall(random, &mut minutes);
        }
        let bandwidth = if faults & 8 == 0 { 65_536 } else { 65_537 };
        both(calls, &minutes, &values, 40_000, bandwidth)?;
        // With a row or bounds of a wrong length besides.
        for length in wrong_lengths(ROW_WIDTH) {
            calls.evaluate(&minutes, &values, 40_000, bandwidth, length)?;
        }
        for length in wrong_lengths(BOUNDS) {
            calls.window(&minutes, &values, 40_000, bandwidth, length)?;
        }
    }
    // A fall at each position of a short list and at the ends of a full one.
    for (count, positions) in [(9, (1..9).collect()), (1024, vec![1, 2, 511, 1022, 1023])] {
        for position in positions {
            let mut minutes: Vec<u16> = (0..count).map(|i| 100 + i).collect();
            minutes[position] = 99;
            both(
                calls,
                &minutes,
                &LISTS.some_values(random, count.into()),
                105,
                3,
            )?;
        }
    }
    for turn in 0..500 {
        let (minutes, values, point, bandwidth) = near_half(random, turn);
        both(calls, &minutes, &values, point, bandwidth)?;
    }
    for _ in 0..60_000 {
        let count = sample_count(random);
        let mut minutes = LISTS.ordered_minutes(random, count);
        let mut values = LISTS.some_values(random, count);
        let point = some_point(random, &minutes);
        let mut bandwidth = LISTS.some_bandwidth(random, &minutes, point);
        while random.chance(20) {
            LISTS.damage_samples(random, &mut minutes, &mut values);
        }
        if random.chance(12) {
            bandwidth = LISTS.bad_bandwidth(random);
        }
        both(calls, &minutes, &values, point, bandwidth)?;
        if random.chance(5) {
            let row_len = random.pick(&wrong_lengths(ROW_WIDTH));
            calls.evaluate(&minutes, &values, point, bandwidth, row_len)?;
            let bounds_len = random.pick(&wrong_lengths(BOUNDS));
            calls.window(&minutes, &values, point, bandwidth, bounds_len)?;
        }
    }
    Ok(())
}

// ----------------------------------------------------------- the running sums

fn some_sums(random: &mut Random) -> [u64; 6] {
    std::array::from_fn(|_| match random.below(5) {
        0 => 0,
        1 => random.below(1000) as u64,
        2 => u64::MAX - random.below(1000) as u64,
        3 => u64::MAX,
        _ => random.number(),
    })
}

/// A record that is valid for a list of `count` samples.
fn valid_record(random: &mut Random, count: usize) -> Record {
    let right = random.below(count + 1);
    let left = random.below(right + 1);
    Record {
        left: left as u64,
        right: right as u64,
        sums: some_sums(random),
        passes: some_sums(random)[0],
    }
}

/// Left and right out of order, beyond the list, or of any kind.
fn damage_record(random: &mut Random, record: &mut Record, count: usize) {
    match random.below(7) {
        0 => record.left = record.right + 1,
        1 => record.right = count as u64 + 1,
        2 => (record.left, record.right) = (count as u64 + 1, count as u64 + 1),
        3 => record.right = u64::MAX,
        4 => record.left = u64::MAX,
        5 => record.right |= 1 << random.between(11, 63),
        _ => (record.left, record.right) = (random.number(), random.number()),
    }
}

pub fn advance(calls: &mut Calls) -> Found {
    let random = &mut Random(3);
    // All small records over all small lists.
    for minutes in small_lists(3, 4) {
        let values = &[2, 3, 7][..minutes.len()];
        for point in 0..4 {
            for bandwidth in 0..4 {
                for left in 0..5 {
                    for right in 0..5 {
                        let record = Record {
                            left,
                            right,
                            sums: some_sums(random),
                            passes: some_sums(random)[0],
                        };
                        calls.advance(record, &minutes, values, point, bandwidth)?;
                        calls.turn(record, &minutes, values, point, bandwidth)?;
                    }
                }
            }
        }
    }
    for count in SAMPLES {
        for bandwidth in BANDWIDTHS {
            for right in [0, 1, 1023, 1024, 1025, 1026, u64::MAX] {
                let minutes = LISTS.ordered_minutes(random, count);
                let values = LISTS.some_values(random, count);
                let point = some_point(random, &minutes);
                let record = Record {
                    left: 0,
                    right,
                    sums: some_sums(random),
                    passes: some_sums(random)[0],
                };
                calls.advance(record, &minutes, &values, point, bandwidth)?;
                calls.turn(record, &minutes, &values, point, bandwidth)?;
            }
        }
    }
    // Every set of the faults 8, 6, 11, 9, also with a record of a wrong length.
    for faults in 0..16 {
        let count = if faults & 2 == 0 { 1024 } else { 1025 };
        let minutes = any_minutes(random, count);
        let values = LISTS.some_values(random, count - faults % 2);
        let mut record = valid_record(random, 1024);
        if faults & 4 != 0 {
            record.left = record.right + 1;
        }
        let bandwidth = if faults & 8 == 0 { 65_536 } else { 65_537 };
        calls.advance(record, &minutes, &values, 40_000, bandwidth)?;
        for length in wrong_lengths(RECORD) {
            calls.advance_wrong_length(length, &minutes, &values, 40_000, bandwidth)?;
        }
    }
    for _ in 0..4_000 {
        steps(calls, random)?;
    }
    for _ in 0..60_000 {
        step_of_any_origin(calls, random)?;
    }
    Ok(())
}

/// Steps and turns over the same samples; the small and the large lists of the step are those of the turn too.
pub fn turn(calls: &mut Calls) -> Found {
    let random = &mut Random(12);
    // Every set of the faults 8, 6, 4, 11, 9, also with a record of a wrong length.
    for faults in 0..32 {
        let count = if faults & 2 == 0 { 1024 } else { 1025 };
        let mut minutes = LISTS.ordered_minutes(random, count);
        if faults & 4 != 0 {
            minutes[count - 1] = 0;
            minutes[count - 2] = 1;
        }
        let values = LISTS.some_values(random, count - faults % 2);
        let mut record = valid_record(random, 1024);
        if faults & 8 != 0 {
            record.left = record.right + 1;
        }
        let bandwidth = if faults & 16 == 0 { 65_536 } else { 65_537 };
        calls.turn(record, &minutes, &values, 40_000, bandwidth)?;
        for length in wrong_lengths(RECORD) {
            calls.turn_wrong_length(length, &minutes, &values, 40_000, bandwidth)?;
        }
    }
    for _ in 0..4_000 {
        turns(calls, random)?;
    }
    for _ in 0..20_000 {
        turn_of_any_origin(calls, random)?;
    }
    Ok(())
}

/// From a fresh record over ordered samples: after each accepted turn the record's edges and sums are those of
/// a fresh one turned there, and its row is that of the question at one mark. From any valid record, what the
/// second implementation says.
fn turns(calls: &mut Calls, random: &mut Random) -> Found {
    let count = sample_count(random);
    let minutes = LISTS.ordered_minutes(random, count);
    let values = LISTS.some_values(random, count);
    let reached = random.chance(80);
    let mut record = if reached {
        Record::default()
    } else {
        valid_record(random, count)
    };
    for _ in 0..random.between(1, 12) {
        let point = some_point(random, &minutes);
        let mut bandwidth = LISTS.some_bandwidth(random, &minutes, point);
        if random.chance(10) {
            bandwidth = LISTS.bad_bandwidth(random);
        }
        if random.chance(30) {
            record = calls.advance(record, &minutes, &values, point, bandwidth)?;
            continue;
        }
        record = calls.turn(record, &minutes, &values, point, bandwidth)?;
        let fresh = reference::turn(Record::default(), &minutes, &values, point, bandwidth);
        if let (true, Ok(fresh)) = (reached, fresh) {
            calls.row(record, point, bandwidth, RECORD, ROW_WIDTH)?;
            let direct = reference::one_mark(&minutes, &values, point, bandwidth);
            let same = Record {
                passes: fresh.passes,
                ..record
            };
            if same != fresh || direct != Ok(reference::record_row(record, point, bandwidth)) {
                return Err(format!(
                    "turn: {record:?} at {point}, {bandwidth} is not {fresh:?}, {direct:?}"
                ));
            }
        }
    }
    Ok(())
}

fn turn_of_any_origin(calls: &mut Calls, random: &mut Random) -> Found {
    let count = sample_count(random);
    let mut minutes = LISTS.ordered_minutes(random, count);
    let mut values = LISTS.some_values(random, count);
    let point = some_point(random, &minutes);
    let mut bandwidth = LISTS.some_bandwidth(random, &minutes, point);
    if random.chance(10) {
        LISTS.damage_samples(random, &mut minutes, &mut values);
    }
    if random.chance(10) {
        bandwidth = LISTS.bad_bandwidth(random);
    }
    let mut record = valid_record(random, minutes.len());
    if random.chance(15) {
        damage_record(random, &mut record, minutes.len());
    }
    calls.turn(record, &minutes, &values, point, bandwidth)?;
    Ok(())
}

/// Records of any origin and those of steps, at any point and with any bandwidth; where the record is that
/// of the point's window, the row is also that of the question at one mark.
pub fn row(calls: &mut Calls) -> Found {
    let random = &mut Random(9);
    for _ in 0..20_000 {
        let record = Record {
            left: some_sums(random)[0],
            right: some_sums(random)[1],
            sums: some_sums(random),
            passes: some_sums(random)[0],
        };
        let point = some_point(random, &[]);
        let bandwidth = match random.below(3) {
            0 => some_sums(random)[2] as u32,
            1 => random.pick(&[0, 1, 65_535, 65_536, 65_537, u32::MAX - 1, u32::MAX]),
            _ => u32::from(point) + random.below(3) as u32,
        };
        calls.row(record, point, bandwidth, RECORD, ROW_WIDTH)?;
        if random.chance(2) {
            let record_len = random.pick(&wrong_lengths(RECORD));
            let row_len = random.pick(&wrong_lengths(ROW_WIDTH));
            calls.row(record, point, bandwidth, record_len, ROW_WIDTH)?;
            calls.row(record, point, bandwidth, RECORD, row_len)?;
            calls.row(record, point, bandwidth, record_len, row_len)?;
        }
    }
    for _ in 0..2_000 {
        let count = sample_count(random);
        let minutes = LISTS.ordered_minutes(random, count);
        let values = LISTS.some_values(random, count);
        let (points, bandwidths) = LISTS.fit_points(random, &minutes, 10);
        let mut record = Record::default();
        for (&point, &bandwidth) in points.iter().zip(&bandwidths) {
            record = calls.advance(record, &minutes, &values, point, bandwidth)?;
            calls.row(record, point, bandwidth, RECORD, ROW_WIDTH)?;
            let direct = reference::one_mark(&minutes, &values, point, bandwidth);
            if direct != Ok(reference::record_row(record, point, bandwidth)) {
                return Err(format!(
                    "row: {record:?} at {point}, {bandwidth} is not {direct:?}"
                ));
            }
        }
    }
    Ok(())
}

/// Steps over the same samples, refused ones among them: from a fresh record with edges that never
/// fall, or from any valid one with points anywhere.
fn steps(calls: &mut Calls, random: &mut Random) -> Found {
    let count = sample_count(random);
    let ordered = random.chance(70);
    let minutes = if ordered {
        LISTS.ordered_minutes(random, count)
    } else {
        any_minutes(random, count)
    };
    let values = LISTS.some_values(random, count);
    let length = random.between(1, 25) as usize;
    let (points, bandwidths) = LISTS.fit_points(random, &minutes, length);
    let mut record = if ordered {
        Record::default()
    } else {
        valid_record(random, count)
    };
    for k in 0..length {
        let (point, bandwidth) = if ordered {
            (points[k], bandwidths[k])
        } else {
            let point = some_point(random, &minutes);
            (point, LISTS.some_bandwidth(random, &minutes, point))
        };
        record = match random.below(20) {
            0 => calls.advance(
                record,
                &minutes,
                &values,
                point,
                LISTS.bad_bandwidth(random),
            )?,
            1 => calls.advance(
                record,
                &minutes,
                &[&values[..], &[7]].concat(),
                point,
                bandwidth,
            )?,
            2 => calls.advance(record, &[9; 1025], &[9; 1025], point, bandwidth)?,
            3 => {
                let record_len = random.pick(&wrong_lengths(RECORD));
                calls.advance_wrong_length(record_len, &minutes, &values, point, bandwidth)?;
                record
            }
            _ => calls.advance(record, &minutes, &values, point, bandwidth)?,
        };
    }
    Ok(())
}

fn step_of_any_origin(calls: &mut Calls, random: &mut Random) -> Found {
    let count = sample_count(random);
    let mut minutes = if random.chance(50) {
        LISTS.ordered_minutes(random, count)
    } else {
        any_minutes(random, count)
    };
    let mut values = LISTS.some_values(random, count);
    let point = some_point(random, &minutes);
    let mut bandwidth = LISTS.some_bandwidth(random, &minutes, point);
    if random.chance(10) {
        LISTS.damage_samples(random, &mut minutes, &mut values);
    }
    if random.chance(10) {
        bandwidth = LISTS.bad_bandwidth(random);
    }
    let mut record = valid_record(random, minutes.len());
    if random.chance(15) {
        damage_record(random, &mut record, minutes.len());
    }
    calls.advance(record, &minutes, &values, point, bandwidth)?;
    Ok(())
}

// ------------------------------------------------------------------ the sweep

pub fn smooth(calls: &mut Calls) -> Found {
    let random = &mut Random(4);
    for minutes in small_lists(2, 4) {
        for points in small_lists(2, 4) {
            for widths in small_lists(points.len(), 4)
                .iter()
                .filter(|w| w.len() == points.len())
            {
                let bandwidths: Vec<u32> = widths.iter().map(|&width| width.into()).collect();
                let values = &[2, 3][..minutes.len()];
                calls.smooth(
                    &minutes,
                    values,
                    &points,
                    &bandwidths,
                    ROW_WIDTH * points.len(),
                )?;
            }
        }
    }
    for count in SAMPLES {
        for used in [0, 1, 511, 512, 513, 514, 65_536, 65_537] {
            let minutes = LISTS.ordered_minutes(random, count);
            let values = LISTS.some_values(random, count);
            let (points, bandwidths) = LISTS.fit_points(random, &minutes, used);
            calls.smooth(&minutes, &values, &points, &bandwidths, ROW_WIDTH * used)?;
        }
    }
    for bandwidth in BANDWIDTHS {
        for at in 0..4 {
            let mut bandwidths = [65_535, 65_535, 65_536, 65_536];
            bandwidths[at] = bandwidth;
            calls.smooth(&[9, 9], &[4, 5], &[7, 7, 8, 8], &bandwidths, 4 * ROW_WIDTH)?;
        }
    }
    let full = (MOST_READINGS, MOST_MARKS);
    sweep_faults(calls, random, Calls::smooth, full)?;
    for turn in 0..500 {
        let (minutes, values, point, bandwidth) = near_half(random, turn);
        let points = [point, point + 1];
        calls.smooth(&minutes, &values, &points, &[bandwidth; 2], 2 * ROW_WIDTH)?;
    }
    for _ in 0..25_000 {
        let count = sample_count(random);
        let used = match random.below(100) {
            0 => 512,
            1 => 511,
            2 => 0,
            3 => random.below(512),
            _ => random.between(1, 12) as usize,
        };
        some_sweep(calls, random, Calls::smooth, (count, used))?;
    }
    Ok(())
}

/// The preview at its limits and beside them, at those of the sweep, every set of faults, and random ones.
pub fn preview(calls: &mut Calls) -> Found {
    let random = &mut Random(10);
    for minutes in small_lists(2, 3) {
        for points in small_lists(2, 3) {
            for width in 0..4 {
                let bandwidths = vec![width; points.len()];
                let (values, rows) = (&[2, 3][..minutes.len()], ROW_WIDTH * points.len());
                calls.preview(&minutes, values, &points, &bandwidths, rows)?;
            }
        }
    }
    for count in [0, 1, 255, 256, 257, 258, 512, 1024, 1025, 65_536, 65_792] {
        for used in [0, 1, 63, 64, 65, 66, 256, 512, 513, 65_536, 65_600] {
            let minutes = LISTS.ordered_minutes(random, count);
            let values = LISTS.some_values(random, count);
            let (points, bandwidths) = LISTS.fit_points(random, &minutes, used);
            calls.preview(&minutes, &values, &points, &bandwidths, ROW_WIDTH * used)?;
            // Uneven, where one list alone is over its limit.
            calls.preview(&minutes, &[], &points, &bandwidths, ROW_WIDTH * used)?;
            calls.preview(&minutes, &values, &points, &bandwidths, ROW_WIDTH * 64)?;
        }
    }
    let small = (PREVIEW_READINGS, PREVIEW_MARKS);
    sweep_faults(calls, random, Calls::preview, small)?;
    for _ in 0..15_000 {
        let count = match random.below(20) {
            0 => random.pick(&[255, 256, 257, 258]),
            1 => random.below(256),
            _ => sample_count(random),
        };
        let used = match random.below(30) {
            0 => random.pick(&[63, 64, 65, 66]),
            1 => random.below(64),
            2 => 0,
            _ => random.between(1, 12) as usize,
        };
        some_sweep(calls, random, Calls::preview, (count, used))?;
    }
    Ok(())
}

/// Readings of few minutes, mostly in order, with their values in other places of equal minute.
pub fn every_curve(calls: &mut Calls) -> Found {
    let random = &mut Random(11);
    for turn in 0..12_000 {
        let count = match random.below(50) {
            0 => random.pick(&[255, 256, 257, 1023, 1024]),
            _ => random.below(40),
        };
        let clock = random.pick(&[1, 2, 5, 20, 200]);
        let start = random.pick(&[0, 1000, 65_536 - clock]);
        let mut minutes: Vec<u16> = (0..count)
            .map(|_| (start + random.below(clock)) as u16)
            .collect();
        if random.chance(95) {
            minutes.sort_unstable();
        }
        let values = LISTS.some_values(random, count);
        let moved = rearranged(random, &minutes, &values);
        let used = random.between(1, 6) as usize;
        let (points, mut bandwidths) = LISTS.fit_points(random, &minutes, used);
        if turn % 40 == 0 {
            bandwidths[used - 1] = LISTS.bad_bandwidth(random);
        }
        calls.every_curve(&minutes, &values, &moved, &points, &bandwidths)?;
    }
    Ok(())
}

/// The sweep or the preview.
type Swept = fn(&mut Calls, &[u16], &[u16], &[u16], &[u32], usize) -> Found;

/// Every set of faults: uneven samples, uneven points, rows of a wrong length, too many samples, too
/// many points, no points, a sample, a point or a bandwidth out of order or range, a falling edge.
fn sweep_faults(
    calls: &mut Calls,
    random: &mut Random,
    call: Swept,
    (most_samples, most_points): (usize, usize),
) -> Found {
    for faults in 0..1024 {
        let has = |fault: u32| faults >> fault & 1 == 1;
        let count = most_samples + usize::from(has(3));
        let mut minutes: Vec<u16> = (0..count).map(|i| (i / 2) as u16).collect();
        let values = LISTS.some_values(random, count - usize::from(has(0)));
        let used = match (has(5), has(4)) {
            (true, _) => 0,
            (false, true) => most_points + 1,
            (false, false) => 6,
        };
        let mut points: Vec<u16> = (0..used).map(|k| 50 + k as u16).collect();
        let mut bandwidths = vec![9; points.len()];
        if has(6) {
            minutes[most_samples - random.pick(&[23, 1])] = 0;
        }
        if has(7) && used > 0 {
            points[random.pick(&[3, 4, 5])] = 49;
        }
        if has(8) && used > 0 {
            bandwidths[random.pick(&[0, 3, 5])] = random.pick(&[0, 65_537]);
        }
        if has(9) && used > 0 {
            bandwidths[random.pick(&[2, 4])] = random.pick(&[5, 13]);
        }
        if has(1) {
            bandwidths.push(9);
        }
        let rows_len = match random.below(4) {
            _ if !has(2) => ROW_WIDTH * points.len(),
            0 => ROW_WIDTH * points.len() + 1,
            1 => ROW_WIDTH * points.len() + ROW_WIDTH - 1,
            2 => ROW_WIDTH * (points.len() + 1),
            _ => (ROW_WIDTH * points.len()).max(ROW_WIDTH) - 1,
        };
        call(calls, &minutes, &values, &points, &bandwidths, rows_len)?;
    }
    Ok(())
}

/// So many readings and marks, fit or damaged.
fn some_sweep(
    calls: &mut Calls,
    random: &mut Random,
    call: Swept,
    (count, used): (usize, usize),
) -> Found {
    let mut minutes = LISTS.ordered_minutes(random, count);
    let mut values = LISTS.some_values(random, count);
    let (mut points, mut bandwidths) = LISTS.fit_points(random, &minutes, used);
    while random.chance(30) {
        match random.below(10) {
            0 | 1 => LISTS.damage_samples(random, &mut minutes, &mut values),
            2 => {
                bandwidths.pop();
            }
            3 => {
                points.pop();
            }
            4 => fall(random, &mut points),
            5 | 6 if !bandwidths.is_empty() => {
                let at = random.below(bandwidths.len());
                bandwidths[at] = LISTS.bad_bandwidth(random);
            }
            _ if !bandwidths.is_empty() => {
                let at = random.below(bandwidths.len());
                let by = random.between(-2, 2);
                bandwidths[at] = (i64::from(bandwidths[at]) + by).clamp(1, 65_536) as u32;
            }
            _ => {}
        }
    }
    let rows_len = match random.below(40) {
        0 => ROW_WIDTH * points.len() + random.pick(&[1, ROW_WIDTH - 1, ROW_WIDTH]),
        1 => (ROW_WIDTH * points.len()).saturating_sub(random.pick(&[1, ROW_WIDTH - 1, ROW_WIDTH])),
        2 => 0,
        _ => ROW_WIDTH * points.len(),
    };
    call(calls, &minutes, &values, &points, &bandwidths, rows_len)
}

// ------------------------------------------------------------------- the grid

pub fn fill(calls: &mut Calls) -> Found {
    let random = &mut Random(5);
    for preset in (0..=13).chain([255, 256, 267, 65_536, 65_547, 0x8000_0000, u32::MAX]) {
        for length in [0, 1, 2, 3, 511, 512, 513, 1000, 65_537] {
            for first in [0, 1, 100, 65_534, 65_535] {
                for spacing in [0, 1, 2, 127, 128, 129, 32_768, 65_535] {
                    calls.fill(first, spacing, preset, length, length)?;
                }
            }
            for other in [0, 1, length + 1, length + 2, length.saturating_sub(1)] {
                calls.fill(3, 4, preset, length, other)?;
                calls.fill(65_535, 65_535, preset, other, length)?;
            }
        }
    }
    // The last point at the end of the range, one before and one behind.
    for length in 2..=512 {
        let spacing = random.between(1, 65_535 / (length - 1));
        let last = 65_535 - (length - 1) * spacing;
        for first in [last - 1, last, last + 1] {
            if (0..=65_535).contains(&first) {
                let length = length as usize;
                calls.fill(first as u16, spacing as u16, 5, length, length)?;
            }
        }
    }
    for _ in 0..40_000 {
        let length = match random.below(20) {
            0 => 512,
            1 => 513,
            2 => random.below(512),
            3 | 4 => 1,
            _ => random.between(1, 20) as usize,
        };
        let other = match random.below(20) {
            0 => length + 1,
            1 => length.saturating_sub(1),
            _ => length,
        };
        let first = random.number() as u16;
        let most = (65_535 - usize::from(first)) / length.max(2).saturating_sub(1);
        let spacing = match random.below(4) {
            0 => random.number() as u16,
            1 => random.below(120) as u16,
            _ => (most + random.below(2)) as u16,
        };
        let preset = if random.chance(8) {
            random.number() as u32
        } else {
            random.below(13) as u32
        };
        calls.fill(first, spacing, preset, length, other)?;
    }
    Ok(())
}

// ----------------------------------------------------------------- the sheets

/// A sheet with lists and a buffer of the right lengths.
fn read_and_write(calls: &mut Calls, sheet: &[u8]) -> Found {
    calls.read(sheet, READER)?;
    calls.text(sheet, MOST_OUTPUT)
}

pub fn read_and_text(calls: &mut Calls) -> Found {
    let random = &mut Random(6);
    for sheet in sheets::small_damages() {
        read_and_write(calls, &sheet)?;
    }
    for sheet in feed_sheets() {
        read_and_write(calls, &sheet)?;
    }
    for sheet in sheets::limits(random) {
        read_and_write(calls, &sheet)?;
    }
    // Lists of wrong lengths, over sheets that are fit, refused and too long.
    let fit = sheets::sheet_of_length(random, 500, b"\n");
    let too_long = sheets::sheet_of_length(random, 32_769, b"\r\n");
    for sheet in [&fit, &fit[1..], &fit[..499], &[], &too_long] {
        for list in 0..READER.len() {
            for length in wrong_lengths(READER[list]) {
                let mut lengths = READER;
                lengths[list] = length;
                calls.read(sheet, lengths)?;
            }
        }
        calls.read(sheet, [0; 5])?;
        calls.read(sheet, [512, 512, 1024, 1024, 2])?;
        for length in wrong_lengths(MOST_OUTPUT)
            .into_iter()
            .chain([94, 32_768, 32_769])
        {
            calls.text(sheet, length)?;
        }
    }
    for _ in 0..30_000 {
        let sheet = sheets::some_sheet(random);
        read_and_write(calls, &sheet)?;
        if random.chance(3) {
            let mut lengths = READER;
            let list = random.below(lengths.len());
            lengths[list] = random.pick(&wrong_lengths(lengths[list]));
            calls.read(&sheet, lengths)?;
            calls.text(&sheet, random.pick(&wrong_lengths(MOST_OUTPUT)))?;
        }
    }
    Ok(())
}

/// Numbers at the ends of each count of digits, those of the reports, and those about a power of two.
fn written_numbers() -> Vec<u64> {
    let mut numbers: Vec<u64> = (0..=20).collect();
    for digits in 1..20 {
        let power = 10u64.pow(digits);
        numbers.extend([power - 1, power, power + 1]);
    }
    for bits in [8, 15, 16, 31, 32, 63] {
        let power = 1u64 << bits;
        numbers.extend([power - 1, power, power + 1]);
    }
    numbers.extend([9_876_543_210, 1_020_304_050_607_080_900]);
    numbers.extend([u64::MAX - 1, u64::MAX]);
    numbers
}

pub fn refusal_text(calls: &mut Calls) -> Found {
    let random = &mut Random(8);
    let numbers = written_numbers();
    for &number in &numbers {
        for &place in &numbers {
            calls.refusal_text(number, place, MOST_OUTPUT)?;
        }
    }
    for (number, place) in [(4, 52), (0, 0), (8, 0), (u64::MAX, u64::MAX)] {
        for length in wrong_lengths(MOST_OUTPUT)
            .into_iter()
            .chain([19, 56, 32_768])
        {
            calls.refusal_text(number, place, length)?;
        }
    }
    for _ in 0..10_000 {
        let number = random.number() >> random.below(64);
        let place = random.number() >> random.below(64);
        calls.refusal_text(number, place, MOST_OUTPUT)?;
        if random.chance(3) {
            let length = random.pick(&wrong_lengths(MOST_OUTPUT));
            calls.refusal_text(number, place, length)?;
        }
    }
    Ok(())
}

pub fn program(calls: &mut Calls) -> Found {
    let random = &mut Random(7);
    for sheet in sheets::small_damages().iter().step_by(20) {
        calls.run(sheet)?;
    }
    for sheet in sheets::limits(random) {
        calls.run(&sheet)?;
    }
    for _ in 0..300 {
        calls.run(&sheets::some_sheet(random))?;
    }
    Ok(())
}

/// A published sheet, whose curve is given too.
pub fn published(calls: &mut Calls, sheet: &[u8], curve: &[u8]) -> Found {
    if reference::program(sheet) != curve {
        return Err("the second implementation writes another curve".to_string());
    }
    read_and_write(calls, sheet)?;
    calls.run(sheet)
}
