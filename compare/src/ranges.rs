//! Readings known as ranges: the sweep and the reader of both kinds of sheet, each case lent to the export
//! and to the second implementation, everything compared; values between the ends, by the proved sweep; and
//! the text and the program on sheets with ranges.

use crate::calls::{code, refused, same, typed, Calls, WRONG_LENGTH};
use crate::lent::Lent;
use crate::lists::{sample_count, LISTS};
use crate::sheets;
use crate::tally::Tally;
use reference::exported::{RANGE_COUNTS, RANGE_READER};
use reference::generators::lists::fall;
use reference::generators::random::Random;
use reference::{Kind, MOST_OUTPUT, RANGE_ROW_WIDTH, ROW_WIDTH};
use tankcurve::slices;

/// The first difference, with its case.
type Found = Result<(), String>;

/// The calls, with their tallies.
pub struct Ranges {
    patterns: Random,
    smooth: Tally,
    read: Tally,
}

/// Minutes, lows, highs, points and bandwidths.
type Lists<'a> = (&'a [u16], &'a [u16], &'a [u16], &'a [u16], &'a [u32]);

impl Ranges {
    pub fn new() -> Ranges {
        Ranges {
            patterns: Random(4),
            smooth: Tally::new("smooth_ranges", &[8, 6, 7, 4, 15, 5, 9, 10]),
            read: Tally::new("read_ranges", &[8, 1, 2, 3, 4, 15, 5, 9, 10, 6, 7]),
        }
    }

    pub fn tallies(&self) -> [&Tally; 2] {
        [&self.smooth, &self.read]
    }

    /// One sweep, with so many numbers of rows lent.
    fn smooth(&mut self, lists: Lists, rows_len: usize) -> Found {
        let (minutes, lows, highs, points, bandwidths) = lists;
        let mut rows = vec![0; rows_len];
        let expected = reference::sweep_ranges(minutes, lows, highs, points, bandwidths, &mut rows)
            .map_err(refused);
        let answer = expected.map_or_else(|refusal| refusal, |passes| (0, passes));
        let lent_minutes = Lent::holding(&mut self.patterns, minutes);
        let lent_lows = Lent::holding(&mut self.patterns, lows);
        let lent_highs = Lent::holding(&mut self.patterns, highs);
        let lent_points = Lent::holding(&mut self.patterns, points);
        let lent_bandwidths = Lent::holding(&mut self.patterns, bandwidths);
        let mut lent_rows = Lent::patterned(&mut self.patterns, rows_len);
        let mut compared = || -> Found {
            let got = slices::smooth_ranges(
                lent_minutes.list(),
                lent_lows.list(),
                lent_highs.list(),
                lent_points.list(),
                lent_bandwidths.list(),
                lent_rows.list_mut(),
            );
            same("returned", code(answer), got)?;
            lent_minutes.untouched("minutes")?;
            lent_lows.untouched("lows")?;
            lent_highs.untouched("highs")?;
            lent_points.untouched("points")?;
            lent_bandwidths.untouched("bandwidths")?;
            if expected.is_err() {
                lent_rows.untouched("rows")?;
            } else {
                lent_rows.holds("rows", &rows)?;
            }
            let mut typed_rows = vec![9; rows_len];
            let got =
                tankcurve::smooth_ranges(minutes, lows, highs, points, bandwidths, &mut typed_rows);
            let got = typed(got).map(|curve| {
                let rows: Vec<[u64; RANGE_ROW_WIDTH]> = curve.rows.map(Into::into).collect();
                (curve.passes, rows.concat())
            });
            same("typed", expected.map(|passes| (passes, rows.clone())), got)
        };
        let found = compared();
        self.smooth.count(answer.0);
        found.map_err(|difference| {
            format!("smooth_ranges: {difference}\nthe case:\n    lists = {lists:?}\n    rows_len = {rows_len}")
        })
    }

    /// The same, with as many as there are points.
    fn fit(&mut self, lists: Lists) -> Found {
        self.smooth(lists, RANGE_ROW_WIDTH * lists.3.len())
    }

    /// One sheet, with lists of these lengths, in the order of `RANGE_READER`.
    fn read(&mut self, sheet: &[u8], lengths: [usize; 6]) -> Found {
        let [mut minutes, mut lows, mut highs, mut points] =
            [0, 1, 2, 3].map(|k| vec![0u16; lengths[k]]);
        let mut bandwidths = vec![0u32; lengths[4]];
        let expected = if lengths[5] == RANGE_COUNTS {
            reference::read_ranges(
                sheet,
                &mut minutes,
                &mut lows,
                &mut highs,
                &mut points,
                &mut bandwidths,
            )
            .map_err(refused)
        } else {
            Err(WRONG_LENGTH)
        };
        let answer = expected.err().unwrap_or((0, 0));
        let (kept, used, kind) = expected.unwrap_or((0, 0, Kind::Plain));
        for list in [&mut minutes, &mut lows, &mut highs] {
            list.truncate(kept);
        }
        points.truncate(used);
        bandwidths.truncate(used);
        let counts = [kept as u64, used as u64, u64::from(kind == Kind::Ranges)];
        let counts: &[u64] = if expected.is_ok() { &counts } else { &[] };
        let lent_sheet = Lent::holding(&mut self.patterns, sheet);
        let mut lent: [Lent<u16>; 4] =
            [0, 1, 2, 3].map(|k| Lent::patterned(&mut self.patterns, lengths[k]));
        let mut lent_bandwidths = Lent::patterned(&mut self.patterns, lengths[4]);
        let mut lent_counts = Lent::patterned(&mut self.patterns, lengths[5]);
        let mut compared = || -> Found {
            let [a, b, c, d] = &mut lent;
            let got = slices::read_ranges(
                lent_sheet.list(),
                a.list_mut(),
                b.list_mut(),
                c.list_mut(),
                d.list_mut(),
                lent_bandwidths.list_mut(),
                lent_counts.list_mut(),
            );
            same("returned", code(answer), got)?;
            lent_sheet.untouched("sheet")?;
            a.holds("minutes", &minutes)?;
            b.holds("lows", &lows)?;
            c.holds("highs", &highs)?;
            d.holds("points", &points)?;
            lent_bandwidths.holds("bandwidths", &bandwidths)?;
            lent_counts.holds("counts", counts)?;
            if lengths == RANGE_READER {
                let mut typed_lists = ([9; 1024], [9; 1024], [9; 1024], [9; 512], [9; 512]);
                let got = tankcurve::read_ranges(
                    sheet,
                    &mut typed_lists.0,
                    &mut typed_lists.1,
                    &mut typed_lists.2,
                    &mut typed_lists.3,
                    &mut typed_lists.4,
                );
                let got = typed(got).map(|used| {
                    let kind = match used.kind {
                        tankcurve::Kind::Plain => Kind::Plain,
                        tankcurve::Kind::Ranges => Kind::Ranges,
                    };
                    (used.samples as usize, used.points as usize, kind)
                });
                same("typed", expected, got)?;
                same("typed, lows", &lows[..], &typed_lists.1[..kept])?;
                same("typed, highs", &highs[..], &typed_lists.2[..kept])?;
            }
            if expected.is_ok() {
                swept(&minutes, &lows, &highs, &points, &bandwidths)?;
            }
            Ok(())
        };
        let found = compared();
        self.read.count(answer.0);
        found.map_err(|difference| {
            format!(
                "read_ranges: {difference}\nthe case:\n    sheet = b\"{}\"\n    lengths = {lengths:?}",
                sheet.escape_ascii()
            )
        })
    }
}

/// What the reader accepts the sweep accepts.
fn swept(minutes: &[u16], lows: &[u16], highs: &[u16], points: &[u16], widths: &[u32]) -> Found {
    let mut rows = vec![0; RANGE_ROW_WIDTH * points.len()];
    let answer = slices::smooth_ranges(minutes, lows, highs, points, widths, &mut rows);
    same("swept", 0, slices::number(answer))
}

/// The rows of values between lie between, and those of an end are that end.
fn between(random: &mut Random, lists: Lists) -> Found {
    let (minutes, lows, highs, points, bandwidths) = lists;
    let mut rows = vec![0; RANGE_ROW_WIDTH * points.len()];
    let answer = slices::smooth_ranges(minutes, lows, highs, points, bandwidths, &mut rows);
    if slices::number(answer) != 0 {
        return Ok(());
    }
    let chosen: Vec<u16> = lows
        .iter()
        .zip(highs)
        .map(|(&low, &high)| random.between(low.into(), high.into()) as u16)
        .collect();
    for values in [&chosen[..], lows, highs] {
        let mut plain = vec![0; ROW_WIDTH * points.len()];
        let plainly = slices::smooth(minutes, values, points, bandwidths, &mut plain);
        same("passes of values between", answer, plainly)?;
        for (seven, five) in rows.chunks(RANGE_ROW_WIDTH).zip(plain.chunks(ROW_WIDTH)) {
            same("left, right, weight", &seven[..3], &five[..3])?;
            let sum = (seven[3]..=seven[4]).contains(&five[3]);
            let value = (seven[5]..=seven[6]).contains(&five[4]);
            if !sum || !value {
                return Err(format!("{five:?} is not between {seven:?}\nof {lists:?}"));
            }
            if values == lows {
                same("low end", [seven[3], seven[5]], [five[3], five[4]])?;
            }
            if values == highs {
                same("high end", [seven[4], seven[6]], [five[3], five[4]])?;
            }
        }
    }
    Ok(())
}

/// The low end of a range: mostly none above the high one.
fn low_of(random: &mut Random, high: u16) -> u16 {
    match random.below(200) {
        0..=50 => 0,
        51..=100 => high,
        101..=150 => high.saturating_sub(random.below(3) as u16),
        151..=198 => random.below(usize::from(high) + 1) as u16,
        _ => high.saturating_add(1),
    }
}

/// A plain sheet's readings as ranges, behind the other names line where it has one.
fn ranged(random: &mut Random, sheet: &[u8]) -> Vec<u8> {
    let mut lines: Vec<Vec<u8>> = sheet.split(|&b| b == b'\n').map(<[u8]>::to_vec).collect();
    let names = lines
        .iter()
        .position(|line| line.starts_with(b"minute,inj,vdk"));
    let Some(names) = names else {
        return sheet.to_vec();
    };
    if !random.chance(3) {
        let behind = lines[names].split_off(b"minute,inj,vdk".len());
        lines[names] = [b"minute,inj,low,high", &behind[..]].concat();
    }
    for line in &mut lines[names + 1..] {
        let mut fields: Vec<&[u8]> = line.split(|&b| b == b',').collect();
        if fields.len() < 3 || random.chance(1) && random.chance(20) {
            continue;
        }
        let digits: Vec<u8> = fields[2]
            .iter()
            .copied()
            .filter(u8::is_ascii_digit)
            .collect();
        let high = String::from_utf8_lossy(&digits).parse().unwrap_or(65_535);
        let low = low_of(random, high).to_string();
        fields.insert(2, low.as_bytes());
        *line = fields.join(&b',');
    }
    lines.join(&b'\n')
}

/// Lists of wrong lengths about the one wanted.
fn wrong_lengths(length: usize) -> [usize; 4] {
    [0, 1, length - 1, length + 1]
}

fn sweeps(calls: &mut Ranges) -> Found {
    let random = &mut Random(14);
    // The longest lists, and lists of one more.
    for count in [0, 1, 1023, 1024, 1025] {
        for used in [0, 1, 511, 512, 513] {
            let minutes = LISTS.ordered_minutes(random, count);
            let highs = LISTS.some_values(random, count);
            let lows: Vec<u16> = highs.iter().map(|&high| high / 2).collect();
            let (points, bandwidths) = LISTS.fit_points(random, &minutes, used);
            calls.fit((&minutes, &lows, &highs, &points, &bandwidths))?;
            calls.fit((&minutes, &highs, &highs, &points, &bandwidths))?;
        }
    }
    for _ in 0..20_000 {
        let count = sample_count(random);
        let mut minutes = LISTS.ordered_minutes(random, count);
        let mut highs = LISTS.some_values(random, count);
        let mut lows: Vec<u16> = highs.iter().map(|&high| low_of(random, high)).collect();
        let used = match random.below(100) {
            0 => 512,
            1 => 0,
            _ => random.between(1, 12) as usize,
        };
        let (mut points, mut bandwidths) = LISTS.fit_points(random, &minutes, used);
        while random.chance(12) {
            match random.below(6) {
                0 => LISTS.damage_samples(random, &mut minutes, &mut lows),
                1 | 2 => LISTS.damage_samples(random, &mut minutes, &mut highs),
                3 => fall(random, &mut points),
                4 => points.push(65_535),
                _ if bandwidths.is_empty() => {}
                _ => {
                    let at = random.below(bandwidths.len());
                    bandwidths[at] = if random.chance(50) {
                        LISTS.bad_bandwidth(random)
                    } else {
                        bandwidths[at] + 1
                    };
                }
            }
        }
        let lists: Lists = (&minutes, &lows, &highs, &points, &bandwidths);
        let wanted = RANGE_ROW_WIDTH * points.len();
        let rows = match random.below(60) {
            0 => wanted + 1,
            1 => wanted.saturating_sub(1),
            2 => ROW_WIDTH * points.len(),
            _ => wanted,
        };
        calls.smooth(lists, rows)?;
        if minutes.len() == lows.len() && minutes.len() == highs.len() {
            between(random, lists)?;
        }
    }
    Ok(())
}

/// A sheet by the reader, and by the text and sometimes the program.
fn read_and_write(calls: &mut Ranges, others: &mut Calls, sheet: &[u8], program: bool) -> Found {
    calls.read(sheet, RANGE_READER)?;
    others.text(sheet, MOST_OUTPUT)?;
    if program {
        others.run(sheet)?;
    }
    Ok(())
}

fn read(calls: &mut Ranges, others: &mut Calls) -> Found {
    let random = &mut Random(16);
    for (k, sheet) in sheets::small_damages().iter().enumerate() {
        let sheet = ranged(random, sheet);
        read_and_write(calls, others, &sheet, k % 40 == 0)?;
    }
    for sheet in sheets::limits(random) {
        calls.read(&sheet, RANGE_READER)?;
        let sheet = ranged(random, &sheet);
        read_and_write(calls, others, &sheet, true)?;
    }
    // Lists of wrong lengths, over sheets that are fit, refused and too long.
    let plain = sheets::sheet_of_length(random, 500, b"\n");
    let fit = ranged(random, &plain);
    let too_long = sheets::sheet_of_length(random, 32_769, b"\r\n");
    for sheet in [&plain, &fit, &fit[1..], &fit[..499], &[], &too_long] {
        for list in 0..RANGE_READER.len() {
            for length in wrong_lengths(RANGE_READER[list]) {
                let mut lengths = RANGE_READER;
                lengths[list] = length;
                calls.read(sheet, lengths)?;
            }
        }
        calls.read(sheet, [0; 6])?;
        calls.read(sheet, [512, 512, 512, 1024, 1024, 3])?;
    }
    for k in 0..15_000 {
        let plain = sheets::some_sheet(random);
        let sheet = ranged(random, &plain);
        read_and_write(calls, others, &sheet, k % 60 == 0)?;
        if random.chance(20) {
            calls.read(&plain, RANGE_READER)?;
        }
        if random.chance(3) {
            let mut lengths = RANGE_READER;
            let list = random.below(lengths.len());
            lengths[list] = random.pick(&wrong_lengths(lengths[list]));
            calls.read(&sheet, lengths)?;
        }
    }
    Ok(())
}

pub fn ranges(calls: &mut Ranges, others: &mut Calls) -> Found {
    sweeps(calls)?;
    read(calls, others)
}
