//! Readings that are known as ranges: each has a lowest and a highest value.

use crate::{
    edge_falls, first_fall, front_of, half_is_bad, lines, numbers, put_front, reading_line,
    refusal_lines, refuse, row, Line, Refusal, MISSING, MOST_BYTES, MOST_MARKS, MOST_OUTPUT,
    MOST_READINGS,
};

/// How many numbers a row over ranges has [Ranges].
pub const RANGE_ROW_WIDTH: usize = 7;

/// Of which kind a sheet is, by its second names line [Ranges].
#[derive(Clone, Copy, Debug, PartialEq, Eq)]
pub enum Kind {
    Plain,
    Ranges,
}

/// The sweep over ranges: seven numbers of each mark into `rows`, which are
/// left, right, weight, the sums of all lows and of all highs, and both rounded
/// quotients; or the first of the reports 8, 6, 7, 4, 15, 5, 9 and 10 that
/// holds, at its lowest position [Ranges].
pub fn sweep_ranges(
    minutes: &[u16],
    lows: &[u16],
    highs: &[u16],
    marks: &[u16],
    halves: &[u32],
    rows: &mut [u64],
) -> Result<u64, Refusal> {
    if minutes.len() != lows.len()
        || minutes.len() != highs.len()
        || marks.len() != halves.len()
        || rows.len() as u128 != RANGE_ROW_WIDTH as u128 * marks.len() as u128
    {
        return refuse(8, 0);
    }
    if minutes.len() > MOST_READINGS || marks.len() > MOST_MARKS {
        return refuse(6, 0);
    }
    if marks.is_empty() {
        return refuse(7, 0);
    }
    if let Some(position) = first_fall(minutes) {
        return refuse(4, position);
    }
    if let Some(position) = (0..lows.len()).find(|&i| lows[i] > highs[i]) {
        return refuse(15, position);
    }
    if let Some(position) = first_fall(marks) {
        return refuse(5, position);
    }
    if let Some(position) = (0..halves.len()).find(|&i| half_is_bad(halves[i])) {
        return refuse(9, position);
    }
    if let Some(position) =
        (1..marks.len()).find(|&i| edge_falls(marks[i - 1], halves[i - 1], marks[i], halves[i]))
    {
        return refuse(10, position);
    }

    let mut passes = 0;
    for k in 0..marks.len() {
        // Left, right and weight do not depend on the values.
        let lowest = row(minutes, lows, marks[k], halves[k]);
        let highest = row(minutes, highs, marks[k], halves[k]);
        let seven = [
            lowest[0], lowest[1], lowest[2], lowest[3], highest[3], lowest[4], highest[4],
        ];
        rows[RANGE_ROW_WIDTH * k..][..RANGE_ROW_WIDTH].copy_from_slice(&seven);
        passes = lowest[0] + lowest[1];
    }
    Ok(passes)
}

/// What a sheet of either kind holds: the kept readings, the marks, its kind.
struct Found {
    minutes: Vec<u16>,
    lows: Vec<u16>,
    highs: Vec<u16>,
    marks: Vec<u16>,
    halves: Vec<u32>,
    kind: Kind,
}

/// A reading line of a sheet of ranges: four numbers with 65,535 as their
/// greatest, the injection not 0 [Ranges].
fn range_line(line: &Line) -> Option<(u16, u16, u16, u16)> {
    let fields = numbers(line, 4)?;
    let number = |k: usize| u16::try_from(fields[k]).ok();
    let (minute, inj, low, high) = (number(0)?, number(1)?, number(2)?, number(3)?);
    (inj != 0).then_some((minute, inj, low, high))
}

/// A sheet of either kind, up to its first line with a fault. Of one reading
/// line's faults the first of 3, 4, 15 and 6 counts [Ranges].
fn found_in(bytes: &[u8]) -> Result<Found, Refusal> {
    if bytes.len() > MOST_BYTES {
        return refuse(1, MOST_BYTES);
    }
    let lines = lines(bytes);
    let (marks, halves, at) = front_of(&lines, bytes.len())?;
    let kind = match lines.get(at) {
        None => return refuse(2, bytes.len()),
        Some(line) if line.ended && line.text == b"minute,inj,vdk" => Kind::Plain,
        Some(line) if line.ended && line.text == b"minute,inj,low,high" => Kind::Ranges,
        Some(line) => return refuse(2, line.start),
    };
    let (mut minutes, mut lows, mut highs) = (Vec::new(), Vec::new(), Vec::new());
    let mut before = None;
    for line in &lines[at + 1..] {
        let values = match kind {
            Kind::Plain => reading_line(line).map(|(minute, inj, v)| (minute, inj, v, v)),
            Kind::Ranges => range_line(line),
        };
        let Some((minute, inj, low, high)) = values else {
            return refuse(3, line.start);
        };
        if before.is_some_and(|before| minute < before) {
            return refuse(4, line.start);
        }
        before = Some(minute);
        // Crossed ends are a fault of the first two injections' lines as well.
        if low > high {
            return refuse(15, line.start);
        }
        if inj > 2 {
            if minutes.len() == MOST_READINGS {
                return refuse(6, line.start);
            }
            minutes.push(minute);
            lows.push(low);
            highs.push(high);
        }
    }
    Ok(Found {
        minutes,
        lows,
        highs,
        marks,
        halves,
        kind,
    })
}

/// The reader of both kinds of sheet; answers the counts of kept readings and
/// of marks, which stand at the front of the lists, and the kind. Lists that
/// have not the greatest length are report 8 [Ranges].
pub fn read_ranges(
    sheet: &[u8],
    minutes: &mut [u16],
    lows: &mut [u16],
    highs: &mut [u16],
    marks: &mut [u16],
    halves: &mut [u32],
) -> Result<(usize, usize, Kind), Refusal> {
    if minutes.len() != MOST_READINGS
        || lows.len() != MOST_READINGS
        || highs.len() != MOST_READINGS
        || marks.len() != MOST_MARKS
        || halves.len() != MOST_MARKS
    {
        return refuse(8, 0);
    }
    let found = found_in(sheet)?;
    let (kept, used) = (found.minutes.len(), found.marks.len());
    minutes[..kept].copy_from_slice(&found.minutes);
    lows[..kept].copy_from_slice(&found.lows);
    highs[..kept].copy_from_slice(&found.highs);
    marks[..used].copy_from_slice(&found.marks);
    halves[..used].copy_from_slice(&found.halves);
    Ok((kept, used, found.kind))
}

/// The text of a sheet of either kind: a range's line has both sums and then
/// both values, of a plain sheet's each once [Ranges].
fn written(input: &[u8]) -> Result<String, Refusal> {
    let found = found_in(input)?;
    let used = found.marks.len();
    let mut rows = vec![0; RANGE_ROW_WIDTH * used];
    let passes = sweep_ranges(
        &found.minutes,
        &found.lows,
        &found.highs,
        &found.marks,
        &found.halves,
        &mut rows,
    )?;

    let (names, fields): (&str, &[usize]) = match found.kind {
        Kind::Plain => ("sum,vdk", &[0, 1, 2, 3, 5]),
        Kind::Ranges => ("sumlow,sumhigh,vdklow,vdkhigh", &[0, 1, 2, 3, 4, 5, 6]),
    };
    let mut text = format!("mark,half,left,right,weight,{names}\n");
    for (k, row) in rows.chunks(RANGE_ROW_WIDTH).enumerate() {
        text += &format!("{},{}", found.marks[k], found.halves[k]);
        for &field in fields {
            if field >= 5 && row[field] == MISSING {
                text += ",-";
            } else {
                text += &format!(",{}", row[field]);
            }
        }
        text += "\n";
    }
    text += &format!("\nkept,passes\n{},{passes}\n", found.minutes.len());
    Ok(text)
}

/// The whole program, for sheets of either kind [Ranges].
pub fn program(input: &[u8]) -> Vec<u8> {
    match written(input) {
        Ok(text) => text.into_bytes(),
        Err(refusal) => refusal_lines(refusal.number.into(), refusal.place).into_bytes(),
    }
}

/// The text of a sheet of either kind at the front of `out`, and its length. A
/// buffer that has not its length is report 8, and then the sheet's own report
/// counts [Ranges].
pub fn text(sheet: &[u8], out: &mut [u8]) -> Result<usize, Refusal> {
    if out.len() != MOST_OUTPUT {
        return refuse(8, 0);
    }
    let text = written(sheet)?;
    Ok(put_front(&text, out))
}
