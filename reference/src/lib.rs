//! The tank curve in its plainest form: every row is a direct sum over all
//! readings, every count a filter over a whole list, and the sheet is split
//! into lines at line feeds, with or without a carriage return before them, and
//! into fields at commas.
//!
//! A comment that ends in a title in brackets names the section of
//! docs/SPECIFICATION.md that its code follows.

mod biweight;
pub mod boxes;
mod doubles;
pub mod exported;
pub mod generators;
mod limit;
mod neighbours;
pub mod pair;
mod ranges;

pub use biweight::{biweight, BIWEIGHT_HALF};
pub use doubles::{cell, pattern, row_cells, whole, Cell, LOW_PART, ONE_DOUBLE};
pub use limit::{decisive, first_at_most};
pub use neighbours::neighbours;
pub use ranges::{program, read_ranges, sweep_ranges, text, Kind, RANGE_ROW_WIDTH};

/// The longest list of kept readings that is no fault [Readings and marks].
pub const MOST_READINGS: usize = 1024;

/// The longest list of marks that is no fault [Readings and marks].
pub const MOST_MARKS: usize = 512;

/// The same of the preview: its readings [The preview].
pub const PREVIEW_READINGS: usize = 256;

/// And its marks [The preview].
pub const PREVIEW_MARKS: usize = 64;

/// The longest sheet that is no fault [Reports].
pub const MOST_BYTES: usize = 32_768;

/// The length of a buffer for a text. No text is longer: over ranges 58 bytes
/// of names, a line of at most 86 for each of 512 marks, 13 of names, 10 of two
/// counts [Output].
pub const MOST_OUTPUT: usize = 44_113;

/// How many numbers a row has [The row].
pub const ROW_WIDTH: usize = 5;

/// What stands for the value of a row without weight [The row].
pub const MISSING: u64 = 65_536;

/// The half width of each position of the knob [Presets and grid].
pub const KNOB: [u32; 12] = [30, 45, 60, 90, 120, 180, 240, 360, 480, 720, 1080, 1440];

/// Why a call did nothing, and where. What it was lent has not changed
/// [Reports].
#[derive(Clone, Copy, Debug, PartialEq, Eq)]
pub struct Refusal {
    /// The report's number, 1 to 17.
    pub number: u8,
    /// A byte of the sheet, a position in a list, or 0.
    pub place: u64,
}

/// The running record; the default one is fresh. The sums are three of 1,
/// minute and squared minute, then three of the same, each times its reading's
/// value; the passes are how far both edges have gone, either way [The running
/// record and the book].
#[derive(Clone, Copy, Debug, Default, PartialEq, Eq)]
pub struct Record {
    pub left: u64,
    pub right: u64,
    pub sums: [u64; 6],
    pub passes: u64,
}

fn refuse<T>(number: u8, place: usize) -> Result<T, Refusal> {
    Err(Refusal {
        number,
        place: place as u64,
    })
}

/// Report 9 of one half width [Reports].
fn half_is_bad(half: u32) -> bool {
    half == 0 || half > 65_536
}

/// Where a mark's window begins, below 0 too [Readings and marks].
fn left_edge(mark: u16, half: u32) -> i128 {
    i128::from(mark) - i128::from(half)
}

/// Where a mark's window ends [Readings and marks].
fn right_edge(mark: u16, half: u32) -> i128 {
    i128::from(mark) + i128::from(half)
}

/// Report 10 of two neighbouring marks [Reports].
fn edge_falls(mark: u16, half: u32, next_mark: u16, next_half: u32) -> bool {
    left_edge(next_mark, next_half) < left_edge(mark, half)
        || right_edge(next_mark, next_half) < right_edge(mark, half)
}

/// The lowest position whose number is below the one before.
fn first_fall(list: &[u16]) -> Option<usize> {
    (1..list.len()).find(|&i| list[i] < list[i - 1])
}

/// The whole number next to the quotient, and the even one where two are
/// equally far [The row].
fn nearest(sum: i128, weight: i128) -> i128 {
    let below = sum / weight;
    let above = below + 1;

    // How far the quotient is from both, times the weight.
    let to_below = sum - below * weight;
    let to_above = above * weight - sum;
    if to_below < to_above || (to_below == to_above && below % 2 == 0) {
        below
    } else {
        above
    }
}

/// The five numbers of a mark, over the window with both its ends [The row].
fn row(minutes: &[u16], values: &[u16], mark: u16, half: u32) -> [u64; ROW_WIDTH] {
    let z = i128::from(mark);
    let h = i128::from(half);

    // Readings before the window.
    let left = minutes.iter().filter(|&&m| i128::from(m) + h < z).count();

    // Readings that are not behind it.
    let right = minutes.iter().filter(|&&m| i128::from(m) <= z + h).count();

    // The readings from the first count to the second, each with the weight of
    // its distance.
    let mut weight: i128 = 0;
    let mut sum: i128 = 0;
    for (position, (&m, &v)) in minutes.iter().zip(values).enumerate() {
        if position >= left && position < right {
            let away = i128::from(m) - z;
            let one = h * h - away * away;
            weight += one;
            sum += one * i128::from(v);
        }
    }

    let value = if weight == 0 {
        i128::from(MISSING)
    } else {
        nearest(sum, weight)
    };

    [
        left as u64,
        right as u64,
        weight as u64,
        sum as u64,
        value as u64,
    ]
}

/// The row at one mark: left, right, weight, sum, value; or the first of the
/// reports 8, 6, 4 and 9 that holds [The row; Reports].
pub fn one_mark(
    minutes: &[u16],
    values: &[u16],
    mark: u16,
    half: u32,
) -> Result<[u64; ROW_WIDTH], Refusal> {
    if minutes.len() != values.len() {
        return refuse(8, 0);
    }
    if minutes.len() > MOST_READINGS {
        return refuse(6, 0);
    }
    if let Some(position) = first_fall(minutes) {
        return refuse(4, position);
    }
    if half_is_bad(half) {
        return refuse(9, 0);
    }
    Ok(row(minutes, values, mark, half))
}

/// The run at one mark, as its start and end positions in the value list: both
/// 0 where [`one_mark`] refuses [The row].
pub fn one_mark_run(minutes: &[u16], values: &[u16], mark: u16, half: u32) -> (usize, usize) {
    match one_mark(minutes, values, mark, half) {
        Ok(row) => (row[0] as usize, row[1] as usize),
        Err(_) => (0, 0),
    }
}

/// The sums of a [`Record`] over the readings at `start` and on, those at `end`
/// and on left out.
fn six_sums(minutes: &[u16], values: &[u16], start: usize, end: usize) -> [i128; 6] {
    let mut sums = [0i128; 6];
    for (position, (&m, &v)) in minutes.iter().zip(values).enumerate() {
        if position >= start && position < end {
            let m = i128::from(m);
            let v = i128::from(v);
            sums[0] += 1;
            sums[1] += m;
            sums[2] += m * m;
            sums[3] += v;
            sums[4] += m * v;
            sums[5] += m * m * v;
        }
    }
    sums
}

/// One step of the running record, or the first of the reports 8, 6, 11 and 9
/// that holds. Readings may come in any order and the record from anywhere;
/// its sums are remainders modulo 2^64 [The running record and the book].
pub fn step(
    record: Record,
    minutes: &[u16],
    values: &[u16],
    mark: u16,
    half: u32,
) -> Result<Record, Refusal> {
    if minutes.len() != values.len() {
        return refuse(8, 0);
    }
    if minutes.len() > MOST_READINGS {
        return refuse(6, 0);
    }
    if record.left > record.right || record.right > minutes.len() as u64 {
        return refuse(11, 0);
    }
    if half_is_bad(half) {
        return refuse(9, 0);
    }
    let old_left = record.left as usize;
    let old_right = record.right as usize;

    // On from the old right, up to a minute behind the window.
    let right = (old_right..minutes.len())
        .find(|&i| i128::from(minutes[i]) > right_edge(mark, half))
        .unwrap_or(minutes.len());

    // On from the old left, up to a minute that is not before the window, the
    // new right at most.
    let left = (old_left..right)
        .find(|&i| i128::from(minutes[i]) >= left_edge(mark, half))
        .unwrap_or(right);

    // Positions passed on the right come in, positions passed on the left go
    // out.
    let taken = six_sums(minutes, values, old_right, right);
    let gone = six_sums(minutes, values, old_left, left);
    Ok(moved(record, left, right, taken, gone))
}

/// A record with other edges, with some sums more and some less, and with the
/// way of both edges in its passes; sums and passes are remainders modulo 2^64.
fn moved(record: Record, left: usize, right: usize, more: [i128; 6], less: [i128; 6]) -> Record {
    let remainder = |exact: i128| exact.rem_euclid(1i128 << 64) as u64;
    let way = |from: u64, to: usize| (to as i128 - i128::from(from)).abs();
    let mut sums = [0u64; 6];
    for k in 0..6 {
        sums[k] = remainder(i128::from(record.sums[k]) + more[k] - less[k]);
    }
    let travelled = way(record.left, left) + way(record.right, right);
    Record {
        left: left as u64,
        right: right as u64,
        sums,
        passes: remainder(i128::from(record.passes) + travelled),
    }
}

/// The record turned to any mark and half width: its edges become those of the
/// row there, forth or back, and its sums gain those over the new run and lose
/// those over the old; or the first of the reports 8, 6, 4, 11 and 9 that holds
/// [The turn].
pub fn turn(
    record: Record,
    minutes: &[u16],
    values: &[u16],
    mark: u16,
    half: u32,
) -> Result<Record, Refusal> {
    if minutes.len() != values.len() {
        return refuse(8, 0);
    }
    if minutes.len() > MOST_READINGS {
        return refuse(6, 0);
    }
    if let Some(position) = first_fall(minutes) {
        return refuse(4, position);
    }
    if record.left > record.right || record.right > minutes.len() as u64 {
        return refuse(11, 0);
    }
    if half_is_bad(half) {
        return refuse(9, 0);
    }
    let five = row(minutes, values, mark, half);
    let (left, right) = (five[0] as usize, five[1] as usize);
    let inside = six_sums(minutes, values, left, right);
    let outside = six_sums(minutes, values, record.left as usize, record.right as usize);
    Ok(moved(record, left, right, inside, outside))
}

/// The row of a record of any origin at a mark with a half width, both any
/// numbers: the edges are the record's, weight and sum the formula of the
/// running sums, whole numbers of any size of which the remainder modulo 2^64
/// counts, and the value their rounded quotient [The running record and the
/// book].
pub fn record_row(record: Record, mark: u16, half: u32) -> [u64; ROW_WIDTH] {
    let (z, h) = (i128::from(mark), i128::from(half));
    // A product of two remainders has 128 bits, so each is taken for itself.
    let remainder = |exact: i128| exact.rem_euclid(1 << 64);
    let times = |a: i128, b: u64| (remainder(a) as u128 * u128::from(b) % (1 << 64)) as i128;
    let formula = |s: &[u64]| {
        let exact = times(h * h - z * z, s[0]) + times(2 * z, s[1]) - i128::from(s[2]);
        remainder(exact)
    };
    let weight = formula(&record.sums[..3]);
    let sum = formula(&record.sums[3..]);
    let value = if weight == 0 {
        i128::from(MISSING)
    } else {
        nearest(sum, weight)
    };
    [
        record.left,
        record.right,
        weight as u64,
        sum as u64,
        value as u64,
    ]
}

/// The whole sweep: each mark's row into `rows`, and the passes, both edges of
/// the last row added up; or the first of the reports 8, 6, 7, 4, 5, 9 and 10
/// that holds, at its lowest position [The running record and the book;
/// Reports].
pub fn sweep(
    minutes: &[u16],
    values: &[u16],
    marks: &[u16],
    halves: &[u32],
    rows: &mut [u64],
) -> Result<u64, Refusal> {
    let most = (MOST_READINGS, MOST_MARKS);
    swept(most, minutes, values, marks, halves, rows)
}

/// The panel's preview: the sweep, but that report 6 holds of more readings or
/// marks than a small curve has [The preview].
pub fn preview(
    minutes: &[u16],
    values: &[u16],
    marks: &[u16],
    halves: &[u32],
    rows: &mut [u64],
) -> Result<u64, Refusal> {
    let most = (PREVIEW_READINGS, PREVIEW_MARKS);
    swept(most, minutes, values, marks, halves, rows)
}

/// A sweep over so many readings and so many marks at most.
fn swept(
    (most_readings, most_marks): (usize, usize),
    minutes: &[u16],
    values: &[u16],
    marks: &[u16],
    halves: &[u32],
    rows: &mut [u64],
) -> Result<u64, Refusal> {
    if minutes.len() != values.len()
        || marks.len() != halves.len()
        || rows.len() as u128 != (ROW_WIDTH * marks.len()) as u128
    {
        return refuse(8, 0);
    }
    if minutes.len() > most_readings || marks.len() > most_marks {
        return refuse(6, 0);
    }
    if marks.is_empty() {
        return refuse(7, 0);
    }
    if let Some(position) = first_fall(minutes) {
        return refuse(4, position);
    }
    if let Some(position) = first_fall(marks) {
        return refuse(5, position);
    }
    if let Some(position) = (0..halves.len()).find(|&i| half_is_bad(halves[i])) {
        return refuse(9, position);
    }
    if let Some(position) =
        (1..marks.len()).find(|&i| edge_falls(marks[i - 1], halves[i - 1], marks[i], halves[i]))
    {
        return refuse(10, position);
    }

    let mut passes = 0;
    for (k, (&mark, &half)) in marks.iter().zip(halves).enumerate() {
        let five = row(minutes, values, mark, half);
        for (field, &number) in five.iter().enumerate() {
            rows[ROW_WIDTH * k + field] = number;
        }
        passes = five[0] + five[1];
    }
    Ok(passes)
}

/// The mark filler: marks a spacing apart, all with the half width of one
/// position of the knob; or the first of the reports 8, 7, 6, 12 and 13 that
/// holds [Presets and grid].
pub fn fill(
    first: u16,
    spacing: u16,
    position: u32,
    marks: &mut [u16],
    halves: &mut [u32],
) -> Result<(), Refusal> {
    if marks.len() != halves.len() {
        return refuse(8, 0);
    }
    if marks.is_empty() {
        return refuse(7, 0);
    }
    if marks.len() > MOST_MARKS {
        return refuse(6, 0);
    }
    if position > 11 {
        return refuse(12, 0);
    }
    let mark = |k: usize| u128::from(first) + k as u128 * u128::from(spacing);
    if mark(marks.len() - 1) > 65_535 {
        return refuse(13, 0);
    }
    for k in 0..marks.len() {
        marks[k] = mark(k) as u16;
        halves[k] = KNOB[position as usize];
    }
    Ok(())
}

/// A line of the sheet: where it starts, its bytes without its end, and whether
/// it has its end.
struct Line<'a> {
    start: usize,
    text: &'a [u8],
    ended: bool,
}

/// The sheet cut behind each line feed, byte 10. One carriage return, byte 13,
/// directly before that byte is part of the line's end and not of its text.
/// Bytes behind the last line feed are a line without its end, carriage returns
/// and all; no bytes there are no line [The sheet].
fn lines(sheet: &[u8]) -> Vec<Line<'_>> {
    let pieces: Vec<&[u8]> = sheet.split(|&byte| byte == 10).collect();
    let mut lines = Vec::new();
    let mut start = 0;
    for (k, piece) in pieces.iter().enumerate() {
        let ended = k + 1 < pieces.len();
        let text = match piece {
            [text @ .., 13] if ended => text,
            whole => whole,
        };
        if ended || !piece.is_empty() {
            lines.push(Line { start, text, ended });
        }
        start += piece.len() + 1;
    }
    lines
}

/// The number of a field: at most five digits, the first of several not 0 [The
/// sheet].
fn number(field: &[u8]) -> Option<u32> {
    if field.is_empty() || field.len() > 5 {
        return None;
    }
    if !field.iter().all(|byte| byte.is_ascii_digit()) {
        return None;
    }
    if field[0] == b'0' && field.len() > 1 {
        return None;
    }
    let mut number = 0;
    for &byte in field {
        number = 10 * number + u32::from(byte - b'0');
    }
    Some(number)
}

/// The numbers of a value line, if it has its line feed and exactly `count`
/// numbers between commas.
fn numbers(line: &Line, count: usize) -> Option<Vec<u32>> {
    let fields: Vec<&[u8]> = line.text.split(|&byte| byte == b',').collect();
    if !line.ended || fields.len() != count {
        return None;
    }
    fields.into_iter().map(number).collect()
}

/// A mark line: the mark has a range, the half width here has none [Reports].
fn mark_line(line: &Line) -> Option<(u16, u32)> {
    let fields = numbers(line, 2)?;
    if fields[0] > 65_535 {
        return None;
    }
    Some((fields[0] as u16, fields[1]))
}

/// A reading line: minute, injection and value have 65,535 as their greatest
/// number, and the injection is not 0 [The sheet].
fn reading_line(line: &Line) -> Option<(u16, u16, u16)> {
    let fields = numbers(line, 3)?;
    if fields.iter().any(|&number| number > 65_535) || fields[1] == 0 {
        return None;
    }
    Some((fields[0] as u16, fields[1] as u16, fields[2] as u16))
}

/// What a sheet holds: the kept readings and the marks.
struct Sheet {
    minutes: Vec<u16>,
    values: Vec<u16>,
    marks: Vec<u16>,
    halves: Vec<u32>,
}

/// The front of a sheet, up to its second names line: the marks, and how many
/// lines they and the empty line are with the first names line. Of one line's
/// faults the first of 3, 5, 9, 10 and 6 counts. A place is how many bytes stand
/// before the line [The sheet; Reports].
fn front_of(lines: &[Line], length: usize) -> Result<(Vec<u16>, Vec<u32>, usize), Refusal> {
    let (mut marks, mut halves) = (Vec::new(), Vec::new());
    names_line(lines.first(), b"mark,half", length)?;

    let mut at = 1;
    loop {
        // The marks do not end: the place is behind the last byte.
        let Some(line) = lines.get(at) else {
            return refuse(3, length);
        };
        at += 1;
        if line.text.is_empty() {
            if marks.is_empty() {
                return refuse(7, line.start);
            }
            return Ok((marks, halves, at));
        }
        let Some((mark, half)) = mark_line(line) else {
            return refuse(3, line.start);
        };
        if marks.last().is_some_and(|&before| mark < before) {
            return refuse(5, line.start);
        }
        if half_is_bad(half) {
            return refuse(9, line.start);
        }
        if let (Some(&mark_before), Some(&half_before)) = (marks.last(), halves.last()) {
            if edge_falls(mark_before, half_before, mark, half) {
                return refuse(10, line.start);
            }
        }
        if marks.len() == MOST_MARKS {
            return refuse(6, line.start);
        }
        marks.push(mark);
        halves.push(half);
    }
}

/// The sheet from its first line to its last, up to a line with a fault: of one
/// reading line's faults the first of 3, 4 and 6 [The sheet; Reports].
fn sheet_of(bytes: &[u8]) -> Result<Sheet, Refusal> {
    if bytes.len() > MOST_BYTES {
        return refuse(1, MOST_BYTES);
    }
    let lines = lines(bytes);
    let (marks, halves, at) = front_of(&lines, bytes.len())?;
    let mut sheet = Sheet {
        minutes: Vec::new(),
        values: Vec::new(),
        marks,
        halves,
    };

    names_line(lines.get(at), b"minute,inj,vdk", bytes.len())?;

    let mut before: Option<u16> = None;
    for line in lines.iter().skip(at + 1) {
        let Some((minute, inj, value)) = reading_line(line) else {
            return refuse(3, line.start);
        };
        if before.is_some_and(|before| minute < before) {
            return refuse(4, line.start);
        }
        before = Some(minute);
        // The first two injections of a column are read and then dropped.
        if inj == 1 || inj == 2 {
            continue;
        }
        if sheet.minutes.len() == MOST_READINGS {
            return refuse(6, line.start);
        }
        sheet.minutes.push(minute);
        sheet.values.push(value);
    }
    Ok(sheet)
}

/// Report 2 of one of the two names lines; `length` is the place of one that
/// is not there [Reports].
fn names_line(line: Option<&Line>, names: &[u8], length: usize) -> Result<(), Refusal> {
    match line {
        None => refuse(2, length),
        Some(line) if !line.ended || line.text != names => refuse(2, line.start),
        Some(_) => Ok(()),
    }
}

/// The reader of the tank sheet; answers the counts of kept readings and of
/// marks, which stand at the front of the lists. Lists that have not the
/// greatest length are report 8 [The sheet].
pub fn read(
    sheet: &[u8],
    minutes: &mut [u16],
    values: &mut [u16],
    marks: &mut [u16],
    halves: &mut [u32],
) -> Result<(usize, usize), Refusal> {
    if minutes.len() != MOST_READINGS
        || values.len() != MOST_READINGS
        || marks.len() != MOST_MARKS
        || halves.len() != MOST_MARKS
    {
        return refuse(8, 0);
    }
    let found = sheet_of(sheet)?;
    let (kept, used) = (found.minutes.len(), found.marks.len());
    minutes[..kept].copy_from_slice(&found.minutes);
    values[..kept].copy_from_slice(&found.values);
    marks[..used].copy_from_slice(&found.marks);
    halves[..used].copy_from_slice(&found.halves);
    Ok((kept, used))
}

/// The curve of a sheet: a line for each mark with its row, a hyphen where the
/// value is missing, and behind an empty line the two counts [Output].
fn written(input: &[u8]) -> Result<String, Refusal> {
    let mut minutes = [0u16; MOST_READINGS];
    let mut values = [0u16; MOST_READINGS];
    let mut marks = [0u16; MOST_MARKS];
    let mut halves = [0u32; MOST_MARKS];
    let (kept, used) = read(input, &mut minutes, &mut values, &mut marks, &mut halves)?;

    let mut rows = vec![0u64; ROW_WIDTH * used];
    let passes = sweep(
        &minutes[..kept],
        &values[..kept],
        &marks[..used],
        &halves[..used],
        &mut rows,
    )?;

    let mut text = String::from("mark,half,left,right,weight,sum,vdk\n");
    for (k, row) in rows.chunks(ROW_WIDTH).enumerate() {
        let value = if row[4] == MISSING {
            String::from("-")
        } else {
            row[4].to_string()
        };
        text += &format!(
            "{},{},{},{},{},{},{}\n",
            marks[k], halves[k], row[0], row[1], row[2], row[3], value
        );
    }
    text += &format!("\nkept,passes\n{kept},{passes}\n");
    Ok(text)
}

/// The two lines that tell a refusal [Output].
fn refusal_lines(number: u64, place: u64) -> String {
    format!("refused,place\n{number},{place}\n")
}

/// What the program writes of a sheet without ranges [Output].
pub fn plain_program(input: &[u8]) -> Vec<u8> {
    match written(input) {
        Ok(text) => text.into_bytes(),
        Err(refusal) => refusal_lines(refusal.number.into(), refusal.place).into_bytes(),
    }
}

/// Puts a text at the front of a buffer; answers its length.
fn put_front(text: &str, out: &mut [u8]) -> usize {
    out[..text.len()].copy_from_slice(text.as_bytes());
    text.len()
}

/// The two lines of a refusal at the front of `out`, and their length, for
/// any number and place. A buffer that has not its length is report 8
/// [Output].
pub fn refusal_text(number: u64, place: u64, out: &mut [u8]) -> Result<usize, Refusal> {
    if out.len() != MOST_OUTPUT {
        return refuse(8, 0);
    }
    Ok(put_front(&refusal_lines(number, place), out))
}
