//! A case of each call, and its answer by the second implementation.

use crate::files::{Answer, Cases};
use reference::exported::{BOUNDS, COUNTS, PARTING, READER, RECORD};
use reference::pair::{compare, compared_run, Readings, Tank};
use reference::{
    fill, one_mark, one_mark_run, preview, read, record_row, refusal_text, step, sweep, text, turn,
    Record, Refusal, MOST_OUTPUT, ROW_WIDTH,
};

/// The most minutes, values, points or bandwidths: the program's MOST_ELEMENTS.
pub const MOST_ELEMENTS: usize = 1100;

/// The most rows.
pub const MOST_ROWS: usize = 2600;

/// The most numbers of a row, bounds or counts.
pub const MOST_NUMBERS: usize = 8;

/// The most numbers of a record.
const MOST_RECORD: usize = 16;

/// The most bytes of out.
pub const MOST_OUT: usize = 44_200;

pub fn wide<T: Copy + Into<u64>>(list: &[T]) -> Vec<u64> {
    list.iter().map(|&x| x.into()).collect()
}

/// A list as it stands in a case: its length, then its numbers.
pub fn listed<T: Copy + Into<u64>>(list: &[T], most: usize) -> Vec<u64> {
    assert!(list.len() <= most);
    let mut numbers = vec![list.len() as u64];
    numbers.extend(wide(list));
    numbers
}

/// A lent list's length as it stands in a case.
pub fn length(length: usize, most: usize) -> u64 {
    assert!(length <= most);
    length as u64
}

/// Report 8 of a list that has one length only.
pub fn sized(length: usize, wanted: usize) -> Result<(), Refusal> {
    if length == wanted {
        Ok(())
    } else {
        Err(Refusal {
            number: 8,
            place: 0,
        })
    }
}

/// A sweep or a preview.
type Sweep = fn(&[u16], &[u16], &[u16], &[u32], &mut [u64]) -> Result<u64, Refusal>;

/// What makes another record of one.
type Moving = fn(Record, &[u16], &[u16], u16, u32) -> Result<Record, Refusal>;

/// A record of its nine numbers.
fn record_of(numbers: &[u64]) -> Record {
    let mut sums = [0; RECORD - 3];
    sums.copy_from_slice(&numbers[2..RECORD - 1]);
    Record {
        left: numbers[0],
        right: numbers[1],
        sums,
        passes: numbers[RECORD - 1],
    }
}

/// The numbers of a case at one mark.
fn at_one_mark(
    minutes: &[u16],
    values: &[u16],
    point: u16,
    bandwidth: u32,
    lent: usize,
) -> Vec<u64> {
    let mut numbers = listed(minutes, MOST_ELEMENTS);
    numbers.extend(listed(values, MOST_ELEMENTS));
    numbers.extend([point.into(), bandwidth.into(), length(lent, MOST_NUMBERS)]);
    numbers
}

impl Cases {
    pub fn evaluate(
        &mut self,
        minutes: &[u16],
        values: &[u16],
        point: u16,
        bandwidth: u32,
        row: usize,
    ) -> Answer {
        let numbers = at_one_mark(minutes, values, point, bandwidth, row);
        self.case("evaluate", &numbers, b"");
        let result =
            sized(row, ROW_WIDTH).and_then(|()| one_mark(minutes, values, point, bandwidth));
        let list = result.map_or(vec![7; row], |numbers| numbers.to_vec());
        self.answer("evaluate", result.map(|_| 0), b"", vec![list])
    }

    pub fn window(
        &mut self,
        minutes: &[u16],
        values: &[u16],
        point: u16,
        bandwidth: u32,
        bounds: usize,
    ) -> Answer {
        let numbers = at_one_mark(minutes, values, point, bandwidth, bounds);
        self.case("window", &numbers, b"");
        let result =
            sized(bounds, BOUNDS).and_then(|()| one_mark(minutes, values, point, bandwidth));
        let (left, right) = one_mark_run(minutes, values, point, bandwidth);
        let list = result.map_or(vec![7; bounds], |_| vec![left as u64, right as u64]);
        self.answer("window", result.map(|_| 0), b"", vec![list])
    }

    /// Both calls at one mark; gives the row's answer.
    pub fn point(&mut self, minutes: &[u16], values: &[u16], point: u16, bandwidth: u32) -> Answer {
        self.window(minutes, values, point, bandwidth, BOUNDS);
        self.evaluate(minutes, values, point, bandwidth, ROW_WIDTH)
    }

    /// The step, or the turn, of a record of which `record` has the numbers.
    fn moved(
        &mut self,
        (call, moving): (&'static str, Moving),
        record: &[u64],
        minutes: &[u16],
        values: &[u16],
        point: u16,
        bandwidth: u32,
    ) -> Answer {
        let mut numbers = listed(record, MOST_RECORD);
        numbers.extend(listed(minutes, MOST_ELEMENTS));
        numbers.extend(listed(values, MOST_ELEMENTS));
        numbers.extend([u64::from(point), u64::from(bandwidth)]);
        self.case(call, &numbers, b"");
        let result = sized(record.len(), RECORD)
            .and_then(|()| moving(record_of(record), minutes, values, point, bandwidth));
        let list = match result {
            Ok(after) => [&[after.left, after.right], &after.sums[..], &[after.passes]].concat(),
            Err(_) => record.to_vec(),
        };
        self.answer(call, result.map(|_| 0), b"", vec![list])
    }

    /// The run of one mark's window, as the part that is handed back.
    pub fn window_part(&mut self, minutes: &[u16], values: &[u16], point: u16, bandwidth: u32) {
        let mut numbers = listed(minutes, MOST_ELEMENTS);
        numbers.extend(listed(values, MOST_ELEMENTS));
        numbers.extend([u64::from(point), u64::from(bandwidth)]);
        self.case("window run", &numbers, b"");
        let (left, right) = one_mark_run(minutes, values, point, bandwidth);
        self.part(&values[left..right]);
    }

    /// Two tanks, and the run that is handed back.
    pub fn compare(
        &mut self,
        first: Readings,
        second: Readings,
        points: &[u16],
        bandwidths: &[u32],
        out: usize,
    ) -> Answer {
        let mut numbers = vec![];
        for list in [first.0, first.1, second.0, second.1, points] {
            numbers.extend(listed(list, MOST_ELEMENTS));
        }
        numbers.extend(listed(bandwidths, MOST_ELEMENTS));
        numbers.push(length(out, MOST_NUMBERS));
        self.case("compare", &numbers, b"");
        let result = sized(out, PARTING).and_then(|()| compare(first, second, points, bandwidths));
        let (detail, list) = match result {
            Ok(Some(parting)) => {
                let detail = match parting.higher {
                    Tank::First => 1,
                    Tank::Second => 2,
                };
                let list = [parting.position, parting.left, parting.right];
                (detail, list.map(|n| n as u64).to_vec())
            }
            Ok(None) | Err(_) => (0, vec![7; out]),
        };
        let result = result.map(|_| detail);
        let answer = self.answer("compare", result, b"", vec![list]);
        let (tank, left, right) = compared_run(first, second, points, bandwidths);
        let values = match tank {
            Tank::First => first.1,
            Tank::Second => second.1,
        };
        self.part(&values[left..right]);
        answer
    }

    pub fn advance(
        &mut self,
        record: &[u64],
        minutes: &[u16],
        values: &[u16],
        point: u16,
        bandwidth: u32,
    ) -> Answer {
        self.moved(("advance", step), record, minutes, values, point, bandwidth)
    }

    pub fn turn(
        &mut self,
        record: &[u64],
        minutes: &[u16],
        values: &[u16],
        point: u16,
        bandwidth: u32,
    ) -> Answer {
        self.moved(("turn", turn), record, minutes, values, point, bandwidth)
    }

    /// The row of a record, of which `record` has the numbers.
    pub fn record_row(&mut self, record: &[u64], point: u16, bandwidth: u32, row: usize) -> Answer {
        let mut numbers = listed(record, MOST_RECORD);
        numbers.extend([
            u64::from(point),
            u64::from(bandwidth),
            length(row, MOST_NUMBERS),
        ]);
        self.case("row", &numbers, b"");
        let result = sized(record.len(), RECORD)
            .and_then(|()| sized(row, ROW_WIDTH))
            .map(|()| record_row(record_of(record), point, bandwidth));
        let list = result.map_or(vec![7; row], |five| five.to_vec());
        self.answer("row", result.map(|_| 0), b"", vec![list])
    }

    /// Steps that each take the record the one before returned or left; gives
    /// the last one's.
    pub fn steps(
        &mut self,
        record: [u64; RECORD],
        minutes: &[u16],
        values: &[u16],
        marks: &[(u16, u32)],
    ) -> Vec<u64> {
        let mut record = record.to_vec();
        for &(point, bandwidth) in marks {
            let answer = self.advance(&record, minutes, values, point, bandwidth);
            record = answer.lists[0].clone();
        }
        record
    }

    /// The sweep, or the preview.
    fn curve(
        &mut self,
        (call, sweep): (&'static str, Sweep),
        (minutes, values): (&[u16], &[u16]),
        (points, bandwidths): (&[u16], &[u32]),
        rows: usize,
    ) -> Answer {
        let mut numbers = listed(minutes, MOST_ELEMENTS);
        numbers.extend(listed(values, MOST_ELEMENTS));
        numbers.extend(listed(points, MOST_ELEMENTS));
        numbers.extend(listed(bandwidths, MOST_ELEMENTS));
        numbers.push(length(rows, MOST_ROWS));
        self.case(call, &numbers, b"");
        let mut list = vec![7; rows];
        let result = sweep(minutes, values, points, bandwidths, &mut list);
        self.answer(call, result, b"", vec![list])
    }

    pub fn smooth(
        &mut self,
        minutes: &[u16],
        values: &[u16],
        points: &[u16],
        bandwidths: &[u32],
        rows: usize,
    ) -> Answer {
        let (samples, grid) = ((minutes, values), (points, bandwidths));
        self.curve(("smooth", sweep), samples, grid, rows)
    }

    pub fn preview(
        &mut self,
        minutes: &[u16],
        values: &[u16],
        points: &[u16],
        bandwidths: &[u32],
        rows: usize,
    ) -> Answer {
        let (samples, grid) = ((minutes, values), (points, bandwidths));
        self.curve(("preview", preview), samples, grid, rows)
    }

    pub fn fill(
        &mut self,
        first: u16,
        spacing: u16,
        preset: u32,
        points: usize,
        bandwidths: usize,
    ) -> Answer {
        let numbers = [
            first.into(),
            spacing.into(),
            preset.into(),
            length(points, MOST_ELEMENTS),
            length(bandwidths, MOST_ELEMENTS),
        ];
        self.case("fill", &numbers, b"");
        let mut point_list = vec![7; points];
        let mut bandwidth_list = vec![7; bandwidths];
        let result = fill(first, spacing, preset, &mut point_list, &mut bandwidth_list);
        let lists = vec![wide(&point_list), wide(&bandwidth_list)];
        self.answer("fill", result.map(|()| 0), b"", lists)
    }

    pub fn read(&mut self, sheet: &[u8], lengths: [usize; 5]) -> Answer {
        let mut numbers = vec![];
        numbers.extend(lengths[..4].iter().map(|&n| length(n, MOST_ELEMENTS)));
        numbers.push(length(lengths[4], MOST_NUMBERS));
        self.case("read", &numbers, sheet);
        let mut minutes = vec![7; lengths[0]];
        let mut values = vec![7; lengths[1]];
        let mut points = vec![7; lengths[2]];
        let mut bandwidths = vec![7; lengths[3]];
        let result = sized(lengths[4], COUNTS).and_then(|()| {
            read(
                sheet,
                &mut minutes,
                &mut values,
                &mut points,
                &mut bandwidths,
            )
        });
        let counts = result.map_or(vec![7; lengths[4]], |(kept, marks)| {
            vec![kept as u64, marks as u64]
        });
        let lists = vec![
            wide(&minutes),
            wide(&values),
            wide(&points),
            wide(&bandwidths),
            counts,
        ];
        self.answer("read", result.map(|_| 0), b"", lists)
    }

    pub fn text(&mut self, sheet: &[u8], out: usize) -> Answer {
        match out {
            MOST_OUTPUT => self.case("text", &[], sheet),
            _ => self.case("text lent", &[length(out, MOST_OUT)], sheet),
        }
        let mut list = vec![7; out];
        let result = text(sheet, &mut list);
        self.written("text", result, &list)
    }

    pub fn refusal_text(&mut self, number: u64, place: u64, out: usize) -> Answer {
        match out {
            MOST_OUTPUT => self.case("refusal_text", &[number, place], b""),
            _ => {
                let numbers = [number, place, length(out, MOST_OUT)];
                self.case("refusal_text lent", &numbers, b"");
            }
        }
        let mut list = vec![7; out];
        let result = refusal_text(number, place, &mut list);
        self.written("refusal_text", result, &list)
    }

    /// The answer of a call that writes bytes to the front of out.
    fn written(
        &mut self,
        call: &'static str,
        result: Result<usize, Refusal>,
        out: &[u8],
    ) -> Answer {
        let (front, rest) = out.split_at(result.unwrap_or(0));
        let result = result.map(|n| n as u64);
        self.answer(call, result, front, vec![wide(rest)])
    }

    /// A sheet read, and its text; gives the reader's answer. The text is
    /// refused as the reader refuses.
    pub fn sheet(&mut self, sheet: &[u8]) -> Answer {
        let text = self.text(sheet, MOST_OUTPUT);
        let answer = self.read(sheet, READER);
        assert_eq!(text.number, answer.number);
        if answer.number != 0 {
            text.refused(answer.number, answer.detail);
        }
        answer
    }
}
