//! One case of each call: lent to the export and to the second implementation, everything compared.
//!
//! Every function here lends the export lists among guard elements, over slices of any length; where
//! the lengths are those of the typed call it makes that call too. What comes back is the first
//! difference, with the whole case.

use crate::lent::Lent;
use crate::tally::Tally;
use reference::exported::{BOUNDS, COUNTS, DETAIL_UNIT, READER, RECORD};
use reference::generators::random::Random;
use reference::{Record, MOST_OUTPUT, PREVIEW_MARKS, PREVIEW_READINGS, ROW_WIDTH};
use std::fmt::{self, Debug};
use std::io::{self, Write};
use std::path::PathBuf;
use std::process::{Command, Stdio};
use tankcurve::{
    slices, Counts, Error, Estimate, RecordRow, Refusal, Report, RunningSums, Smoothed,
};

/// A number, 0 or a report, and its detail.
pub type Answer = (u8, u64);

/// Report 8 at place 0, of a list for the answer that has another length than stated.
pub const WRONG_LENGTH: Answer = (8, 0);

/// Every report, for the typed call that takes one.
const REPORTS: [Report; 17] = [
    Report::TooLong,
    Report::BadHeader,
    Report::MalformedLine,
    Report::SampleOutOfOrder,
    Report::PointOutOfOrder,
    Report::TooMany,
    Report::NoPoints,
    Report::LengthMismatch,
    Report::BandwidthOutOfRange,
    Report::EdgeDecreases,
    Report::InvalidRecord,
    Report::UnknownPreset,
    Report::GridOverflow,
    Report::TooFewSamples,
    Report::CrossedRange,
    Report::SecondSeries,
    Report::TemperatureOutOfOrder,
];

/// The calls, with their tallies.
pub struct Calls {
    program: PathBuf,
    patterns: Random,
    evaluate: Tally,
    window: Tally,
    advance: Tally,
    turn: Tally,
    row: Tally,
    smooth: Tally,
    preview: Tally,
    every_curve: Tally,
    fill: Tally,
    read: Tally,
    text: Tally,
    refusal_text: Tally,
    run: Tally,
}

/// A call of minutes, values, points and bandwidths that fills lent rows.
type Sweeping<A> = fn(&[u16], &[u16], &[u16], &[u32], &mut [u64]) -> A;

/// The same of the crate, whose answer borrows the rows.
type TypedSweeping =
    for<'a> fn(&[u16], &[u16], &[u16], &[u32], &'a mut [u64]) -> Result<Smoothed<'a>, Error>;

/// A sweep or a preview: by the second implementation, over slices of any length, and typed.
struct Sweep {
    name: &'static str,
    reference: Sweeping<Result<u64, reference::Refusal>>,
    exported: Sweeping<u64>,
    typed: TypedSweeping,
}

const SMOOTH: Sweep = Sweep {
    name: "smooth",
    reference: reference::sweep,
    exported: slices::smooth,
    typed: tankcurve::smooth,
};

const PREVIEW: Sweep = Sweep {
    name: "preview",
    reference: reference::preview,
    exported: slices::preview,
    typed: tankcurve::preview,
};

/// Bytes shown as text.
#[derive(PartialEq)]
struct Bytes<'a>(&'a [u8]);

impl Debug for Bytes<'_> {
    fn fmt(&self, f: &mut fmt::Formatter) -> fmt::Result {
        write!(f, "b\"{}\"", self.0.escape_ascii())
    }
}

/// Puts the case behind its difference.
macro_rules! with_case {
    ($found:expr, $call:expr, $($name:ident = $value:expr),+) => {
        $found.map_err(|difference: String| {
            let mut shown = format!("{}: {difference}\nthe case:", $call);
            $(shown += &format!("\n    {} = {:?}", stringify!($name), $value);)+
            shown
        })
    };
}

/// What the export has to return.
pub fn code(answer: Answer) -> u64 {
    DETAIL_UNIT * answer.1 + u64::from(answer.0)
}

pub fn refused(refusal: reference::Refusal) -> Answer {
    (refusal.number, refusal.place)
}

/// A typed result, its refusal as number and place; an answer that is unknown as a number that none has.
pub fn typed<T>(result: Result<T, Error>) -> Result<T, Answer> {
    result.map_err(|error| match error {
        Error::Refused(refusal) => (refusal.report as u8, refusal.place),
        Error::Unknown(answer) => (u8::MAX, answer),
    })
}

pub fn same<T: PartialEq + Debug>(what: &str, expected: T, got: T) -> Result<(), String> {
    if expected == got {
        return Ok(());
    }
    Err(format!("{what}: expected {expected:?}, got {got:?}"))
}

/// A present value lies between the lowest and the highest value of the samples with a weight.
pub fn among(
    minutes: &[u16],
    values: &[u16],
    point: u16,
    bandwidth: u32,
    row: &[u64],
) -> Result<(), String> {
    let near = |&(&m, _): &(&u16, &u16)| u32::from(m.abs_diff(point)) < bandwidth;
    let weighed = || minutes.iter().zip(values).filter(near);
    let low = weighed().map(|(_, &v)| u64::from(v)).min();
    let high = weighed().map(|(_, &v)| u64::from(v)).max();
    let present = row[4] != tankcurve::MISSING;
    same("weight", present, row[2] > 0)?;
    same("a value at all", low.is_some(), present)?;
    if present && (Some(row[4]) < low || Some(row[4]) > high) {
        return Err(format!("value {} is not from {low:?} to {high:?}", row[4]));
    }
    Ok(())
}

/// Runs a comparison up to its first difference.
fn attempt(comparison: impl FnOnce() -> Result<(), String>) -> Result<(), String> {
    comparison()
}

/// A list as one of a length given by its type.
fn sized<T, const N: usize>(list: &mut [T]) -> Result<&mut [T; N], String> {
    let length = list.len();
    list.try_into()
        .map_err(|_| format!("the type has {N} elements and not {length}"))
}

/// The nine numbers of a record.
fn numbers(record: Record) -> [u64; RECORD] {
    let [s00, s10, s20, s01, s11, s21] = record.sums;
    [
        record.left,
        record.right,
        s00,
        s10,
        s20,
        s01,
        s11,
        s21,
        record.passes,
    ]
}

/// The same record, typed.
fn running_sums(record: Record) -> RunningSums {
    let [s00, s10, s20, s01, s11, s21] = record.sums;
    RunningSums {
        left: record.left,
        right: record.right,
        s00,
        s10,
        s20,
        s01,
        s11,
        s21,
        passes: record.passes,
    }
}

/// A call of a record, minutes, values, a point and a bandwidth.
type Move<R, A> = fn(R, &[u16], &[u16], u16, u32) -> A;

/// The same on a lent record.
type MoveLent<R, A> = fn(&mut R, &[u16], &[u16], u16, u32) -> A;

/// A call that makes another record of one: the step or the turn, in its three forms.
struct Moving {
    name: &'static str,
    reference: Move<Record, Result<Record, reference::Refusal>>,
    export: MoveLent<[u64], u64>,
    typed: MoveLent<RunningSums, Result<(), Error>>,
}

const STEP: Moving = Moving {
    name: "advance",
    reference: reference::step,
    export: slices::advance,
    typed: tankcurve::advance,
};

const TURN: Moving = Moving {
    name: "turn",
    reference: reference::turn,
    export: slices::turn,
    typed: tankcurve::turn,
};

/// The report that a text of the program tells, or 0.
fn told(text: &[u8]) -> u8 {
    let Some(line) = text.strip_prefix(b"refused,place\n") else {
        return 0;
    };
    let digits = line.iter().take_while(|byte| byte.is_ascii_digit());
    digits.fold(0, |number, byte| 10 * number + (byte - b'0'))
}

impl Calls {
    pub fn new(program: PathBuf) -> Calls {
        Calls {
            program,
            patterns: Random(1),
            evaluate: Tally::new("evaluate", &[8, 6, 4, 9]),
            window: Tally::new("window", &[8, 6, 4, 9]),
            advance: Tally::new("advance", &[8, 6, 11, 9]),
            turn: Tally::new("turn", &[8, 6, 4, 11, 9]),
            row: Tally::new("row", &[8]),
            smooth: Tally::new("smooth", &[8, 6, 7, 4, 5, 9, 10]),
            preview: Tally::new("preview", &[8, 6, 7, 4, 5, 9, 10]),
            every_curve: Tally::new("every curve", &[4, 9]),
            fill: Tally::new("fill", &[8, 7, 6, 12, 13]),
            read: Tally::new("read", &[8, 1, 2, 3, 4, 5, 9, 10, 6, 7]),
            text: Tally::new("text", &[8, 1, 2, 3, 4, 15, 5, 9, 10, 6, 7]),
            refusal_text: Tally::new("refusal_text", &[8]),
            run: Tally::new("program", &[1, 2, 3, 4, 15, 5, 9, 10, 6, 7]),
        }
    }

    pub fn tallies(&self) -> [&Tally; 13] {
        [
            &self.evaluate,
            &self.window,
            &self.advance,
            &self.turn,
            &self.row,
            &self.smooth,
            &self.preview,
            &self.every_curve,
            &self.fill,
            &self.read,
            &self.text,
            &self.refusal_text,
            &self.run,
        ]
    }

    pub fn evaluate(
        &mut self,
        minutes: &[u16],
        values: &[u16],
        point: u16,
        bandwidth: u32,
        row_len: usize,
    ) -> Result<(), String> {
        let result = reference::one_mark(minutes, values, point, bandwidth).map_err(refused);
        let expected = if row_len == ROW_WIDTH {
            result
        } else {
            Err(WRONG_LENGTH)
        };
        let answer = expected.err().unwrap_or((0, 0));
        let lent_minutes = Lent::holding(&mut self.patterns, minutes);
        let lent_values = Lent::holding(&mut self.patterns, values);
        let mut row = Lent::patterned(&mut self.patterns, row_len);
        let found = attempt(|| {
            let got = slices::evaluate(
                lent_minutes.list(),
                lent_values.list(),
                point,
                bandwidth,
                row.list_mut(),
            );
            same("returned", code(answer), got)?;
            lent_minutes.untouched("minutes")?;
            lent_values.untouched("values")?;
            match expected {
                Ok(front) => row.holds("row", &front)?,
                Err(_) => row.untouched("row")?,
            }
            let got =
                tankcurve::evaluate(lent_minutes.list(), lent_values.list(), point, bandwidth);
            let fields = |e: Estimate| {
                // Missing by the weight, and else the number itself.
                let value = e.value().map_or(tankcurve::MISSING, u64::from);
                [e.left(), e.right(), e.weight(), e.sum(), value]
            };
            same("typed", result, typed(got).map(fields))
        });
        self.evaluate.count(answer.0);
        with_case!(
            found,
            "evaluate",
            minutes = minutes,
            values = values,
            point = point,
            bandwidth = bandwidth,
            row_len = row_len
        )
    }

    pub fn window(
        &mut self,
        minutes: &[u16],
        values: &[u16],
        point: u16,
        bandwidth: u32,
        bounds_len: usize,
    ) -> Result<(), String> {
        let run = reference::one_mark_run(minutes, values, point, bandwidth);
        let result = reference::one_mark(minutes, values, point, bandwidth)
            .map(|_| run)
            .map_err(refused);
        let expected = if bounds_len == BOUNDS {
            result
        } else {
            Err(WRONG_LENGTH)
        };
        let answer = expected.err().unwrap_or((0, 0));
        let lent_minutes = Lent::holding(&mut self.patterns, minutes);
        let lent_values = Lent::holding(&mut self.patterns, values);
        let mut bounds = Lent::patterned(&mut self.patterns, bounds_len);
        let found = attempt(|| {
            let got = slices::window(
                lent_minutes.list(),
                lent_values.list(),
                point,
                bandwidth,
                bounds.list_mut(),
            );
            same("returned", code(answer), got)?;
            lent_minutes.untouched("minutes")?;
            lent_values.untouched("values")?;
            match expected {
                Ok((left, right)) => bounds.holds("bounds", &[left as u64, right as u64])?,
                Err(_) => bounds.untouched("bounds")?,
            }
            // The run is that part of the lent list itself.
            let lent = lent_values.list();
            let got = typed(tankcurve::window(
                lent_minutes.list(),
                lent,
                point,
                bandwidth,
            ));
            let part = result.map(|(left, right)| &lent[left..right]);
            same(
                "typed",
                part.map(<[u16]>::as_ptr_range),
                got.map(<[u16]>::as_ptr_range),
            )
        });
        self.window.count(answer.0);
        with_case!(
            found,
            "window",
            minutes = minutes,
            values = values,
            point = point,
            bandwidth = bandwidth,
            bounds_len = bounds_len
        )
    }

    /// The tally of a call on a record.
    fn count(&mut self, call: &Moving, number: u8) {
        match call.name {
            "turn" => self.turn.count(number),
            _ => self.advance.count(number),
        }
    }

    /// One step or turn. Gives the record that it returned or left.
    fn moved(
        &mut self,
        call: &Moving,
        record: Record,
        minutes: &[u16],
        values: &[u16],
        point: u16,
        bandwidth: u32,
    ) -> Result<Record, String> {
        let result = (call.reference)(record, minutes, values, point, bandwidth).map_err(refused);
        let answer = result.err().unwrap_or((0, 0));
        let after = result.unwrap_or(record);
        let lent_minutes = Lent::holding(&mut self.patterns, minutes);
        let lent_values = Lent::holding(&mut self.patterns, values);
        let mut lent_record = Lent::holding(&mut self.patterns, &numbers(record));
        let found = attempt(|| {
            let got = (call.export)(
                lent_record.list_mut(),
                lent_minutes.list(),
                lent_values.list(),
                point,
                bandwidth,
            );
            same("returned", code(answer), got)?;
            lent_minutes.untouched("minutes")?;
            lent_values.untouched("values")?;
            lent_record.holds("record", &numbers(after))?;
            let mut sums = running_sums(record);
            let got = (call.typed)(
                &mut sums,
                lent_minutes.list(),
                lent_values.list(),
                point,
                bandwidth,
            );
            same("typed", result.map(|_| ()), typed(got))?;
            same("typed, record", running_sums(after), sums)
        });
        self.count(call, answer.0);
        with_case!(
            found,
            call.name,
            record = numbers(record),
            minutes = minutes,
            values = values,
            point = point,
            bandwidth = bandwidth
        )?;
        Ok(after)
    }

    /// One step or turn with a record of another length than 9.
    fn moved_wrong_length(
        &mut self,
        call: &Moving,
        record_len: usize,
        minutes: &[u16],
        values: &[u16],
        point: u16,
        bandwidth: u32,
    ) -> Result<(), String> {
        let lent_minutes = Lent::holding(&mut self.patterns, minutes);
        let lent_values = Lent::holding(&mut self.patterns, values);
        // All zero, so that it is the record's length and not its content that is refused.
        let mut record = Lent::holding(&mut self.patterns, &vec![0; record_len]);
        let found = attempt(|| {
            let got = (call.export)(
                record.list_mut(),
                lent_minutes.list(),
                lent_values.list(),
                point,
                bandwidth,
            );
            same("returned", code(WRONG_LENGTH), got)?;
            lent_minutes.untouched("minutes")?;
            lent_values.untouched("values")?;
            record.untouched("record")
        });
        self.count(call, WRONG_LENGTH.0);
        with_case!(
            found,
            call.name,
            record_len = record_len,
            minutes = minutes,
            values = values,
            point = point,
            bandwidth = bandwidth
        )
    }

    pub fn advance(
        &mut self,
        record: Record,
        minutes: &[u16],
        values: &[u16],
        point: u16,
        bandwidth: u32,
    ) -> Result<Record, String> {
        self.moved(&STEP, record, minutes, values, point, bandwidth)
    }

    pub fn turn(
        &mut self,
        record: Record,
        minutes: &[u16],
        values: &[u16],
        point: u16,
        bandwidth: u32,
    ) -> Result<Record, String> {
        self.moved(&TURN, record, minutes, values, point, bandwidth)
    }

    pub fn advance_wrong_length(
        &mut self,
        record_len: usize,
        minutes: &[u16],
        values: &[u16],
        point: u16,
        bandwidth: u32,
    ) -> Result<(), String> {
        self.moved_wrong_length(&STEP, record_len, minutes, values, point, bandwidth)
    }

    pub fn turn_wrong_length(
        &mut self,
        record_len: usize,
        minutes: &[u16],
        values: &[u16],
        point: u16,
        bandwidth: u32,
    ) -> Result<(), String> {
        self.moved_wrong_length(&TURN, record_len, minutes, values, point, bandwidth)
    }

    /// The row of a record, also through lists of other lengths than 9 and 5.
    pub fn row(
        &mut self,
        record: Record,
        point: u16,
        bandwidth: u32,
        record_len: usize,
        row_len: usize,
    ) -> Result<(), String> {
        let result = reference::record_row(record, point, bandwidth);
        let fits = record_len == RECORD && row_len == ROW_WIDTH;
        let answer = if fits { (0, 0) } else { WRONG_LENGTH };
        let cycle = numbers(record).into_iter().cycle();
        let held: Vec<u64> = cycle.take(record_len).collect();
        let lent_record = Lent::holding(&mut self.patterns, &held);
        let mut row = Lent::patterned(&mut self.patterns, row_len);
        let found = attempt(|| {
            let got = slices::row(lent_record.list(), point, bandwidth, row.list_mut());
            same("returned", code(answer), got)?;
            lent_record.untouched("record")?;
            if fits {
                row.holds("row", &result)?;
            } else {
                row.untouched("row")?;
            }
            let got = tankcurve::row(running_sums(record), point, bandwidth);
            let fields = |r: RecordRow| [r.left(), r.right(), r.weight(), r.sum(), r.raw_value()];
            same("typed", Ok(result), typed(got).map(fields))
        });
        self.row.count(answer.0);
        with_case!(
            found,
            "row",
            record = numbers(record),
            point = point,
            bandwidth = bandwidth,
            record_len = record_len,
            row_len = row_len
        )
    }

    /// The sweep, over slices of any length and typed.
    pub fn smooth(
        &mut self,
        minutes: &[u16],
        values: &[u16],
        points: &[u16],
        bandwidths: &[u32],
        rows_len: usize,
    ) -> Result<(), String> {
        let (found, answer) = self.swept(&SMOOTH, minutes, values, points, bandwidths, rows_len);
        self.smooth.count(answer.0);
        found
    }

    /// The preview, also against the archive's own sweep: within the preview's limits both give the same;
    /// over them the preview gives 8 where the sweep does, and otherwise 6.
    pub fn preview(
        &mut self,
        minutes: &[u16],
        values: &[u16],
        points: &[u16],
        bandwidths: &[u32],
        rows_len: usize,
    ) -> Result<(), String> {
        let (found, answer) = self.swept(&PREVIEW, minutes, values, points, bandwidths, rows_len);
        self.preview.count(answer.0);
        let small = minutes.len() <= PREVIEW_READINGS && points.len() <= PREVIEW_MARKS;
        let beside = attempt(|| {
            let mut rows = Lent::patterned(&mut self.patterns, rows_len);
            let mut full = rows.list().to_vec();
            let got = slices::preview(minutes, values, points, bandwidths, rows.list_mut());
            let sweep = slices::smooth(minutes, values, points, bandwidths, &mut full);
            if small {
                same("beside the sweep", sweep, got)?;
                return rows.holds("rows beside the sweep", &full);
            }
            let expected = if sweep == 8 { 8 } else { 6 };
            same("beside the sweep, over the limits", expected, got)?;
            rows.untouched("rows over the limits")
        });
        found?;
        with_case!(
            beside,
            "preview",
            minutes = minutes,
            values = values,
            points = points,
            bandwidths = bandwidths,
            rows_len = rows_len
        )
    }

    /// What holds of every curve, tried on the archive's calls at one point and over all of them: a present
    /// value lies between the lowest and the highest value of the samples nearer to the point than the
    /// bandwidth; and `moved`, the values in other places at samples of their minute, gives the same.
    pub fn every_curve(
        &mut self,
        minutes: &[u16],
        values: &[u16],
        moved: &[u16],
        points: &[u16],
        bandwidths: &[u32],
    ) -> Result<(), String> {
        let rows_len = ROW_WIDTH * points.len();
        let mut number = 0;
        let found = attempt(|| {
            for call in [slices::smooth, slices::preview] {
                let mut lists = [vec![7; rows_len], vec![7; rows_len]];
                let got = call(minutes, values, points, bandwidths, &mut lists[0]);
                let beside = call(minutes, moved, points, bandwidths, &mut lists[1]);
                same("values in other places", got, beside)?;
                same("rows in other places", &lists[0], &lists[1])?;
                if got % DETAIL_UNIT == 0 {
                    for (k, row) in lists[0].chunks(ROW_WIDTH).enumerate() {
                        among(minutes, values, points[k], bandwidths[k], row)?;
                    }
                }
            }
            for (&point, &bandwidth) in points.iter().zip(bandwidths) {
                let mut lists = [[7; ROW_WIDTH]; 2];
                let got = slices::evaluate(minutes, values, point, bandwidth, &mut lists[0]);
                let beside = slices::evaluate(minutes, moved, point, bandwidth, &mut lists[1]);
                same("a row in other places", (got, lists[0]), (beside, lists[1]))?;
                if got == 0 {
                    among(minutes, values, point, bandwidth, &lists[0])?;
                }
                number = (got % DETAIL_UNIT) as u8;
            }
            Ok(())
        });
        self.every_curve.count(number);
        with_case!(
            found,
            "every curve",
            minutes = minutes,
            values = values,
            moved = moved,
            points = points,
            bandwidths = bandwidths
        )
    }

    fn swept(
        &mut self,
        sweep: &Sweep,
        minutes: &[u16],
        values: &[u16],
        points: &[u16],
        bandwidths: &[u32],
        rows_len: usize,
    ) -> (Result<(), String>, Answer) {
        let mut front = vec![0; rows_len];
        let result = (sweep.reference)(minutes, values, points, bandwidths, &mut front);
        let result = result.map_err(refused);
        let answer = result.map_or_else(|refusal| refusal, |passes| (0, passes));
        if result.is_err() {
            front.clear();
        }
        let lent_minutes = Lent::holding(&mut self.patterns, minutes);
        let lent_values = Lent::holding(&mut self.patterns, values);
        let lent_points = Lent::holding(&mut self.patterns, points);
        let lent_bandwidths = Lent::holding(&mut self.patterns, bandwidths);
        let mut rows = Lent::patterned(&mut self.patterns, rows_len);
        let mut typed_rows = Lent::patterned(&mut self.patterns, rows_len);
        let found = attempt(|| {
            let got = (sweep.exported)(
                lent_minutes.list(),
                lent_values.list(),
                lent_points.list(),
                lent_bandwidths.list(),
                rows.list_mut(),
            );
            same("returned", code(answer), got)?;
            lent_minutes.untouched("minutes")?;
            lent_values.untouched("values")?;
            lent_points.untouched("points")?;
            lent_bandwidths.untouched("bandwidths")?;
            rows.holds("rows", &front)?;
            let got = (sweep.typed)(
                lent_minutes.list(),
                lent_values.list(),
                lent_points.list(),
                lent_bandwidths.list(),
                typed_rows.list_mut(),
            );
            let got = typed(got).map(|curve| {
                let rows = curve.rows.flat_map(<[u64; ROW_WIDTH]>::from);
                (curve.passes, rows.collect::<Vec<u64>>())
            });
            let rows = |passes| (passes, front.clone());
            same("typed", result.map(rows), got)?;
            typed_rows.holds("typed, rows", &front)
        });
        let found = with_case!(
            found,
            sweep.name,
            minutes = minutes,
            values = values,
            points = points,
            bandwidths = bandwidths,
            rows_len = rows_len
        );
        (found, answer)
    }

    pub fn fill(
        &mut self,
        first: u16,
        spacing: u16,
        preset: u32,
        points_len: usize,
        bandwidths_len: usize,
    ) -> Result<(), String> {
        let mut points_front = vec![0; points_len];
        let mut bandwidths_front = vec![0; bandwidths_len];
        let result = reference::fill(
            first,
            spacing,
            preset,
            &mut points_front,
            &mut bandwidths_front,
        )
        .map_err(refused);
        let answer = result.err().unwrap_or((0, 0));
        if result.is_err() {
            points_front.clear();
            bandwidths_front.clear();
        }
        let mut points = Lent::patterned(&mut self.patterns, points_len);
        let mut bandwidths = Lent::patterned(&mut self.patterns, bandwidths_len);
        let mut typed_points = Lent::patterned(&mut self.patterns, points_len);
        let mut typed_bandwidths = Lent::patterned(&mut self.patterns, bandwidths_len);
        let found = attempt(|| {
            let got = slices::fill(
                first,
                spacing,
                preset,
                points.list_mut(),
                bandwidths.list_mut(),
            );
            same("returned", code(answer), got)?;
            points.holds("points", &points_front)?;
            bandwidths.holds("bandwidths", &bandwidths_front)?;
            let got = tankcurve::fill(
                first,
                spacing,
                preset,
                typed_points.list_mut(),
                typed_bandwidths.list_mut(),
            );
            same("typed", result, typed(got))?;
            typed_points.holds("typed, points", &points_front)?;
            typed_bandwidths.holds("typed, bandwidths", &bandwidths_front)
        });
        self.fill.count(answer.0);
        with_case!(
            found,
            "fill",
            first = first,
            spacing = spacing,
            preset = preset,
            points_len = points_len,
            bandwidths_len = bandwidths_len
        )
    }

    /// One sheet, with lists of these lengths, in the order of `READER`.
    pub fn read(&mut self, sheet: &[u8], lengths: [usize; 5]) -> Result<(), String> {
        let mut fronts = (
            vec![0; lengths[0]],
            vec![0; lengths[1]],
            vec![0; lengths[2]],
            vec![0; lengths[3]],
        );
        let result = if lengths[4] == COUNTS {
            reference::read(
                sheet,
                &mut fronts.0,
                &mut fronts.1,
                &mut fronts.2,
                &mut fronts.3,
            )
            .map_err(refused)
        } else {
            Err(WRONG_LENGTH)
        };
        let answer = result.err().unwrap_or((0, 0));
        let (samples, used) = result.unwrap_or((0, 0));
        fronts.0.truncate(samples);
        fronts.1.truncate(samples);
        fronts.2.truncate(used);
        fronts.3.truncate(used);
        let counts_front: &[u64] = if result.is_ok() {
            &[samples as u64, used as u64]
        } else {
            &[]
        };
        let lent_sheet = Lent::holding(&mut self.patterns, sheet);
        let mut minutes = Lent::patterned(&mut self.patterns, lengths[0]);
        let mut values = Lent::patterned(&mut self.patterns, lengths[1]);
        let mut points = Lent::patterned(&mut self.patterns, lengths[2]);
        let mut bandwidths = Lent::patterned(&mut self.patterns, lengths[3]);
        let mut counts = Lent::patterned(&mut self.patterns, lengths[4]);
        let found = attempt(|| {
            let got = slices::read(
                lent_sheet.list(),
                minutes.list_mut(),
                values.list_mut(),
                points.list_mut(),
                bandwidths.list_mut(),
                counts.list_mut(),
            );
            same("returned", code(answer), got)?;
            lent_sheet.untouched("sheet")?;
            minutes.holds("minutes", &fronts.0)?;
            values.holds("values", &fronts.1)?;
            points.holds("points", &fronts.2)?;
            bandwidths.holds("bandwidths", &fronts.3)?;
            counts.holds("counts", counts_front)?;
            if lengths == READER {
                self.read_typed(sheet, result, &fronts)?;
            }
            Ok(())
        });
        self.read.count(answer.0);
        with_case!(found, "read", sheet = Bytes(sheet), lengths = lengths)
    }

    /// One sheet by the typed call.
    fn read_typed(
        &mut self,
        sheet: &[u8],
        result: Result<(usize, usize), Answer>,
        fronts: &(Vec<u16>, Vec<u16>, Vec<u16>, Vec<u32>),
    ) -> Result<(), String> {
        let mut minutes = Lent::patterned(&mut self.patterns, 1024);
        let mut values = Lent::patterned(&mut self.patterns, 1024);
        let mut points = Lent::patterned(&mut self.patterns, 512);
        let mut bandwidths = Lent::patterned(&mut self.patterns, 512);
        let got = tankcurve::read(
            sheet,
            sized(minutes.list_mut())?,
            sized(values.list_mut())?,
            sized(points.list_mut())?,
            sized(bandwidths.list_mut())?,
        );
        let counts = result.map(|(samples, points)| Counts {
            samples: samples as u64,
            points: points as u64,
        });
        same("typed", counts, typed(got))?;
        minutes.holds("typed, minutes", &fronts.0)?;
        values.holds("typed, values", &fronts.1)?;
        points.holds("typed, points", &fronts.2)?;
        bandwidths.holds("typed, bandwidths", &fronts.3)
    }

    /// One sheet, with a buffer of this length.
    pub fn text(&mut self, sheet: &[u8], out_len: usize) -> Result<(), String> {
        let mut front = vec![0; out_len];
        let result = reference::text(sheet, &mut front).map_err(refused);
        let answer = result.map_or_else(|refusal| refusal, |size| (0, size as u64));
        front.truncate(result.unwrap_or(0));
        let lent_sheet = Lent::holding(&mut self.patterns, sheet);
        let mut out = Lent::patterned(&mut self.patterns, out_len);
        let mut typed_out = Lent::patterned(&mut self.patterns, out_len);
        let found = attempt(|| {
            let got = slices::text(lent_sheet.list(), out.list_mut());
            same("returned", code(answer), got)?;
            lent_sheet.untouched("sheet")?;
            out.holds("out", &front)?;
            if out_len == MOST_OUTPUT {
                let got = tankcurve::text(lent_sheet.list(), sized(typed_out.list_mut())?);
                let written = result.map(|_| Bytes(&front));
                same("typed", written, typed(got).map(Bytes))?;
                lent_sheet.untouched("typed, sheet")?;
                typed_out.holds("typed, out", &front)?;
            }
            Ok(())
        });
        self.text.count(answer.0);
        with_case!(found, "text", sheet = Bytes(sheet), out_len = out_len)
    }

    /// The text of one refusal, with a buffer of this length.
    pub fn refusal_text(&mut self, number: u64, place: u64, out_len: usize) -> Result<(), String> {
        let mut front = vec![0; out_len];
        let result = reference::refusal_text(number, place, &mut front).map_err(refused);
        let answer = result.map_or_else(|refusal| refusal, |size| (0, size as u64));
        front.truncate(result.unwrap_or(0));
        let mut out = Lent::patterned(&mut self.patterns, out_len);
        let mut typed_out = Lent::patterned(&mut self.patterns, out_len);
        let report = REPORTS.into_iter().find(|&report| report as u64 == number);
        let found = attempt(|| {
            let got = slices::refusal_text(number, place, out.list_mut());
            same("returned", code(answer), got)?;
            out.holds("out", &front)?;
            if let (Some(report), MOST_OUTPUT) = (report, out_len) {
                let refusal = Refusal { report, place };
                let got = tankcurve::refusal_text(refusal, sized(typed_out.list_mut())?);
                let written = result.map(|_| Bytes(&front));
                same("typed", written, typed(got).map(Bytes))?;
                typed_out.holds("typed, out", &front)?;
            }
            Ok(())
        });
        self.refusal_text.count(answer.0);
        with_case!(
            found,
            "refusal_text",
            number = number,
            place = place,
            out_len = out_len
        )
    }

    /// One sheet through the program's standard input, and what comes out.
    pub fn run(&mut self, sheet: &[u8]) -> Result<(), String> {
        let expected = reference::program(sheet);
        let found = attempt(|| {
            let got = self.piped(sheet).map_err(|error| error.to_string())?;
            same("standard output", Bytes(&expected), Bytes(&got))
        });
        self.run.count(told(&expected));
        with_case!(found, "program", sheet = Bytes(sheet))
    }

    fn piped(&self, sheet: &[u8]) -> io::Result<Vec<u8>> {
        let mut child = Command::new(&self.program)
            .stdin(Stdio::piped())
            .stdout(Stdio::piped())
            .stderr(Stdio::piped())
            .spawn()?;
        if let Some(mut input) = child.stdin.take() {
            // The program need not read a sheet that is too long to its end.
            match input.write_all(sheet) {
                Err(error)
                    if error.kind() != io::ErrorKind::BrokenPipe
                        || sheet.len() <= reference::MOST_BYTES =>
                {
                    return Err(error)
                }
                _ => {}
            }
        }
        let output = child.wait_with_output()?;
        if !output.status.success() || !output.stderr.is_empty() {
            return Err(io::Error::other(format!(
                "{}, {:?}",
                output.status,
                Bytes(&output.stderr)
            )));
        }
        Ok(output.stdout)
    }
}
