//! The tank curve for Rust: kernel regression in exact whole numbers, with the Epanechnikov kernel and, in
//! [`biweight`], the biweight one, and counts and sums with the uniform kernel over minute and temperature, in
//! [`boxes()`], proved in Rattle.
//!
//! Every call takes every content and every length of its lists and answers with what was asked for
//! or with a [`Refusal`]; on a refusal every lent list holds what it held before. Nothing here changes
//! what the proved calls answer; an answer that this crate does not know is [`Error::Unknown`]. Where
//! a length is part of a type here, [`slices`] has the same call over slices of any length.
//!
//! ```
//! # fn main() -> Result<(), tankcurve::Error> {
//! let (minutes, values) = ([10, 20, 20, 35], [40, 60, 80, 20]);
//! let mut rows = [0; 2 * tankcurve::ROW_WIDTH];
//! let curve = tankcurve::smooth(&minutes, &values, &[20, 60], &[10, 20], &mut rows)?;
//! // At minute 60 there is no reading in the window: the value is missing.
//! let values: Vec<Option<u16>> = curve.rows.map(|row| row.value()).collect();
//! assert_eq!(values, [Some(70), None]);
//! # Ok(())
//! # }
//! ```
//!
//! The crate uses neither `std` nor a heap, and no memory but its callers'. What the calls mean stands
//! in `docs/SPECIFICATION.md`; the quoted words are the trade's. `link/include/tankcurve.h` has the
//! grammar of a sheet, and tells what lies outside the proof; of that, safe Rust leaves the stack, the
//! compiler's back end and the declarations in `slices`, which `tests/parameters.rs` tests.

#![no_std]
#![deny(missing_docs, unsafe_code)]

mod boxes;
mod pair;
mod ranges;
mod report;
mod row;
pub mod slices;

pub use boxes::{boxes, BoxTotals, Boxes};
pub use pair::{compare, Parting, Tank};
pub use ranges::{
    read_ranges, smooth_ranges, Kind, RangeCounts, RangeEstimate, RangeRows, RangesSmoothed,
    RANGE_ROW_WIDTH,
};
pub use report::{Error, Refusal, Report};
pub use row::{Estimate, NoEstimate, RecordRow, Rows};

/// The version that this crate belongs to: major × 65,536 + minor × 256 + patch. [`version`] gives that
/// of the linked archive.
///
/// ```
/// assert_eq!(tankcurve::VERSION, 0x03_01_00);
/// ```
pub const VERSION: u32 = 0x03_01_00;

/// How many samples ("readings") there may be, and how many places the reader's lists of them have.
///
/// ```
/// use tankcurve::{evaluate, MAX_SAMPLES};
/// assert!(evaluate(&[0; MAX_SAMPLES], &[0; MAX_SAMPLES], 0, 1).is_ok());
/// assert!(evaluate(&[0; MAX_SAMPLES + 1], &[0; MAX_SAMPLES + 1], 0, 1).is_err());
/// ```
pub const MAX_SAMPLES: usize = 1024;

/// How many points ("marks") there may be, and how many places the reader's lists of them have.
///
/// ```
/// use tankcurve::{fill, MAX_POINTS};
/// assert!(fill(0, 1, 0, &mut [0; MAX_POINTS], &mut [0; MAX_POINTS]).is_ok());
/// assert!(fill(0, 1, 0, &mut [0; MAX_POINTS + 1], &mut [0; MAX_POINTS + 1]).is_err());
/// ```
pub const MAX_POINTS: usize = 512;

/// How many samples ("readings") a [`preview`] may have.
///
/// ```
/// use tankcurve::{preview, PREVIEW_MAX_SAMPLES};
/// let samples = [0; PREVIEW_MAX_SAMPLES + 1];
/// assert!(preview(&samples[1..], &samples[1..], &[0], &[1], &mut [0; 5]).is_ok());
/// assert!(preview(&samples, &samples, &[0], &[1], &mut [0; 5]).is_err());
/// ```
pub const PREVIEW_MAX_SAMPLES: usize = 256;

/// How many points ("marks") a [`preview`] may have.
///
/// ```
/// use tankcurve::{preview, PREVIEW_MAX_POINTS, ROW_WIDTH};
/// let (points, bandwidths) = ([0; PREVIEW_MAX_POINTS], [1; PREVIEW_MAX_POINTS]);
/// let mut rows = [0; PREVIEW_MAX_POINTS * ROW_WIDTH];
/// assert!(preview(&[], &[], &points, &bandwidths, &mut rows).is_ok());
/// ```
pub const PREVIEW_MAX_POINTS: usize = 64;

/// How many bytes a sheet may have; no place is greater.
///
/// ```
/// let mut out = [0; tankcurve::MAX_OUTPUT];
/// let refused = tankcurve::text(&[0; tankcurve::MAX_SHEET + 1], &mut out);
/// assert_eq!(refused.unwrap_err().to_string(), "report 1, overlong, at 32768");
/// ```
pub const MAX_SHEET: usize = 32_768;

/// How many bytes the buffer of [`text`] and of [`refusal_text`] has; no text is longer.
///
/// ```
/// let mut out = [0; tankcurve::MAX_OUTPUT];
/// assert!(tankcurve::text(b"mark,half\n20,10\n\nminute,inj,vdk\n", &mut out).is_ok());
/// ```
pub const MAX_OUTPUT: usize = 44_113;

/// How many numbers a row has: left, right, weight, sum, value.
///
/// ```
/// let row = [0; tankcurve::ROW_WIDTH];
/// assert!(tankcurve::Estimate::try_from(row).is_ok());
/// ```
pub const ROW_WIDTH: usize = 5;

/// How many numbers a record has: left, right, s00, s10, s20, s01, s11, s21, passes.
///
/// ```
/// let fresh = [0; tankcurve::RECORD_WIDTH];
/// assert_eq!(tankcurve::RunningSums::from(fresh), tankcurve::RunningSums::default());
/// ```
pub const RECORD_WIDTH: usize = 9;

/// How many numbers a parting of two tanks has: point, left, right.
///
/// ```
/// let mut out = [0; tankcurve::PARTING_WIDTH];
/// let answer = tankcurve::slices::compare(&[], &[], &[], &[], &[50], &[1], &mut out);
/// assert_eq!(answer, 0);
/// ```
pub const PARTING_WIDTH: usize = 3;

/// The number that a row of weight 0 has for its value: missing.
///
/// It needs 17 bits: cast to `u16`, the type of every other value, it is 0, which reads as beer without
/// diacetyl. [`Estimate::value`] gives `None` instead. Whether a value is there is told by the weight,
/// never by this number: the value of a [`RecordRow`] may be 65,536 with a weight.
///
/// ```
/// assert!(u16::try_from(tankcurve::MISSING).is_err());
/// ```
pub const MISSING: u64 = 65_536;

/// The greatest weight that a row of readings has: that of as many samples as there may be, all at the
/// point, with the greatest bandwidth.
///
/// ```
/// use tankcurve::{MAX_BANDWIDTH, MAX_SAMPLES, MAX_WEIGHT};
/// let there = [0; MAX_SAMPLES];
/// let row = tankcurve::evaluate(&there, &there, 0, MAX_BANDWIDTH).unwrap();
/// assert_eq!(row.weight(), MAX_WEIGHT);
/// ```
pub const MAX_WEIGHT: u64 = 1 << 42;

/// The greatest sum that a row of readings has: [`MAX_WEIGHT`] times the greatest value.
///
/// ```
/// use tankcurve::{MAX_BANDWIDTH, MAX_SAMPLES, MAX_SUM};
/// let (there, values) = ([0; MAX_SAMPLES], [65_535; MAX_SAMPLES]);
/// let row = tankcurve::evaluate(&there, &values, 0, MAX_BANDWIDTH).unwrap();
/// assert_eq!(row.sum(), MAX_SUM);
/// ```
pub const MAX_SUM: u64 = (1 << 58) - (1 << 42);

/// The least bandwidth ("half width").
///
/// ```
/// use tankcurve::{evaluate, MIN_BANDWIDTH};
/// assert!(evaluate(&[], &[], 0, MIN_BANDWIDTH).is_ok());
/// assert!(evaluate(&[], &[], 0, MIN_BANDWIDTH - 1).is_err());
/// ```
pub const MIN_BANDWIDTH: u32 = 1;

/// The greatest bandwidth ("half width").
///
/// ```
/// use tankcurve::{evaluate, MAX_BANDWIDTH};
/// assert!(evaluate(&[], &[], 0, MAX_BANDWIDTH).is_ok());
/// assert!(evaluate(&[], &[], 0, MAX_BANDWIDTH + 1).is_err());
/// ```
pub const MAX_BANDWIDTH: u32 = 65_536;

/// How many points ("marks") of a direction [`boxes()`] may have.
///
/// ```
/// use tankcurve::{boxes, BOX_MAX_POINTS, BOX_WIDTH, CELLS};
/// let (points, bandwidths) = ([0; BOX_MAX_POINTS], [1; BOX_MAX_POINTS]);
/// let (mut counts, mut sums) = ([0; CELLS], [0; CELLS]);
/// let mut lent = [0; BOX_MAX_POINTS * BOX_WIDTH];
/// assert!(boxes(&[], &[], &[], &points, &bandwidths, &[0], &[1], &mut lent, &mut counts, &mut sums).is_ok());
/// ```
pub const BOX_MAX_POINTS: usize = 32;

/// How many numbers a box has: count, sum.
///
/// ```
/// assert_eq!(tankcurve::BOX_WIDTH, 2);
/// ```
pub const BOX_WIDTH: usize = 2;

/// How many cells a minute strip has in a list of cells of [`boxes()`].
///
/// ```
/// assert_eq!(tankcurve::STRIPS * tankcurve::STRIPS, tankcurve::CELLS);
/// ```
pub const STRIPS: usize = 65;

/// The length of a list of cells of [`boxes()`].
///
/// ```
/// use tankcurve::{boxes, CELLS};
/// let (mut counts, mut sums) = ([7; CELLS], [7; CELLS]);
/// boxes(&[], &[], &[], &[0], &[1], &[0], &[1], &mut [0; 2], &mut counts, &mut sums).unwrap();
/// assert_eq!((counts, sums), ([0; CELLS], [0; CELLS]));
/// ```
pub const CELLS: usize = 4225;

/// The greatest bandwidth ("half width") of a temperature.
///
/// ```
/// use tankcurve::{slices, CELLS, MAX_TEMPERATURE_BANDWIDTH};
/// let (mut counts, mut sums) = ([7; CELLS], [7; CELLS]);
/// let mut answer = |bandwidth| {
///     slices::boxes(&[], &[], &[], &[0], &[1], &[0], &[bandwidth], &mut [0; 2], &mut counts, &mut sums)
/// };
/// assert_eq!(answer(MAX_TEMPERATURE_BANDWIDTH), 0);
/// assert_eq!(answer(MAX_TEMPERATURE_BANDWIDTH + 1), 9);
/// ```
pub const MAX_TEMPERATURE_BANDWIDTH: u32 = 256;

/// The greatest sum that a cell of [`boxes()`] has: that of as many samples as there may be, each of the
/// greatest value.
///
/// ```
/// use tankcurve::{boxes, CELLS, MAX_CELL_SUM, MAX_SAMPLES, STRIPS};
/// let (mut counts, mut sums) = ([7; CELLS], [7; CELLS]);
/// let (minutes, temperatures, values) = ([5; MAX_SAMPLES], [5; MAX_SAMPLES], [65_535; MAX_SAMPLES]);
/// boxes(&minutes, &temperatures, &values, &[5], &[1], &[5], &[1], &mut [0; 2], &mut counts, &mut sums).unwrap();
/// assert_eq!(sums[STRIPS + 1], MAX_CELL_SUM);
/// ```
pub const MAX_CELL_SUM: u32 = 67_107_840;

/// The bandwidth of [`biweight`]: so many minutes on each side of the point.
///
/// ```
/// use tankcurve::{biweight, evaluate, BIWEIGHT_BANDWIDTH};
/// let (minutes, values) = ([0, 1000, 2000], [7, 8, 9]);
/// let (soft, plain) = (
///     biweight(&minutes, &values, 1720).unwrap(),
///     evaluate(&minutes, &values, 1720, BIWEIGHT_BANDWIDTH).unwrap(),
/// );
/// assert_eq!((soft.left(), soft.right()), (plain.left(), plain.right()));
/// ```
pub const BIWEIGHT_BANDWIDTH: u32 = 720;

/// The greatest weight that a row of [`biweight`] has: that of as many samples as there may be, all at the
/// point.
///
/// ```
/// use tankcurve::{biweight, BIWEIGHT_MAX_WEIGHT, MAX_SAMPLES};
/// let row = biweight(&[5; MAX_SAMPLES], &[0; MAX_SAMPLES], 5).unwrap();
/// assert_eq!(row.weight(), BIWEIGHT_MAX_WEIGHT);
/// ```
pub const BIWEIGHT_MAX_WEIGHT: u64 = 275_188_285_440_000;

/// The greatest sum that a row of [`biweight`] has: [`BIWEIGHT_MAX_WEIGHT`] times the greatest value. Twice as
/// much has more than 64 bits.
///
/// ```
/// use tankcurve::{biweight, BIWEIGHT_MAX_SUM, MAX_SAMPLES};
/// let row = biweight(&[5; MAX_SAMPLES], &[65_535; MAX_SAMPLES], 5).unwrap();
/// assert_eq!((row.sum(), row.value()), (BIWEIGHT_MAX_SUM, Some(65_535)));
/// assert_eq!(BIWEIGHT_MAX_SUM.checked_mul(2), None);
/// ```
pub const BIWEIGHT_MAX_SUM: u64 = 18_034_464_286_310_400_000;

/// The running sums ("running record"); the default is the fresh record. `spq` adds up minute to the
/// power p times value to the power q, modulo 2^64, of the samples that steps have added and not
/// subtracted. Those are the run of the last accepted point if the steps were as [`advance`] says, or if the
/// last was a [`turn`] of a record that steps and turns have led to.
///
/// ```
/// let fresh = tankcurve::RunningSums::default();
/// assert_eq!(<[u64; tankcurve::RECORD_WIDTH]>::from(fresh), [0; 9]);
/// ```
#[derive(Clone, Copy, Debug, Default, PartialEq, Eq)]
#[must_use]
pub struct RunningSums {
    /// The position up to which the samples are subtracted again.
    pub left: u64,
    /// The position up to which the samples are added.
    pub right: u64,
    /// The number of samples.
    pub s00: u64,
    /// The sum of the minutes.
    pub s10: u64,
    /// The sum of the squared minutes.
    pub s20: u64,
    /// The sum of the values.
    pub s01: u64,
    /// The sum of minute times value.
    pub s11: u64,
    /// The sum of squared minute times value.
    pub s21: u64,
    /// How many positions both edges have passed, forth and back, modulo 2^64. No call looks at it.
    pub passes: u64,
}

impl RunningSums {
    /// The row of this record at a point, as [`row()`]: pass the point and bandwidth of the last accepted
    /// step.
    ///
    /// ```
    /// # fn main() -> Result<(), tankcurve::Error> {
    /// let mut record = tankcurve::RunningSums::default();
    /// tankcurve::advance(&mut record, &[5, 9], &[2, 3], 9, 1)?;
    /// assert_eq!(record.row(9, 1)?.value(), Some(3));
    /// # Ok(())
    /// # }
    /// ```
    pub fn row(self, point: u16, bandwidth: u32) -> Result<RecordRow, Error> {
        row(self, point, bandwidth)
    }
}

impl From<[u64; RECORD_WIDTH]> for RunningSums {
    fn from(
        [left, right, s00, s10, s20, s01, s11, s21, passes]: [u64; RECORD_WIDTH],
    ) -> RunningSums {
        RunningSums {
            left,
            right,
            s00,
            s10,
            s20,
            s01,
            s11,
            s21,
            passes,
        }
    }
}

impl From<RunningSums> for [u64; RECORD_WIDTH] {
    fn from(r: RunningSums) -> [u64; RECORD_WIDTH] {
        [
            r.left, r.right, r.s00, r.s10, r.s20, r.s01, r.s11, r.s21, r.passes,
        ]
    }
}

/// How many samples and points a sheet has.
///
/// ```
/// use tankcurve::{Counts, MAX_POINTS, MAX_SAMPLES};
/// let used = tankcurve::read(
///     b"mark,half\n20,10\n\nminute,inj,vdk\n10,3,40\n11,3,41\n",
///     &mut [0; MAX_SAMPLES],
///     &mut [0; MAX_SAMPLES],
///     &mut [0; MAX_POINTS],
///     &mut [0; MAX_POINTS],
/// );
/// assert_eq!(used, Ok(Counts { samples: 2, points: 1 }));
/// ```
#[derive(Clone, Copy, Debug, PartialEq, Eq)]
pub struct Counts {
    /// The kept samples.
    pub samples: u64,
    /// The points.
    pub points: u64,
}

/// What a sweep gives: the passes, and the rows as they stand in the lent list.
///
/// ```
/// # fn main() -> Result<(), tankcurve::Error> {
/// let mut rows = [0; tankcurve::ROW_WIDTH];
/// let mut curve = tankcurve::smooth(&[5, 9], &[2, 3], &[9], &[1], &mut rows)?;
/// assert_eq!((curve.passes, curve.rows.len()), (3, 1));
/// assert_eq!(curve.rows.next().and_then(|row| row.value()), Some(3));
/// # Ok(())
/// # }
/// ```
#[derive(Clone, Debug)]
#[must_use]
pub struct Smoothed<'a> {
    /// The passes: the last row's left plus its right.
    pub passes: u64,
    /// The rows, one a point.
    pub rows: Rows<'a>,
}

/// Where the curve is first at or below a limit: the point's position, or none, and the passes.
///
/// ```
/// # fn main() -> Result<(), tankcurve::Error> {
/// let first = tankcurve::first_at_most(&[5, 9], &[7, 3], &[5, 9], &[1, 1], 3)?;
/// assert_eq!(first, tankcurve::Crossing { point: Some(1), passes: 3 });
/// # Ok(())
/// # }
/// ```
#[derive(Clone, Copy, Debug, PartialEq, Eq)]
#[must_use]
pub struct Crossing {
    /// The position in the list of points, from 0; none where no value is low enough.
    pub point: Option<usize>,
    /// The passes up to and with that point; where there is none, those of all points.
    pub passes: u64,
}

/// A weight or a sum for a spreadsheet, whose cells are doubles. Each double here is exactly a whole number.
///
/// The number is had back by adding whole numbers, not doubles: 2^53 and 1 give 2^53 as doubles.
///
/// ```
/// # fn main() -> Result<(), tankcurve::Error> {
/// use tankcurve::Cell;
/// let number = match tankcurve::doubles(5, 9_007_199_254_740_993)? {
///     Cell::Empty => 0,
///     Cell::One(double) => double as u64,
///     Cell::Pair { high, low } => high as u64 + low as u64,
/// };
/// assert_eq!(number, 9_007_199_254_740_993);
/// assert_eq!(9_007_199_254_740_992.0 + 1.0, 9_007_199_254_740_992.0);
/// # Ok(())
/// # }
/// ```
#[derive(Clone, Copy, Debug, PartialEq)]
#[must_use]
pub enum Cell {
    /// The row has no weight; the number counts as 0.
    Empty,
    /// A number below 2^53.
    One(f64),
    /// A number from 2^53 on.
    Pair {
        /// The number less its remainder by 2^32.
        high: f64,
        /// That remainder.
        low: f64,
    },
}

/// The version of the linked archive.
///
/// ```
/// assert_eq!(tankcurve::version(), tankcurve::VERSION);
/// ```
#[must_use]
pub fn version() -> u32 {
    slices::version()
}

/// The estimate at one point ("the question at one mark": the row). Reports 8, 6, 4, 9.
///
/// ```
/// # fn main() -> Result<(), tankcurve::Error> {
/// let row = tankcurve::evaluate(&[10, 20, 20, 35], &[40, 60, 80, 20], 20, 10)?;
/// assert_eq!((row.left(), row.right(), row.value()), (0, 3, Some(70)));
/// // A reading on the edge has no weight: the value is missing.
/// assert_eq!(tankcurve::evaluate(&[10], &[40], 20, 10)?.value(), None);
/// # Ok(())
/// # }
/// ```
pub fn evaluate(
    minutes: &[u16],
    values: &[u16],
    point: u16,
    bandwidth: u32,
) -> Result<Estimate, Error> {
    let mut row = [0; ROW_WIDTH];
    let answer = slices::evaluate(minutes, values, point, bandwidth, &mut row);
    report::outcome(answer)?;
    Estimate::try_from(row).map_err(|_| Error::Unknown(answer))
}

/// The softer estimate at one point ("the biweight row"): a row whose weights are
/// (518,400 − distance²)², over [`BIWEIGHT_BANDWIDTH`] minutes on each side. Its edges are those of
/// [`evaluate`] and its run that of [`window`] with this bandwidth; its weight and sum are greater than what
/// [`Estimate`] takes from numbers. Reports 8, 6, 4.
///
/// ```
/// # fn main() -> Result<(), tankcurve::Error> {
/// // The same readings, an hour and half a day from the mark: the far one counts for less.
/// let (minutes, values) = ([0, 300], [100, 200]);
/// assert_eq!(tankcurve::evaluate(&minutes, &values, 360, 720)?.value(), Some(157));
/// assert_eq!(tankcurve::biweight(&minutes, &values, 360)?.value(), Some(164));
/// // A reading on the edge has no weight: the value is missing.
/// assert_eq!(tankcurve::biweight(&[0], &[40], 720)?.value(), None);
/// # Ok(())
/// # }
/// ```
pub fn biweight(minutes: &[u16], values: &[u16], point: u16) -> Result<Estimate, Error> {
    let mut row = [0; ROW_WIDTH];
    let answer = slices::biweight(minutes, values, point, &mut row);
    report::outcome(answer)?;
    Estimate::within(row.into(), BIWEIGHT_MAX_WEIGHT, BIWEIGHT_MAX_SUM)
        .map_err(|_| Error::Unknown(answer))
}

/// The values inside the window of one point ("the question at one mark": the run), as that part of
/// `values`. Reports 8, 6, 4, 9.
///
/// ```
/// # fn main() -> Result<(), tankcurve::Error> {
/// let values = [40, 60, 80, 20];
/// assert_eq!(tankcurve::window(&[10, 20, 20, 35], &values, 20, 10)?, [40, 60, 80]);
/// # Ok(())
/// # }
/// ```
pub fn window<'a>(
    minutes: &[u16],
    values: &'a [u16],
    point: u16,
    bandwidth: u32,
) -> Result<&'a [u16], Error> {
    let mut bounds = [0; 2];
    let answer = slices::window(minutes, values, point, bandwidth, &mut bounds);
    report::outcome(answer)?;
    part(values, bounds).ok_or(Error::Unknown(answer))
}

/// Moves the running sums to the next point ("a step"). Reports 8, 6, 11, 9.
///
/// The step moves right and then left, never back, adds the samples that right has reached and subtracts
/// those that left has passed. From a fresh record, over the same ordered minutes and with no accepted step
/// whose edges lie back, the sums are those over the run of the last accepted point; of another record only
/// what was added and subtracted is said. The order of the minutes and of the edges is not looked at.
///
/// ```
/// # fn main() -> Result<(), tankcurve::Error> {
/// let (minutes, values) = ([10, 20, 20, 35], [40, 60, 80, 20]);
/// let mut record = tankcurve::RunningSums::default();
/// tankcurve::advance(&mut record, &minutes, &values, 20, 10)?;
/// assert_eq!((record.s00, record.s10, record.s01), (3, 50, 180));
/// # Ok(())
/// # }
/// ```
pub fn advance(
    record: &mut RunningSums,
    minutes: &[u16],
    values: &[u16],
    point: u16,
    bandwidth: u32,
) -> Result<(), Error> {
    let mut numbers = <[u64; RECORD_WIDTH]>::from(*record);
    let answer = slices::advance(&mut numbers, minutes, values, point, bandwidth);
    *record = RunningSums::from(numbers);
    report::outcome(answer).map(|_| ())
}

/// Turns the running sums to any point and bandwidth ("the turn"), forth or back. Reports 8, 6, 4, 11, 9.
///
/// Left and right become those of the window's row. The sums gain those over the new run and lose those over
/// the old one, and the passes gain the distances of both edges. From a record that steps and turns over the
/// same minutes and values have led to, beginning with a fresh one, the sums are then those over the new run,
/// and the row of the record is that of [`evaluate`].
///
/// ```
/// # fn main() -> Result<(), tankcurve::Error> {
/// let (minutes, values) = ([10, 20, 20, 35], [40, 60, 80, 20]);
/// let mut record = tankcurve::RunningSums::default();
/// tankcurve::advance(&mut record, &minutes, &values, 20, 5)?;
/// tankcurve::turn(&mut record, &minutes, &values, 20, 15)?;
/// assert_eq!((record.left, record.right, record.passes), (0, 4, 6));
/// let row = tankcurve::Estimate::try_from(record.row(20, 15)?).unwrap();
/// assert_eq!(row, tankcurve::evaluate(&minutes, &values, 20, 15)?);
/// # Ok(())
/// # }
/// ```
pub fn turn(
    record: &mut RunningSums,
    minutes: &[u16],
    values: &[u16],
    point: u16,
    bandwidth: u32,
) -> Result<(), Error> {
    let mut numbers = <[u64; RECORD_WIDTH]>::from(*record);
    let answer = slices::turn(&mut numbers, minutes, values, point, bandwidth);
    *record = RunningSums::from(numbers);
    report::outcome(answer).map(|_| ())
}

/// The row of a running record of any origin at one point. Pass the point and bandwidth of the last accepted
/// step or turn; at others the row may look like a good one with value 0 or 1.
///
/// Where the record has the edges and sums of the window of point and bandwidth, as after an accepted
/// [`advance`] to it from a fresh record, over the same ordered minutes and with no edge back, or after an
/// accepted [`turn`] to it of a record that steps and turns have led to, it is the row
/// of [`evaluate`]. Convert it to [`Estimate`] then: some rows of other records are told by that, not all.
/// Every point and every bandwidth is taken. A record of this type earns no report.
///
/// ```
/// # fn main() -> Result<(), tankcurve::Error> {
/// let (minutes, values) = ([10, 20, 20, 35], [40, 60, 80, 20]);
/// let mut record = tankcurve::RunningSums::default();
/// tankcurve::advance(&mut record, &minutes, &values, 20, 10)?;
/// let row = tankcurve::row(record, 20, 10)?;
/// assert_eq!(row.value(), Some(70));
/// assert_eq!(tankcurve::Estimate::try_from(row).unwrap().value(), Some(70));
/// # Ok(())
/// # }
/// ```
pub fn row(record: RunningSums, point: u16, bandwidth: u32) -> Result<RecordRow, Error> {
    let mut row = [0; ROW_WIDTH];
    let numbers = <[u64; RECORD_WIDTH]>::from(record);
    report::outcome(slices::row(&numbers, point, bandwidth, &mut row))?;
    Ok(RecordRow::from(row))
}

/// The estimates at all points ("the sweep"): exactly [`ROW_WIDTH`] numbers a point in `rows`, and the
/// passes. Reports 8, 6, 7, 4, 5, 9, 10.
///
/// ```
/// # fn main() -> Result<(), tankcurve::Error> {
/// let (minutes, values) = ([10, 20, 20, 35], [40, 60, 80, 20]);
/// let mut rows = [0; 3 * tankcurve::ROW_WIDTH];
/// let curve = tankcurve::smooth(&minutes, &values, &[20, 25, 60], &[10, 15, 20], &mut rows)?;
/// assert_eq!(curve.passes, 8);
/// for (row, value) in curve.rows.zip([Some(70), Some(58), None]) {
///     assert_eq!(row.value(), value);
/// }
/// # Ok(())
/// # }
/// ```
pub fn smooth<'a>(
    minutes: &[u16],
    values: &[u16],
    points: &[u16],
    bandwidths: &[u32],
    rows: &'a mut [u64],
) -> Result<Smoothed<'a>, Error> {
    let answer = slices::smooth(minutes, values, points, bandwidths, rows);
    smoothed(answer, rows)
}

/// The preview ("the preview on the panel"): [`smooth`] for a small curve, [`PREVIEW_MAX_SAMPLES`] samples and
/// [`PREVIEW_MAX_POINTS`] points at most. More of either is report 6, or 8 where [`smooth`] gives 8; otherwise it
/// gives what [`smooth`] gives. Reports 8, 6, 7, 4, 5, 9, 10.
///
/// ```
/// # fn main() -> Result<(), tankcurve::Error> {
/// let (minutes, values) = ([10, 20, 20, 35], [40, 60, 80, 20]);
/// let mut rows = [0; 2 * tankcurve::ROW_WIDTH];
/// let curve = tankcurve::preview(&minutes, &values, &[20, 25], &[10, 15], &mut rows)?;
/// let values: Vec<Option<u16>> = curve.rows.map(|row| row.value()).collect();
/// assert_eq!(values, [Some(70), Some(58)]);
/// # Ok(())
/// # }
/// ```
pub fn preview<'a>(
    minutes: &[u16],
    values: &[u16],
    points: &[u16],
    bandwidths: &[u32],
    rows: &'a mut [u64],
) -> Result<Smoothed<'a>, Error> {
    let answer = slices::preview(minutes, values, points, bandwidths, rows);
    smoothed(answer, rows)
}

/// The passes of a sweep's answer, with its rows.
fn smoothed(answer: u64, rows: &[u64]) -> Result<Smoothed<'_>, Error> {
    let passes = report::outcome(answer)?;
    let rows = Rows::try_from(rows).map_err(|_| Error::Unknown(answer))?;
    Ok(Smoothed { passes, rows })
}

/// The first point whose value is present and at or below `limit` ("when may the tank move"), as the rows
/// of [`smooth`] would say it: the curve may rise behind that point. Values from position `right` of its row
/// on have no influence. Every limit is fit. Reports 8, 6, 7, 4, 5, 9, 10, of whole lists and before any answer.
///
/// ```
/// # fn main() -> Result<(), tankcurve::Error> {
/// let (minutes, values) = ([10, 20, 20, 35], [40, 60, 80, 20]);
/// let low = |limit| tankcurve::first_at_most(&minutes, &values, &[20, 25, 60], &[10, 15, 20], limit);
/// assert_eq!(low(58)?.point, Some(1));
/// // The third point has no value: what is missing is not low.
/// assert_eq!(low(57)?.point, None);
/// # Ok(())
/// # }
/// ```
pub fn first_at_most(
    minutes: &[u16],
    values: &[u16],
    points: &[u16],
    bandwidths: &[u32],
    limit: u16,
) -> Result<Crossing, Error> {
    let mut position = [0];
    let answer = slices::first_at_most(minutes, values, points, bandwidths, limit, &mut position);
    let passes = report::outcome(answer)?;
    let point = found(position, points).ok_or(Error::Unknown(answer))?;
    Ok(Crossing { point, passes })
}

/// The sample on which the answer at one point hangs ("which reading decides"): the lowest position such that
/// without that sample alone the value of [`evaluate`] is present and at or below `limit` where it was not, or is not
/// where it was; none where no sample alone changes that. Whoever repeats that sample's injection repeats the one that
/// counts. Every limit is fit. Reports 8, 6, 4, 9.
///
/// ```
/// # fn main() -> Result<(), tankcurve::Error> {
/// let (minutes, values) = ([10, 20, 20, 35], [40, 60, 80, 20]);
/// // The value is 70, which is over the limit; without the 80 it is 60.
/// assert_eq!(tankcurve::decisive(&minutes, &values, 20, 10, 60)?, Some(2));
/// let again = tankcurve::evaluate(&[10, 20, 35], &[40, 60, 20], 20, 10)?;
/// assert_eq!(again.value(), Some(60));
/// // Over 59 it stays without any one of them.
/// assert_eq!(tankcurve::decisive(&minutes, &values, 20, 10, 59)?, None);
/// # Ok(())
/// # }
/// ```
pub fn decisive(
    minutes: &[u16],
    values: &[u16],
    point: u16,
    bandwidth: u32,
    limit: u16,
) -> Result<Option<usize>, Error> {
    let mut position = [0];
    let answer = slices::decisive(minutes, values, point, bandwidth, limit, &mut position);
    report::outcome(answer)?;
    found(position, minutes).ok_or(Error::Unknown(answer))
}

/// Bandwidths by neighbours, and the estimates with them: the bandwidth of a point becomes 1 more than the
/// `k`-th smallest distance of a sample to it, samples of one distance counted each. `bandwidths` receives one a
/// point and `rows` exactly [`ROW_WIDTH`] numbers a point; no value is missing. Reports 8, 6, 7, 4, 5, 14; not
/// 9 or 10: these bandwidths are in range, and with points in order none of their edges goes back.
///
/// ```
/// # fn main() -> Result<(), tankcurve::Error> {
/// let (minutes, values) = ([10, 20, 20, 35], [40, 60, 80, 20]);
/// let (mut bandwidths, mut rows) = ([0; 3], [0; 3 * tankcurve::ROW_WIDTH]);
/// let rows = tankcurve::neighbours(&minutes, &values, &[20, 25, 60], 2, &mut bandwidths, &mut rows)?;
/// let values: Vec<Option<u16>> = rows.map(|row| row.value()).collect();
/// assert_eq!(values, [Some(70), Some(70), Some(27)]);
/// assert_eq!(bandwidths, [1, 6, 41]);
/// # Ok(())
/// # }
/// ```
pub fn neighbours<'a>(
    minutes: &[u16],
    values: &[u16],
    points: &[u16],
    k: usize,
    bandwidths: &mut [u32],
    rows: &'a mut [u64],
) -> Result<Rows<'a>, Error> {
    let answer = slices::neighbours(minutes, values, points, k, bandwidths, rows);
    smoothed(answer, rows).map(|curve| curve.rows)
}

/// Fills an evaluation grid ("the mark filler"): point k, from 0, is `first` + k × `spacing`, and every
/// bandwidth is that of `preset`, the "knob"'s position from 0 to 11. Reports 8, 7, 6, 12, 13.
///
/// ```
/// # fn main() -> Result<(), tankcurve::Error> {
/// let (mut points, mut bandwidths) = ([0; 3], [0; 3]);
/// tankcurve::fill(100, 7, 4, &mut points, &mut bandwidths)?;
/// assert_eq!((points, bandwidths), ([100, 107, 114], [120; 3]));
/// # Ok(())
/// # }
/// ```
pub fn fill(
    first: u16,
    spacing: u16,
    preset: u32,
    points: &mut [u16],
    bandwidths: &mut [u32],
) -> Result<(), Error> {
    report::outcome(slices::fill(first, spacing, preset, points, bandwidths)).map(|_| ())
}

/// Reads a sheet ("the reader of the tank sheet"): its kept samples and its points at the front of the
/// lists, whose rest is untouched. Reports 1, then line by line 2, 7, or 3, 4 or 5, 9, 10, 6. A line ends in
/// `"\n"` or in `"\r\n"`. A sheet with ranges is report 2 at its second names line: [`read_ranges`] takes both.
///
/// ```
/// # fn main() -> Result<(), tankcurve::Error> {
/// use tankcurve::{MAX_POINTS, MAX_SAMPLES};
/// let (mut minutes, mut values) = ([0; MAX_SAMPLES], [0; MAX_SAMPLES]);
/// let (mut points, mut bandwidths) = ([0; MAX_POINTS], [0; MAX_POINTS]);
/// let sheet = b"mark,half\n20,10\n\nminute,inj,vdk\n10,3,40\n12,1,900\n";
/// let used = tankcurve::read(sheet, &mut minutes, &mut values, &mut points, &mut bandwidths)?;
/// // The second reading is the first injection after a change of the column.
/// assert_eq!((used.samples, used.points), (1, 1));
/// assert_eq!((minutes[0], values[0], points[0], bandwidths[0]), (10, 40, 20, 10));
/// # Ok(())
/// # }
/// ```
pub fn read(
    sheet: &[u8],
    minutes: &mut [u16; MAX_SAMPLES],
    values: &mut [u16; MAX_SAMPLES],
    points: &mut [u16; MAX_POINTS],
    bandwidths: &mut [u32; MAX_POINTS],
) -> Result<Counts, Error> {
    let mut counts = [0; 2];
    report::outcome(slices::read(
        sheet,
        minutes,
        values,
        points,
        bandwidths,
        &mut counts,
    ))?;
    let [samples, points] = counts;
    Ok(Counts { samples, points })
}

/// The curve of a sheet of either kind, as the program writes it: the front part of `out`, whose rest is untouched.
/// Reports and places are those of [`read_ranges`]; [`refusal_text`] says them as the program does.
///
/// ```
/// # fn main() -> Result<(), tankcurve::Error> {
/// let mut out = [0; tankcurve::MAX_OUTPUT];
/// let sheet = b"mark,half\n20,10\n\nminute,inj,vdk\n15,3,40\n";
/// let curve = b"mark,half,left,right,weight,sum,vdk\n20,10,0,1,75,3000,40\n\nkept,passes\n1,1\n";
/// assert_eq!(tankcurve::text(sheet, &mut out)?, curve);
/// // As an office computer saves it.
/// let sheet = b"mark,half\r\n20,10\r\n\r\nminute,inj,vdk\r\n15,3,40\r\n";
/// assert_eq!(tankcurve::text(sheet, &mut out)?, curve);
/// # Ok(())
/// # }
/// ```
pub fn text<'a>(sheet: &[u8], out: &'a mut [u8; MAX_OUTPUT]) -> Result<&'a [u8], Error> {
    let answer = slices::text(sheet, out);
    let length = report::outcome(answer)?;
    part(out, [0, length]).ok_or(Error::Unknown(answer))
}

/// The text of a refusal, as the program writes it: the front part of `out`, whose rest is untouched.
/// A buffer of this type earns no report.
///
/// ```
/// # fn main() -> Result<(), tankcurve::Error> {
/// use tankcurve::Error;
/// let mut out = [0; tankcurve::MAX_OUTPUT];
/// if let Err(Error::Refused(refusal)) = tankcurve::text(b"mark,half\n\n", &mut out) {
///     assert_eq!(tankcurve::refusal_text(refusal, &mut out)?, b"refused,place\n7,10\n");
/// }
/// # Ok(())
/// # }
/// ```
pub fn refusal_text(refusal: Refusal, out: &mut [u8; MAX_OUTPUT]) -> Result<&[u8], Error> {
    let answer = slices::refusal_text(refusal.report.number(), refusal.place, out);
    let length = report::outcome(answer)?;
    part(out, [0, length]).ok_or(Error::Unknown(answer))
}

/// A weight or a sum of a row as doubles. `weight` is the row's, also where `number` is the sum; no number is
/// refused.
///
/// A row of readings has no sum without weight. Of a row of any other origin a sum above 0 with weight 0 is
/// lost: its cell is empty, too.
///
/// ```
/// # fn main() -> Result<(), tankcurve::Error> {
/// use tankcurve::Cell;
/// let row = tankcurve::evaluate(&[10, 20, 20, 35], &[40, 60, 80, 20], 20, 10)?;
/// assert_eq!(tankcurve::doubles(row.weight(), row.weight())?, Cell::One(200.0));
/// assert_eq!(tankcurve::doubles(row.weight(), row.sum())?, Cell::One(14_000.0));
/// // By the weight and never by the number.
/// assert_eq!(tankcurve::doubles(5, 0)?, Cell::One(0.0));
/// assert_eq!(tankcurve::doubles(0, 0)?, Cell::Empty);
/// let (high, low) = (9_007_199_254_740_992.0, 0.0);
/// assert_eq!(tankcurve::doubles(5, 9_007_199_254_740_992)?, Cell::Pair { high, low });
/// # Ok(())
/// # }
/// ```
pub fn doubles(weight: u64, number: u64) -> Result<Cell, Error> {
    let mut doubles = [0.0; 2];
    let answer = slices::doubles(weight, number, &mut doubles);
    let [high, low] = doubles;
    match report::outcome(answer)? {
        0 => Ok(Cell::Empty),
        1 => Ok(Cell::One(high)),
        2 => Ok(Cell::Pair { high, low }),
        _ => Err(Error::Unknown(answer)),
    }
}

/// What a call has found in a list: a position of it, or none; nothing where it is neither.
fn found<T>([position]: [u64; 1], list: &[T]) -> Option<Option<usize>> {
    if position == slices::NO_POSITION {
        return Some(None);
    }
    let position = usize::try_from(position).ok()?;
    (position < list.len()).then_some(Some(position))
}

/// A part of a list, if the bounds are within it.
fn part<T>(list: &[T], [left, right]: [u64; 2]) -> Option<&[T]> {
    list.get(usize::try_from(left).ok()?..usize::try_from(right).ok()?)
}
