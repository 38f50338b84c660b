//! The proved calls over slices of any length, with the number that they return.
//!
//! Every call returns [`DETAIL_UNIT`] × detail + number. Number 0 means accepted; 1 to 17 is a report
//! and the detail its place. A slice for the answer of another length than stated gets report 8 at place 0,
//! found before all else.
//!
//! ```
//! use tankcurve::slices::{detail, evaluate, number};
//! let mut row = [0; 5];
//! let answer = evaluate(&[20, 10], &[40, 60], 20, 10, &mut row);
//! // The minute at position 1 is below the one before.
//! assert_eq!((number(answer), detail(answer)), (4, 1));
//! ```
//!
//! An answer that is not looked at is a warning, since the numbers of an earlier call then stand in
//! place of a refusal:
//!
//! ```compile_fail
//! #![deny(unused_must_use)]
//! tankcurve::slices::evaluate(&[20, 10], &[40, 60], 20, 10, &mut [0; 5]);
//! ```
//!
//! ```
//! #![deny(unused_must_use)]
//! let _ = tankcurve::slices::evaluate(&[20, 10], &[40, 60], 20, 10, &mut [0; 5]);
//! ```

#![allow(unsafe_code)]

/// What one of a detail counts for in what a call returns; every number is below it.
///
/// ```
/// use tankcurve::slices::{detail, DETAIL_UNIT};
/// assert_eq!(detail(DETAIL_UNIT * 52 + 4), 52);
/// ```
pub const DETAIL_UNIT: u64 = 256;

/// What stands for no position in the answer of a question with a limit; no position of any list.
///
/// ```
/// use tankcurve::slices::{first_at_most, NO_POSITION};
/// let mut position = [0];
/// assert_eq!(first_at_most(&[], &[], &[5], &[1], 65_535, &mut position), 0);
/// assert_eq!(position, [NO_POSITION]);
/// ```
pub const NO_POSITION: u64 = u64::MAX;

/// What [`read_ranges`] counts for the kind of a sheet without ranges.
///
/// ```
/// use tankcurve::slices::{read_ranges, KIND_PLAIN};
/// let mut counts = [7; 3];
/// let sheet = b"mark,half\n5,2\n\nminute,inj,vdk\n";
/// let (lists, marks) = (&mut [[0; 1024]; 3], &mut [0; 512]);
/// let [minutes, lows, highs] = lists;
/// assert_eq!(read_ranges(sheet, minutes, lows, highs, marks, &mut [0; 512], &mut counts), 0);
/// assert_eq!(counts, [0, 1, KIND_PLAIN]);
/// ```
pub const KIND_PLAIN: u64 = 0;

/// What [`read_ranges`] counts for the kind of a sheet with ranges.
///
/// ```
/// use tankcurve::slices::{read_ranges, KIND_RANGES};
/// let mut counts = [7; 3];
/// let sheet = b"mark,half\n5,2\n\nminute,inj,low,high\n";
/// let (lists, marks) = (&mut [[0; 1024]; 3], &mut [0; 512]);
/// let [minutes, lows, highs] = lists;
/// assert_eq!(read_ranges(sheet, minutes, lows, highs, marks, &mut [0; 512], &mut counts), 0);
/// assert_eq!(counts, [0, 1, KIND_RANGES]);
/// ```
pub const KIND_RANGES: u64 = 1;

/// The exports of libtankcurve_abi.a: a slice is a pointer and its number of elements.
mod exports {
    extern "C" {
        pub fn tankcurve_evaluate(
            minutes: *const u16,
            minutes_len: usize,
            values: *const u16,
            values_len: usize,
            point: u16,
            bandwidth: u32,
            row: *mut u64,
            row_len: usize,
        ) -> u64;

        pub fn tankcurve_window(
            minutes: *const u16,
            minutes_len: usize,
            values: *const u16,
            values_len: usize,
            point: u16,
            bandwidth: u32,
            bounds: *mut u64,
            bounds_len: usize,
        ) -> u64;

        pub fn tankcurve_biweight(
            minutes: *const u16,
            minutes_len: usize,
            values: *const u16,
            values_len: usize,
            point: u16,
            row: *mut u64,
            row_len: usize,
        ) -> u64;

        pub fn tankcurve_advance(
            record: *mut u64,
            record_len: usize,
            minutes: *const u16,
            minutes_len: usize,
            values: *const u16,
            values_len: usize,
            point: u16,
            bandwidth: u32,
        ) -> u64;

        pub fn tankcurve_turn(
            record: *mut u64,
            record_len: usize,
            minutes: *const u16,
            minutes_len: usize,
            values: *const u16,
            values_len: usize,
            point: u16,
            bandwidth: u32,
        ) -> u64;

        pub fn tankcurve_row(
            record: *const u64,
            record_len: usize,
            point: u16,
            bandwidth: u32,
            row: *mut u64,
            row_len: usize,
        ) -> u64;

        pub fn tankcurve_smooth(
            minutes: *const u16,
            minutes_len: usize,
            values: *const u16,
            values_len: usize,
            points: *const u16,
            points_len: usize,
            bandwidths: *const u32,
            bandwidths_len: usize,
            rows: *mut u64,
            rows_len: usize,
        ) -> u64;

        pub fn tankcurve_preview(
            minutes: *const u16,
            minutes_len: usize,
            values: *const u16,
            values_len: usize,
            points: *const u16,
            points_len: usize,
            bandwidths: *const u32,
            bandwidths_len: usize,
            rows: *mut u64,
            rows_len: usize,
        ) -> u64;

        pub fn tankcurve_fill(
            first: u16,
            spacing: u16,
            preset: u32,
            points: *mut u16,
            points_len: usize,
            bandwidths: *mut u32,
            bandwidths_len: usize,
        ) -> u64;

        pub fn tankcurve_read(
            sheet: *const u8,
            sheet_len: usize,
            minutes: *mut u16,
            minutes_len: usize,
            values: *mut u16,
            values_len: usize,
            points: *mut u16,
            points_len: usize,
            bandwidths: *mut u32,
            bandwidths_len: usize,
            counts: *mut u64,
            counts_len: usize,
        ) -> u64;

        pub fn tankcurve_text(
            sheet: *const u8,
            sheet_len: usize,
            out: *mut u8,
            out_len: usize,
        ) -> u64;

        pub fn tankcurve_refusal_text(number: u64, place: u64, out: *mut u8, out_len: usize)
            -> u64;

        pub fn tankcurve_first_at_most(
            minutes: *const u16,
            minutes_len: usize,
            values: *const u16,
            values_len: usize,
            points: *const u16,
            points_len: usize,
            bandwidths: *const u32,
            bandwidths_len: usize,
            limit: u16,
            position: *mut u64,
            position_len: usize,
        ) -> u64;

        pub fn tankcurve_decisive(
            minutes: *const u16,
            minutes_len: usize,
            values: *const u16,
            values_len: usize,
            point: u16,
            bandwidth: u32,
            limit: u16,
            position: *mut u64,
            position_len: usize,
        ) -> u64;

        pub fn tankcurve_compare(
            minutes1: *const u16,
            minutes1_len: usize,
            values1: *const u16,
            values1_len: usize,
            minutes2: *const u16,
            minutes2_len: usize,
            values2: *const u16,
            values2_len: usize,
            points: *const u16,
            points_len: usize,
            bandwidths: *const u32,
            bandwidths_len: usize,
            out: *mut u64,
            out_len: usize,
        ) -> u64;

        pub fn tankcurve_neighbours(
            minutes: *const u16,
            minutes_len: usize,
            values: *const u16,
            values_len: usize,
            points: *const u16,
            points_len: usize,
            k: usize,
            bandwidths: *mut u32,
            bandwidths_len: usize,
            rows: *mut u64,
            rows_len: usize,
        ) -> u64;

        pub fn tankcurve_doubles(
            weight: u64,
            number: u64,
            doubles: *mut f64,
            doubles_len: usize,
        ) -> u64;

        pub fn tankcurve_smooth_ranges(
            minutes: *const u16,
            minutes_len: usize,
            lows: *const u16,
            lows_len: usize,
            highs: *const u16,
            highs_len: usize,
            points: *const u16,
            points_len: usize,
            bandwidths: *const u32,
            bandwidths_len: usize,
            rows: *mut u64,
            rows_len: usize,
        ) -> u64;

        pub fn tankcurve_read_ranges(
            sheet: *const u8,
            sheet_len: usize,
            minutes: *mut u16,
            minutes_len: usize,
            lows: *mut u16,
            lows_len: usize,
            highs: *mut u16,
            highs_len: usize,
            points: *mut u16,
            points_len: usize,
            bandwidths: *mut u32,
            bandwidths_len: usize,
            counts: *mut u64,
            counts_len: usize,
        ) -> u64;

        pub fn tankcurve_boxes(
            minutes: *const u16,
            minutes_len: usize,
            temperatures: *const u8,
            temperatures_len: usize,
            values: *const u16,
            values_len: usize,
            points: *const u16,
            points_len: usize,
            bandwidths: *const u32,
            bandwidths_len: usize,
            temperature_points: *const u8,
            temperature_points_len: usize,
            temperature_bandwidths: *const u32,
            temperature_bandwidths_len: usize,
            boxes: *mut u64,
            boxes_len: usize,
            counts: *mut u32,
            counts_len: usize,
            sums: *mut u32,
            sums_len: usize,
        ) -> u64;

        pub fn tankcurve_version() -> u32;
    }
}

// SAFETY, of every call below: a slice's pointer is not null, is aligned and good for its length, and a
// `&mut` slice overlaps no other. The exports ask for nothing else: they are proved for every content
// and every length.

/// The number of what a call returned: 0 or a report.
///
/// ```
/// assert_eq!(tankcurve::slices::number(256 * 52 + 4), 4);
/// ```
#[must_use]
pub fn number(answer: u64) -> u64 {
    answer % DETAIL_UNIT
}

/// The detail of what a call returned: of a report its place.
///
/// ```
/// assert_eq!(tankcurve::slices::detail(256 * 52 + 4), 52);
/// ```
#[must_use]
pub fn detail(answer: u64) -> u64 {
    answer / DETAIL_UNIT
}

/// The estimate at one point. `row`: [`crate::ROW_WIDTH`] numbers: left, right, weight, sum, value.
/// Detail 0.
///
/// ```
/// let mut row = [0; 5];
/// assert_eq!(tankcurve::slices::evaluate(&[0, 0], &[2, 3], 0, 1, &mut row), 0);
/// assert_eq!(row, [0, 2, 2, 5, 2]);
/// ```
#[must_use]
pub fn evaluate(
    minutes: &[u16],
    values: &[u16],
    point: u16,
    bandwidth: u32,
    row: &mut [u64],
) -> u64 {
    unsafe {
        exports::tankcurve_evaluate(
            minutes.as_ptr(),
            minutes.len(),
            values.as_ptr(),
            values.len(),
            point,
            bandwidth,
            row.as_mut_ptr(),
            row.len(),
        )
    }
}

/// The samples inside the window of one point. `bounds`: 2 numbers: left, right. Detail 0.
///
/// ```
/// let mut bounds = [0; 2];
/// assert_eq!(tankcurve::slices::window(&[5, 9], &[2, 3], 9, 1, &mut bounds), 0);
/// assert_eq!(bounds, [1, 2]);
/// ```
#[must_use]
pub fn window(
    minutes: &[u16],
    values: &[u16],
    point: u16,
    bandwidth: u32,
    bounds: &mut [u64],
) -> u64 {
    unsafe {
        exports::tankcurve_window(
            minutes.as_ptr(),
            minutes.len(),
            values.as_ptr(),
            values.len(),
            point,
            bandwidth,
            bounds.as_mut_ptr(),
            bounds.len(),
        )
    }
}

/// The softer estimate at one point, over [`crate::BIWEIGHT_BANDWIDTH`] minutes on each side. `row`:
/// [`crate::ROW_WIDTH`] numbers: left, right, weight, sum, value. Detail 0.
///
/// ```
/// let mut row = [0; 5];
/// assert_eq!(tankcurve::slices::biweight(&[720], &[7], 0, &mut row), 0);
/// assert_eq!(row, [0, 1, 0, 0, 65_536]);
/// assert_eq!(tankcurve::slices::biweight(&[720], &[7], 1, &mut row), 0);
/// assert_eq!(row, [0, 1, 2_070_721, 14_495_047, 7]);
/// ```
#[must_use]
pub fn biweight(minutes: &[u16], values: &[u16], point: u16, row: &mut [u64]) -> u64 {
    unsafe {
        exports::tankcurve_biweight(
            minutes.as_ptr(),
            minutes.len(),
            values.as_ptr(),
            values.len(),
            point,
            row.as_mut_ptr(),
            row.len(),
        )
    }
}

/// Moves the running sums to the next point. `record`: [`crate::RECORD_WIDTH`] numbers, read and written:
/// left, right, s00, s10, s20, s01, s11, s21, passes. The order of the minutes and of the edges is not looked at, as
/// [`crate::advance`] says. Detail 0.
///
/// ```
/// let mut record = [0; 9];
/// assert_eq!(tankcurve::slices::advance(&mut record, &[5, 9], &[2, 3], 9, 1), 0);
/// assert_eq!(record, [1, 2, 1, 9, 81, 3, 27, 243, 3]);
/// ```
#[must_use]
pub fn advance(
    record: &mut [u64],
    minutes: &[u16],
    values: &[u16],
    point: u16,
    bandwidth: u32,
) -> u64 {
    unsafe {
        exports::tankcurve_advance(
            record.as_mut_ptr(),
            record.len(),
            minutes.as_ptr(),
            minutes.len(),
            values.as_ptr(),
            values.len(),
            point,
            bandwidth,
        )
    }
}

/// Turns the running sums to any point and bandwidth, forth or back. `record`: [`crate::RECORD_WIDTH`] numbers,
/// read and written: left, right, s00, s10, s20, s01, s11, s21, passes. Detail 0.
///
/// ```
/// let mut record = [1, 2, 1, 9, 81, 3, 27, 243, 3];
/// assert_eq!(tankcurve::slices::turn(&mut record, &[5, 9], &[2, 3], 5, 1), 0);
/// assert_eq!(record, [0, 1, 1, 5, 25, 2, 10, 50, 5]);
/// ```
#[must_use]
pub fn turn(
    record: &mut [u64],
    minutes: &[u16],
    values: &[u16],
    point: u16,
    bandwidth: u32,
) -> u64 {
    unsafe {
        exports::tankcurve_turn(
            record.as_mut_ptr(),
            record.len(),
            minutes.as_ptr(),
            minutes.len(),
            values.as_ptr(),
            values.len(),
            point,
            bandwidth,
        )
    }
}

/// The row of a record of any origin. `record`: [`crate::RECORD_WIDTH`] numbers, read: left, right, s00, s10,
/// s20, s01, s11, s21, passes; `row`: [`crate::ROW_WIDTH`] numbers: left, right, weight, sum, value. Pass the point and
/// bandwidth of the last accepted step or turn; at others the row may look like a good one with value 0 or 1.
/// Detail 0.
///
/// ```
/// use tankcurve::slices;
/// let mut row = [0; 5];
/// assert_eq!(slices::row(&[3, 7, 100, 200, 300, 400, 500, 9, 4], 16, 20, &mut row), 0);
/// assert_eq!(row, [3, 7, 20_500, 73_591, 4]);
/// assert_eq!(slices::row(&[0; 8], 16, 20, &mut row), 8);
/// ```
#[must_use]
pub fn row(record: &[u64], point: u16, bandwidth: u32, row: &mut [u64]) -> u64 {
    unsafe {
        exports::tankcurve_row(
            record.as_ptr(),
            record.len(),
            point,
            bandwidth,
            row.as_mut_ptr(),
            row.len(),
        )
    }
}

/// The estimates at all points. `rows`: [`crate::ROW_WIDTH`] numbers a point. Detail: the passes.
///
/// ```
/// let mut rows = [0; 10];
/// let answer = tankcurve::slices::smooth(&[50], &[9], &[0, 100], &[1, 1], &mut rows);
/// assert_eq!((answer, rows), (256 * 2, [0, 0, 0, 0, 65_536, 1, 1, 0, 0, 65_536]));
/// ```
#[must_use]
pub fn smooth(
    minutes: &[u16],
    values: &[u16],
    points: &[u16],
    bandwidths: &[u32],
    rows: &mut [u64],
) -> u64 {
    unsafe {
        exports::tankcurve_smooth(
            minutes.as_ptr(),
            minutes.len(),
            values.as_ptr(),
            values.len(),
            points.as_ptr(),
            points.len(),
            bandwidths.as_ptr(),
            bandwidths.len(),
            rows.as_mut_ptr(),
            rows.len(),
        )
    }
}

/// The same of a small curve, [`crate::PREVIEW_MAX_SAMPLES`] samples and [`crate::PREVIEW_MAX_POINTS`] points
/// at most. Detail: the passes.
///
/// ```
/// let mut rows = [0; 10];
/// let answer = tankcurve::slices::preview(&[50], &[9], &[0, 100], &[1, 1], &mut rows);
/// assert_eq!((answer, rows), (256 * 2, [0, 0, 0, 0, 65_536, 1, 1, 0, 0, 65_536]));
/// assert_eq!(tankcurve::slices::preview(&[0; 257], &[0; 257], &[], &[], &mut []), 6);
/// ```
#[must_use]
pub fn preview(
    minutes: &[u16],
    values: &[u16],
    points: &[u16],
    bandwidths: &[u32],
    rows: &mut [u64],
) -> u64 {
    unsafe {
        exports::tankcurve_preview(
            minutes.as_ptr(),
            minutes.len(),
            values.as_ptr(),
            values.len(),
            points.as_ptr(),
            points.len(),
            bandwidths.as_ptr(),
            bandwidths.len(),
            rows.as_mut_ptr(),
            rows.len(),
        )
    }
}

/// Fills an evaluation grid. Detail 0.
///
/// ```
/// let (mut points, mut bandwidths) = ([0; 2], [0; 2]);
/// assert_eq!(tankcurve::slices::fill(65_535, 1, 0, &mut points, &mut bandwidths), 13);
/// ```
#[must_use]
pub fn fill(
    first: u16,
    spacing: u16,
    preset: u32,
    points: &mut [u16],
    bandwidths: &mut [u32],
) -> u64 {
    unsafe {
        exports::tankcurve_fill(
            first,
            spacing,
            preset,
            points.as_mut_ptr(),
            points.len(),
            bandwidths.as_mut_ptr(),
            bandwidths.len(),
        )
    }
}

/// Reads a sheet. `minutes` and `values`: 1,024 each; `points` and `bandwidths`: 512 each; `counts`: 2
/// numbers: samples, points. Detail 0.
///
/// ```
/// let (mut minutes, mut values) = ([0; 1024], [0; 1024]);
/// let (mut points, mut bandwidths, mut counts) = ([0; 512], [0; 512], [0; 2]);
/// let answer = tankcurve::slices::read(
///     b"mark,half\n20,10\n\nminute,inj,vdk\n",
///     &mut minutes,
///     &mut values,
///     &mut points,
///     &mut bandwidths,
///     &mut counts,
/// );
/// assert_eq!((answer, counts), (0, [0, 1]));
/// ```
#[must_use]
pub fn read(
    sheet: &[u8],
    minutes: &mut [u16],
    values: &mut [u16],
    points: &mut [u16],
    bandwidths: &mut [u32],
    counts: &mut [u64],
) -> u64 {
    unsafe {
        exports::tankcurve_read(
            sheet.as_ptr(),
            sheet.len(),
            minutes.as_mut_ptr(),
            minutes.len(),
            values.as_mut_ptr(),
            values.len(),
            points.as_mut_ptr(),
            points.len(),
            bandwidths.as_mut_ptr(),
            bandwidths.len(),
            counts.as_mut_ptr(),
            counts.len(),
        )
    }
}

/// The curve of a sheet of either kind, as the program writes it. `out`: [`crate::MAX_OUTPUT`] bytes. Detail: the bytes
/// written; of a refused sheet its number and place, and `out` is untouched.
///
/// ```
/// let mut out = [0; tankcurve::MAX_OUTPUT];
/// assert_eq!(tankcurve::slices::text(b"mark,half\n\n", &mut out), 256 * 10 + 7);
/// ```
#[must_use]
pub fn text(sheet: &[u8], out: &mut [u8]) -> u64 {
    unsafe { exports::tankcurve_text(sheet.as_ptr(), sheet.len(), out.as_mut_ptr(), out.len()) }
}

/// The text of a refusal with any number and place, as the program writes it. `out`: [`crate::MAX_OUTPUT`]
/// bytes. Detail: the bytes written.
///
/// ```
/// let mut out = [0; tankcurve::MAX_OUTPUT];
/// assert_eq!(tankcurve::slices::refusal_text(4, 52, &mut out), 256 * 19);
/// assert_eq!(out[..19], *b"refused,place\n4,52\n");
/// ```
#[must_use]
pub fn refusal_text(number: u64, place: u64, out: &mut [u8]) -> u64 {
    unsafe { exports::tankcurve_refusal_text(number, place, out.as_mut_ptr(), out.len()) }
}

/// The first point whose value is present and at or below `limit`. `position`: 1 number: the position in
/// `points`, or [`NO_POSITION`]. Detail: the passes up to and with that point, else those of all points.
///
/// ```
/// let mut position = [0];
/// let answer = tankcurve::slices::first_at_most(&[5, 9], &[7, 3], &[5, 9], &[1, 1], 3, &mut position);
/// assert_eq!((answer, position), (256 * 3, [1]));
/// ```
#[must_use]
pub fn first_at_most(
    minutes: &[u16],
    values: &[u16],
    points: &[u16],
    bandwidths: &[u32],
    limit: u16,
    position: &mut [u64],
) -> u64 {
    unsafe {
        exports::tankcurve_first_at_most(
            minutes.as_ptr(),
            minutes.len(),
            values.as_ptr(),
            values.len(),
            points.as_ptr(),
            points.len(),
            bandwidths.as_ptr(),
            bandwidths.len(),
            limit,
            position.as_mut_ptr(),
            position.len(),
        )
    }
}

/// The lowest sample without which alone the value at a point is at or below `limit` where it was not, or is not where
/// it was; a missing value is at or below no limit. `position`: 1 number: the position in `minutes` and `values`, or
/// [`NO_POSITION`]. Detail 0.
///
/// ```
/// let mut position = [0];
/// let answer = tankcurve::slices::decisive(&[5, 5], &[9, 3], 5, 1, 3, &mut position);
/// // Without the first, the value is 3.
/// assert_eq!((answer, position), (0, [0]));
/// ```
#[must_use]
pub fn decisive(
    minutes: &[u16],
    values: &[u16],
    point: u16,
    bandwidth: u32,
    limit: u16,
    position: &mut [u64],
) -> u64 {
    unsafe {
        exports::tankcurve_decisive(
            minutes.as_ptr(),
            minutes.len(),
            values.as_ptr(),
            values.len(),
            point,
            bandwidth,
            limit,
            position.as_mut_ptr(),
            position.len(),
        )
    }
}

/// Two tanks set against each other. Detail: 0 where their values agree at all points, else the higher
/// tank, 1 or 2; only then `out`, [`crate::PARTING_WIDTH`] numbers, is written: the point's position, left
/// and right.
///
/// ```
/// let mut out = [7; 3];
/// let answer = tankcurve::slices::compare(&[50], &[9], &[], &[], &[50], &[1], &mut out);
/// // A missing value is the higher one.
/// assert_eq!((answer, out), (256 * 2, [0, 0, 0]));
/// ```
#[must_use]
pub fn compare(
    minutes1: &[u16],
    values1: &[u16],
    minutes2: &[u16],
    values2: &[u16],
    points: &[u16],
    bandwidths: &[u32],
    out: &mut [u64],
) -> u64 {
    unsafe {
        exports::tankcurve_compare(
            minutes1.as_ptr(),
            minutes1.len(),
            values1.as_ptr(),
            values1.len(),
            minutes2.as_ptr(),
            minutes2.len(),
            values2.as_ptr(),
            values2.len(),
            points.as_ptr(),
            points.len(),
            bandwidths.as_ptr(),
            bandwidths.len(),
            out.as_mut_ptr(),
            out.len(),
        )
    }
}

/// Bandwidths by neighbours, and the estimates with them. `bandwidths`: one a point; `rows`:
/// [`crate::ROW_WIDTH`] numbers a point. Both are written. Detail 0.
///
/// ```
/// let (mut bandwidths, mut rows) = ([0; 2], [0; 10]);
/// let answer = tankcurve::slices::neighbours(&[5, 9], &[2, 3], &[5, 9], 1, &mut bandwidths, &mut rows);
/// assert_eq!((answer, bandwidths), (0, [1, 1]));
/// assert_eq!(rows, [0, 1, 1, 2, 2, 1, 2, 1, 3, 3]);
/// ```
#[must_use]
pub fn neighbours(
    minutes: &[u16],
    values: &[u16],
    points: &[u16],
    k: usize,
    bandwidths: &mut [u32],
    rows: &mut [u64],
) -> u64 {
    unsafe {
        exports::tankcurve_neighbours(
            minutes.as_ptr(),
            minutes.len(),
            values.as_ptr(),
            values.len(),
            points.as_ptr(),
            points.len(),
            k,
            bandwidths.as_mut_ptr(),
            bandwidths.len(),
            rows.as_mut_ptr(),
            rows.len(),
        )
    }
}

/// A weight or a sum of a row of this weight as doubles. `doubles`: 2, of which as many are stored as the
/// detail says: 0 without weight, 1 below 2^53, and from there on a high part and a low part.
///
/// ```
/// let mut doubles = [7.0; 2];
/// assert_eq!(tankcurve::slices::doubles(5, 9_007_199_254_740_993, &mut doubles), 256 * 2);
/// assert_eq!(doubles, [9_007_199_254_740_992.0, 1.0]);
/// ```
#[must_use]
pub fn doubles(weight: u64, number: u64, doubles: &mut [f64]) -> u64 {
    unsafe { exports::tankcurve_doubles(weight, number, doubles.as_mut_ptr(), doubles.len()) }
}

/// The sweep over readings known as ranges. `rows`: [`crate::RANGE_ROW_WIDTH`] numbers a point: left, right, weight,
/// low sum, high sum, low value, high value. Detail: the passes.
///
/// ```
/// let mut rows = [0; 7];
/// let answer = tankcurve::slices::smooth_ranges(&[0, 0], &[2, 1], &[2, 3], &[0], &[1], &mut rows);
/// assert_eq!((answer, rows), (256 * 2, [0, 2, 2, 3, 5, 2, 2]));
/// ```
#[must_use]
pub fn smooth_ranges(
    minutes: &[u16],
    lows: &[u16],
    highs: &[u16],
    points: &[u16],
    bandwidths: &[u32],
    rows: &mut [u64],
) -> u64 {
    unsafe {
        exports::tankcurve_smooth_ranges(
            minutes.as_ptr(),
            minutes.len(),
            lows.as_ptr(),
            lows.len(),
            highs.as_ptr(),
            highs.len(),
            points.as_ptr(),
            points.len(),
            bandwidths.as_ptr(),
            bandwidths.len(),
            rows.as_mut_ptr(),
            rows.len(),
        )
    }
}

/// Reads a sheet of either kind. `minutes`, `lows` and `highs`: [`crate::MAX_SAMPLES`]; `points` and `bandwidths`:
/// [`crate::MAX_POINTS`]; `counts`: 3 numbers: samples, points, and [`KIND_PLAIN`] or [`KIND_RANGES`]. Detail 0.
///
/// ```
/// use tankcurve::slices::{read_ranges, KIND_RANGES};
/// let (mut minutes, mut lows, mut highs) = ([0; 1024], [0; 1024], [0; 1024]);
/// let (mut points, mut bandwidths, mut counts) = ([0; 512], [0; 512], [0; 3]);
/// let sheet = b"mark,half\n5,2\n\nminute,inj,low,high\n10,3,0,40\n";
/// let answer = read_ranges(
///     sheet, &mut minutes, &mut lows, &mut highs, &mut points, &mut bandwidths, &mut counts,
/// );
/// assert_eq!((answer, counts), (0, [1, 1, KIND_RANGES]));
/// ```
#[must_use]
pub fn read_ranges(
    sheet: &[u8],
    minutes: &mut [u16],
    lows: &mut [u16],
    highs: &mut [u16],
    points: &mut [u16],
    bandwidths: &mut [u32],
    counts: &mut [u64],
) -> u64 {
    unsafe {
        exports::tankcurve_read_ranges(
            sheet.as_ptr(),
            sheet.len(),
            minutes.as_mut_ptr(),
            minutes.len(),
            lows.as_mut_ptr(),
            lows.len(),
            highs.as_mut_ptr(),
            highs.len(),
            points.as_mut_ptr(),
            points.len(),
            bandwidths.as_mut_ptr(),
            bandwidths.len(),
            counts.as_mut_ptr(),
            counts.len(),
        )
    }
}

/// The version of the linked archive, which is no answer: it has neither number nor detail.
///
/// ```
/// assert_eq!(tankcurve::slices::version(), tankcurve::VERSION);
/// ```
#[must_use]
pub fn version() -> u32 {
    unsafe { exports::tankcurve_version() }
}

/// Minute and temperature together: count and sum of the samples in the box of each pair of points, and
/// of those in each cell. `boxes`: [`crate::BOX_WIDTH`] numbers a pair; `counts` and `sums`:
/// [`crate::CELLS`] each. All three are written. Detail 0.
///
/// ```
/// use tankcurve::{slices, CELLS};
/// let (mut boxes, mut counts, mut sums) = ([7; 2], [7; CELLS], [7; CELLS]);
/// let answer = slices::boxes(
///     &[5, 9], &[40, 40], &[2, 3], &[5], &[1], &[40], &[1], &mut boxes, &mut counts, &mut sums,
/// );
/// assert_eq!((answer, boxes), (0, [1, 2]));
/// // Cuts 4, 7 and 39, 42: the sample at minute 9 is in minute strip 2.
/// assert_eq!((counts[65 + 1], counts[2 * 65 + 1], sums[2 * 65 + 1]), (1, 1, 3));
/// ```
#[allow(clippy::too_many_arguments)]
#[must_use]
pub fn boxes(
    minutes: &[u16],
    temperatures: &[u8],
    values: &[u16],
    points: &[u16],
    bandwidths: &[u32],
    temperature_points: &[u8],
    temperature_bandwidths: &[u32],
    boxes: &mut [u64],
    counts: &mut [u32],
    sums: &mut [u32],
) -> u64 {
    unsafe {
        exports::tankcurve_boxes(
            minutes.as_ptr(),
            minutes.len(),
            temperatures.as_ptr(),
            temperatures.len(),
            values.as_ptr(),
            values.len(),
            points.as_ptr(),
            points.len(),
            bandwidths.as_ptr(),
            bandwidths.len(),
            temperature_points.as_ptr(),
            temperature_points.len(),
            temperature_bandwidths.as_ptr(),
            temperature_bandwidths.len(),
            boxes.as_mut_ptr(),
            boxes.len(),
            counts.as_mut_ptr(),
            counts.len(),
            sums.as_mut_ptr(),
            sums.len(),
        )
    }
}
