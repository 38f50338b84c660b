//! Calls each export with values that tell all its parameters apart: where two of them were exchanged
//! in a declaration or a wrapper, an answer here would be another one.
//!
//! The expected numbers are those of the second implementation in `reference/`.

use tankcurve::slices::{self, DETAIL_UNIT};
use tankcurve::{
    Cell, Counts, Error, Kind, Parting, RangeCounts, RecordRow, Refusal, Report, RunningSums, Tank,
    CELLS, MAX_OUTPUT, PREVIEW_MAX_SAMPLES, RANGE_ROW_WIDTH, ROW_WIDTH,
};

const MINUTES: [u16; 6] = [3, 8, 8, 15, 21, 40];
const VALUES: [u16; 6] = [5, 7, 11, 13, 29, 31];
/// Minutes of which that at position 4 is below the one before.
const FALLING: [u16; 6] = [3, 8, 8, 15, 14, 40];

const SHEET: &[u8] =
    b"mark,half\n12,7\n14,9\n\nminute,inj,vdk\n11,3,21\n12,1,22\n13,4,23\n30,5,24\n";
/// The same with a carriage return in the endings of both names lines, the empty line and a line of values
/// each.
const OFFICE_SHEET: &[u8] =
    b"mark,half\r\n12,7\r\n14,9\n\r\nminute,inj,vdk\r\n11,3,21\n12,1,22\n13,4,23\r\n30,5,24\n";
const TEXT: &[u8] = b"mark,half,left,right,weight,sum,vdk\n12,7,0,2,96,2112,22\n14,9,0,2,152,3352,22\n\nkept,passes\n3,2\n";
/// A sheet whose line at byte 52 has a minute below the one before.
const FALLING_SHEET: &[u8] =
    b"mark,half\n12,7\n14,9\n\nminute,inj,vdk\n11,3,21\n12,1,22\n11,4,23\n30,5,24\n";
/// Lows and highs for the minutes above, and lows of which that at position 4 is above its high.
const LOWS: [u16; 6] = [4, 0, 10, 6, 13, 31];
const HIGHS: [u16; 6] = [5, 7, 11, 13, 29, 31];
const CROSSED: [u16; 6] = [4, 0, 10, 6, 30, 31];
const RANGE_SHEET: &[u8] =
    b"mark,half\n12,7\n14,9\n\nminute,inj,low,high\n11,3,0,21\n12,1,22,22\n13,4,23,25\n30,5,20,24\n";
const RANGE_TEXT: &[u8] = b"mark,half,left,right,weight,sumlow,sumhigh,vdklow,vdkhigh\n12,7,0,2,96,1104,2208,12,23\n14,9,0,2,152,1840,3512,12,23\n\nkept,passes\n3,2\n";
/// A sheet whose line at byte 51, which is not kept, has a low above its high.
const CROSSED_SHEET: &[u8] =
    b"mark,half\n12,7\n14,9\n\nminute,inj,low,high\n11,3,0,21\n12,1,23,22\n13,4,23,25\n30,5,20,24\n";
const FALLING_TEXT: &[u8] = b"refused,place\n4,52\n";

fn refused<T>(report: Report, place: u64) -> Result<T, Error> {
    Err(Error::Refused(Refusal { report, place }))
}

#[test]
fn evaluate() {
    let mut row = [90, 91, 92, 93, 94];
    assert_eq!(
        slices::evaluate(&FALLING, &VALUES, 14, 7, &mut row),
        DETAIL_UNIT * 4 + 4
    );
    assert_eq!(row, [90, 91, 92, 93, 94]);
    assert_eq!(slices::evaluate(&MINUTES, &VALUES, 14, 7, &mut row), 0);
    assert_eq!(row, [1, 5, 74, 858, 12]);
    let mut long = [90; ROW_WIDTH + 1];
    assert_eq!(slices::evaluate(&MINUTES, &VALUES, 14, 7, &mut long), 8);
    assert_eq!(long, [90; ROW_WIDTH + 1]);

    let estimate = tankcurve::evaluate(&MINUTES, &VALUES, 14, 7).unwrap();
    assert_eq!((estimate.left(), estimate.right()), (1, 5));
    assert_eq!((estimate.weight(), estimate.sum()), (74, 858));
    assert_eq!((estimate.value(), estimate.raw_value()), (Some(12), 12));
    assert_eq!(<[u64; ROW_WIDTH]>::from(estimate), row);
    assert_eq!(
        tankcurve::evaluate(&FALLING, &VALUES, 14, 7),
        refused(Report::SampleOutOfOrder, 4)
    );
}

/// A point whose window begins behind the first three samples.
#[test]
fn biweight() {
    let mut row = [90, 91, 92, 93, 94];
    assert_eq!(
        slices::biweight(&FALLING, &VALUES, 735, &mut row),
        DETAIL_UNIT * 4 + 4
    );
    assert_eq!(slices::biweight(&MINUTES, &VALUES[1..], 735, &mut row), 8);
    assert_eq!(row, [90, 91, 92, 93, 94]);
    assert_eq!(slices::biweight(&MINUTES, &VALUES, 735, &mut row), 0);
    assert_eq!(row, [3, 6, 1_325_419_441, 40_939_945_039, 31]);
    let mut long = [90; ROW_WIDTH + 1];
    assert_eq!(slices::biweight(&MINUTES, &VALUES, 735, &mut long), 8);
    assert_eq!(long, [90; ROW_WIDTH + 1]);

    let estimate = tankcurve::biweight(&MINUTES, &VALUES, 735).unwrap();
    assert_eq!(<[u64; ROW_WIDTH]>::from(estimate), row);
    assert_eq!(estimate.value(), Some(31));
    assert_eq!(
        tankcurve::biweight(&FALLING, &VALUES, 735),
        refused(Report::SampleOutOfOrder, 4)
    );
    // On the edge: in the run, without a value.
    let edge = tankcurve::biweight(&[720], &[7], 0).unwrap();
    assert_eq!((edge.left(), edge.right(), edge.value()), (0, 1, None));
}

/// Empty lists, whose pointers lead nowhere: case C4, and an empty sheet.
#[test]
fn empty_lists() {
    let missing = tankcurve::evaluate(&[], &[], 5, 1).unwrap();
    assert_eq!(
        <[u64; ROW_WIDTH]>::from(missing),
        [0, 0, 0, 0, tankcurve::MISSING]
    );
    assert_eq!(missing.value(), None);
    assert_eq!(tankcurve::window(&[], &[], 5, 1), Ok(&[][..]));
    assert_eq!(
        tankcurve::smooth(&[], &[], &[], &[], &mut []).map(|curve| curve.passes),
        refused(Report::NoPoints, 0)
    );
    assert_eq!(
        tankcurve::fill(0, 0, 0, &mut [], &mut []),
        refused(Report::NoPoints, 0)
    );
    assert_eq!(slices::advance(&mut [], &[], &[], 5, 1), 8);
    assert_eq!(
        slices::read(&[], &mut [], &mut [], &mut [], &mut [], &mut []),
        8
    );
    assert_eq!(slices::text(&[], &mut []), 8);
    assert_eq!(slices::refusal_text(4, 52, &mut []), 8);
    let mut out = [90; MAX_OUTPUT];
    assert_eq!(
        tankcurve::text(&[], &mut out),
        refused(Report::BadHeader, 0)
    );
    assert_eq!(out, [90; MAX_OUTPUT]);
}

#[test]
fn window() {
    let mut bounds = [90, 91];
    assert_eq!(
        slices::window(&FALLING, &VALUES, 14, 7, &mut bounds),
        DETAIL_UNIT * 4 + 4
    );
    assert_eq!(bounds, [90, 91]);
    assert_eq!(slices::window(&MINUTES, &VALUES, 14, 7, &mut bounds), 0);
    assert_eq!(bounds, [1, 5]);
    let mut long = [90; 3];
    assert_eq!(slices::window(&MINUTES, &VALUES, 14, 7, &mut long), 8);
    assert_eq!(long, [90; 3]);

    let run: &[u16] = &[7, 11, 13, 29];
    assert_eq!(tankcurve::window(&MINUTES, &VALUES, 14, 7), Ok(run));
    assert_eq!(
        tankcurve::window(&FALLING, &VALUES, 14, 7),
        refused(Report::SampleOutOfOrder, 4)
    );
}

#[test]
fn advance() {
    let before = [0, 3, 100, 200, 300, 400, 500, u64::MAX, 40];
    let after = [1, 5, 101, 233, 957, 437, 1289, 15_668, 43];
    let mut record = before;
    assert_eq!(slices::advance(&mut record, &MINUTES, &VALUES, 16, 0), 9);
    assert_eq!(record, before);
    assert_eq!(slices::advance(&mut record, &MINUTES, &VALUES, 16, 8), 0);
    assert_eq!(record, after);
    let mut long = [1; 10];
    assert_eq!(slices::advance(&mut long, &MINUTES, &VALUES, 16, 8), 8);
    assert_eq!(long, [1; 10]);

    let sums = RunningSums {
        left: 0,
        right: 3,
        s00: 100,
        s10: 200,
        s20: 300,
        s01: 400,
        s11: 500,
        s21: u64::MAX,
        passes: 40,
    };
    let mut running = sums;
    assert_eq!(
        tankcurve::advance(&mut running, &MINUTES, &VALUES, 16, 0),
        refused(Report::BandwidthOutOfRange, 0)
    );
    assert_eq!(running, sums);
    assert_eq!(
        tankcurve::advance(&mut running, &MINUTES, &VALUES, 16, 8),
        Ok(())
    );
    let moved = RunningSums {
        left: 1,
        right: 5,
        s00: 101,
        s10: 233,
        s20: 957,
        s01: 437,
        s11: 1289,
        s21: 15_668,
        passes: 43,
    };
    assert_eq!(running, moved);
}

/// Forth as the step goes, and back, which no step does.
#[test]
fn turn() {
    let before = [0, 3, 100, 200, 300, 400, 500, u64::MAX, 40];
    let after = [1, 5, 101, 233, 957, 437, 1289, 15_668, 43];
    let mut record = before;
    assert_eq!(slices::turn(&mut record, &MINUTES, &VALUES, 16, 0), 9);
    assert_eq!(
        slices::turn(&mut record, &FALLING, &VALUES, 16, 0),
        DETAIL_UNIT * 4 + 4
    );
    assert_eq!(record, before);
    assert_eq!(slices::turn(&mut record, &MINUTES, &VALUES, 16, 8), 0);
    assert_eq!(record, after);
    assert_eq!(slices::turn(&mut record, &MINUTES, &VALUES, 8, 5), 0);
    assert_eq!(record[..8], before[..8]);
    assert_eq!(record[8], 46);
    let mut long = [1; 10];
    assert_eq!(slices::turn(&mut long, &MINUTES, &VALUES, 16, 8), 8);
    assert_eq!(long, [1; 10]);

    let mut running = RunningSums::from(before);
    assert_eq!(
        tankcurve::turn(&mut running, &FALLING, &VALUES, 16, 8),
        refused(Report::SampleOutOfOrder, 4)
    );
    assert_eq!(running, RunningSums::from(before));
    assert_eq!(
        tankcurve::turn(&mut running, &MINUTES, &VALUES, 16, 8),
        Ok(())
    );
    assert_eq!(running, RunningSums::from(after));
}

/// The row of a record: that of `evaluate` where the record is of its window, and modulo 2^64 for one
/// of any origin.
#[test]
fn row() {
    let foreign = [3, 7, 100, 200, 300, 400, 500, 9, 2];
    let mut row = [90; ROW_WIDTH + 1];
    assert_eq!(slices::row(&foreign[..8], 16, 20, &mut row[..5]), 8);
    assert_eq!(slices::row(&foreign, 16, 20, &mut row), 8);
    assert_eq!(row, [90; ROW_WIDTH + 1]);
    assert_eq!(slices::row(&foreign, 16, 20, &mut row[..5]), 0);
    assert_eq!(row, [3, 7, 20_500, 73_591, 4, 90]);

    let typed = tankcurve::row(RunningSums::from(foreign), 16, 20);
    assert_eq!(typed, Ok(RecordRow::from([3, 7, 20_500, 73_591, 4])));
    let wrapping = RunningSums::from([3, 7, 2, 0, 0, u64::MAX, 0, 0, 0]);
    assert_eq!(
        wrapping.row(0, 1),
        Ok(RecordRow::from([3, 7, 2, u64::MAX, 1 << 63]))
    );

    let mut record = RunningSums::default();
    assert_eq!(
        tankcurve::advance(&mut record, &MINUTES, &VALUES, 14, 7),
        Ok(())
    );
    assert_eq!(record.row(14, 7), Ok(RecordRow::from([1, 5, 74, 858, 12])));
}

/// Numbers of 32 bits arrive whole: a declaration of 16 bits would cut these to others.
#[test]
fn widths() {
    let greatest = tankcurve::MAX_BANDWIDTH;
    let mut row = [0; ROW_WIDTH];
    assert_eq!(
        slices::evaluate(&MINUTES, &VALUES, 14, greatest, &mut row),
        0
    );
    assert_eq!(row, [0, 6, 25769802857, 412316836773, 16]);
    let mut bounds = [0; 2];
    assert_eq!(
        slices::window(&MINUTES, &VALUES, 14, greatest, &mut bounds),
        0
    );
    assert_eq!(bounds, [0, 6]);
    let mut record = [0; 9];
    assert_eq!(
        slices::turn(&mut record, &MINUTES, &VALUES, 14, greatest),
        0
    );
    record = [0; 9];
    assert_eq!(
        slices::advance(&mut record, &MINUTES, &VALUES, 14, greatest),
        0
    );
    assert_eq!(record, [0, 6, 6, 95, 2403, 96, 2203, 66511, 6]);
    let foreign = [3, 7, 100, 200, 300, 400, 500, 9, 2];
    assert_eq!(slices::row(&foreign, 16, u32::MAX, &mut row), 0);
    assert_eq!(row, [3, 7, 18446743214716073016, 18446740637735628807, 1]);
    assert_eq!(slices::fill(100, 7, 65_540, &mut [0], &mut [0]), 12);
}

#[test]
fn smooth() {
    let before: [u64; 3 * ROW_WIDTH] = std::array::from_fn(|i| 90 + i as u64);
    let after = [0, 4, 70, 630, 9, 1, 5, 74, 858, 12, 3, 5, 78, 2022, 26];
    let mut rows = before;
    assert_eq!(
        slices::smooth(&MINUTES, &VALUES, &[9, 14, 22], &[6, 7, 16], &mut rows),
        DETAIL_UNIT * 2 + 10
    );
    assert_eq!(rows, before);
    assert_eq!(
        slices::smooth(&MINUTES, &VALUES, &[9, 14, 22], &[6, 7, 8], &mut rows),
        DETAIL_UNIT * 8
    );
    assert_eq!(rows, after);
    let mut long = [90; 3 * ROW_WIDTH + 1];
    assert_eq!(
        slices::smooth(&MINUTES, &VALUES, &[9, 14, 22], &[6, 7, 8], &mut long),
        8
    );
    assert_eq!(long, [90; 3 * ROW_WIDTH + 1]);

    let mut typed = before;
    assert_eq!(
        tankcurve::smooth(&MINUTES, &VALUES, &[9, 14, 22], &[6, 7, 16], &mut typed)
            .map(|curve| curve.passes),
        refused(Report::EdgeDecreases, 2)
    );
    assert_eq!(typed, before);
    let curve = tankcurve::smooth(&MINUTES, &VALUES, &[9, 14, 22], &[6, 7, 8], &mut typed).unwrap();
    assert_eq!((curve.passes, curve.rows.len()), (8, 3));
    let rows: Vec<[u64; ROW_WIDTH]> = curve.rows.map(Into::into).collect();
    assert_eq!(rows.concat(), after);
    assert_eq!(typed, after);
}

#[test]
fn preview() {
    let before: [u64; 3 * ROW_WIDTH] = std::array::from_fn(|i| 90 + i as u64);
    let after = [0, 4, 70, 630, 9, 1, 5, 74, 858, 12, 3, 5, 78, 2022, 26];
    let many = [0; PREVIEW_MAX_SAMPLES + 1];
    let mut rows = before;
    assert_eq!(
        slices::preview(&MINUTES, &VALUES, &[9, 14, 22], &[6, 7, 16], &mut rows),
        DETAIL_UNIT * 2 + 10
    );
    assert_eq!(
        slices::preview(&many, &many, &[9, 14, 22], &[6, 7, 8], &mut rows),
        6
    );
    assert_eq!(
        slices::preview(&many, &VALUES, &[9, 14, 22], &[6, 7, 8], &mut rows),
        8
    );
    assert_eq!(rows, before);
    assert_eq!(
        slices::preview(&MINUTES, &VALUES, &[9, 14, 22], &[6, 7, 8], &mut rows),
        DETAIL_UNIT * 8
    );
    assert_eq!(rows, after);

    let mut typed = before;
    assert_eq!(
        tankcurve::preview(&many, &many, &[9, 14, 22], &[6, 7, 8], &mut typed)
            .map(|curve| curve.passes),
        refused(Report::TooMany, 0)
    );
    assert_eq!(typed, before);
    let curve =
        tankcurve::preview(&MINUTES, &VALUES, &[9, 14, 22], &[6, 7, 8], &mut typed).unwrap();
    assert_eq!((curve.passes, curve.rows.len()), (8, 3));
    let rows: Vec<[u64; ROW_WIDTH]> = curve.rows.map(Into::into).collect();
    assert_eq!(rows.concat(), after);
    assert_eq!(typed, after);
}

/// As many points as samples, so that no exchange of lists shows in their lengths.
#[test]
fn smooth_lists_of_one_length() {
    let points = [9, 14, 22, 30, 31, 40];
    let bandwidths = [6, 7, 8, 9, 10, 11];
    for call in [slices::smooth, slices::preview] {
        let mut rows = [90; 6 * ROW_WIDTH];
        assert_eq!(
            call(&MINUTES, &VALUES, &points, &bandwidths, &mut rows),
            DETAIL_UNIT * 11
        );
        assert_eq!(
            rows,
            [
                0, 4, 70, 630, 9, 1, 5, 74, 858, 12, 3, 5, 78, 2022, 26, 4, 5, 0, 0, 65_536, 4, 6,
                19, 589, 31, 5, 6, 121, 3751, 31
            ]
        );
    }
}

#[test]
fn fill() {
    let mut points = [90, 91, 92];
    let mut bandwidths = [93, 94, 95];
    assert_eq!(slices::fill(100, 7, 12, &mut points, &mut bandwidths), 12);
    assert_eq!((points, bandwidths), ([90, 91, 92], [93, 94, 95]));
    assert_eq!(slices::fill(100, 7, 4, &mut points, &mut bandwidths), 0);
    assert_eq!((points, bandwidths), ([100, 107, 114], [120, 120, 120]));
    assert_eq!(slices::fill(100, 7, 4, &mut points, &mut [90, 91]), 8);

    assert_eq!(
        tankcurve::fill(65_530, 3, 4, &mut points, &mut bandwidths),
        refused(Report::GridOverflow, 0)
    );
    assert_eq!(
        tankcurve::fill(100, 9, 5, &mut points, &mut bandwidths),
        Ok(())
    );
    assert_eq!((points, bandwidths), ([100, 109, 118], [180, 180, 180]));
}

#[test]
fn read() {
    let mut minutes = [90; 1024];
    let mut values = [91; 1024];
    let mut points = [92; 512];
    let mut bandwidths = [93; 512];
    let mut counts = [94, 95];
    assert_eq!(
        slices::read(
            FALLING_SHEET,
            &mut minutes,
            &mut values,
            &mut points,
            &mut bandwidths,
            &mut counts
        ),
        DETAIL_UNIT * 52 + 4
    );
    assert_eq!((minutes, values), ([90; 1024], [91; 1024]));
    assert_eq!((points, bandwidths), ([92; 512], [93; 512]));
    assert_eq!(counts, [94, 95]);
    assert_eq!(
        slices::read(
            SHEET,
            &mut minutes,
            &mut values,
            &mut points,
            &mut bandwidths,
            &mut counts
        ),
        0
    );
    assert_eq!(
        (&minutes[..3], &minutes[3..]),
        (&[11, 13, 30][..], &[90; 1021][..])
    );
    assert_eq!(
        (&values[..3], &values[3..]),
        (&[21, 23, 24][..], &[91; 1021][..])
    );
    assert_eq!(
        (&points[..2], &points[2..]),
        (&[12, 14][..], &[92; 510][..])
    );
    assert_eq!(
        (&bandwidths[..2], &bandwidths[2..]),
        (&[7, 9][..], &[93; 510][..])
    );
    assert_eq!(counts, [3, 2]);
    // A list of another length, each in turn.
    for place in 0..5 {
        let lengths: [usize; 5] =
            std::array::from_fn(|i| [1024, 1024, 512, 512, 2][i] - usize::from(i == place));
        assert_eq!(
            slices::read(
                SHEET,
                &mut minutes[..lengths[0]],
                &mut values[..lengths[1]],
                &mut points[..lengths[2]],
                &mut bandwidths[..lengths[3]],
                &mut counts[..lengths[4]]
            ),
            8
        );
    }

    let mut typed = ([90; 1024], [91; 1024], [92; 512], [93; 512]);
    assert_eq!(
        tankcurve::read(
            FALLING_SHEET,
            &mut typed.0,
            &mut typed.1,
            &mut typed.2,
            &mut typed.3
        ),
        refused(Report::SampleOutOfOrder, 52)
    );
    assert_eq!(
        tankcurve::read(
            SHEET,
            &mut typed.0,
            &mut typed.1,
            &mut typed.2,
            &mut typed.3
        ),
        Ok(Counts {
            samples: 3,
            points: 2
        })
    );
    assert_eq!(typed, (minutes, values, points, bandwidths));
}

/// Lists of one length, so that no exchange of lists shows in their lengths.
#[test]
fn smooth_ranges() {
    let (points, bandwidths) = ([9, 14, 22, 30, 31, 40], [6, 7, 8, 9, 10, 11]);
    let before: [u64; 6 * RANGE_ROW_WIDTH] = std::array::from_fn(|i| 90 + i as u64);
    let after = [
        [0, 4, 70, 350, 630, 5, 9],
        [1, 5, 74, 418, 858, 6, 12],
        [3, 5, 78, 909, 2022, 12, 26],
        [4, 5, 0, 0, 0, 65_536, 65_536],
        [4, 6, 19, 589, 589, 31, 31],
        [5, 6, 121, 3751, 3751, 31, 31],
    ];
    let mut rows = before;
    let falling = [9, 14, 22, 30, 40, 31];
    for (minutes, lows, points, report, place) in [
        (&FALLING, &CROSSED, &falling, Report::SampleOutOfOrder, 4),
        (&MINUTES, &CROSSED, &falling, Report::CrossedRange, 4),
        (&MINUTES, &LOWS, &falling, Report::PointOutOfOrder, 5),
    ] {
        assert_eq!(
            slices::smooth_ranges(minutes, lows, &HIGHS, points, &bandwidths, &mut rows),
            DETAIL_UNIT * place + report.number()
        );
        assert_eq!(
            tankcurve::smooth_ranges(minutes, lows, &HIGHS, points, &bandwidths, &mut rows)
                .map(|curve| curve.passes),
            refused(report, place)
        );
    }
    // A list of another length, each in turn.
    for place in 0..5 {
        let length = |k| 6 - usize::from(k == place);
        assert_eq!(
            slices::smooth_ranges(
                &MINUTES[..length(0)],
                &LOWS[..length(1)],
                &HIGHS[..length(2)],
                &points[..length(3)],
                &bandwidths[..length(4)],
                &mut rows
            ),
            8
        );
    }
    assert_eq!(
        slices::smooth_ranges(
            &MINUTES,
            &LOWS,
            &HIGHS,
            &points,
            &bandwidths,
            &mut rows[1..]
        ),
        8
    );
    assert_eq!(rows, before);
    assert_eq!(
        slices::smooth_ranges(&MINUTES, &LOWS, &HIGHS, &points, &bandwidths, &mut rows),
        DETAIL_UNIT * 11
    );
    assert_eq!(rows[..], after.concat());

    let mut typed = before;
    let curve = tankcurve::smooth_ranges(&MINUTES, &LOWS, &HIGHS, &points, &bandwidths, &mut typed)
        .unwrap();
    assert_eq!((curve.passes, curve.rows.len()), (11, 6));
    let first = curve.rows.clone().next().unwrap();
    assert_eq!((first.left(), first.right(), first.weight()), (0, 4, 70));
    assert_eq!((first.sums(), first.values()), ((350, 630), Some((5, 9))));
    let low = tankcurve::evaluate(&MINUTES, &LOWS, 9, 6).unwrap();
    let high = tankcurve::evaluate(&MINUTES, &HIGHS, 9, 6).unwrap();
    assert_eq!((first.low(), first.high()), (low, high));
    assert_eq!(
        curve.rows.clone().nth(3).map(|row| row.values()),
        Some(None)
    );
    let rows: Vec<[u64; RANGE_ROW_WIDTH]> = curve.rows.map(Into::into).collect();
    assert_eq!(rows, after);
}

/// The lists of the reader of both kinds: minutes, lows, highs, points and bandwidths.
type RangeLists = (
    [u16; 1024],
    [u16; 1024],
    [u16; 1024],
    [u16; 512],
    [u32; 512],
);

#[test]
fn read_ranges() {
    let before: RangeLists = ([90; 1024], [91; 1024], [92; 1024], [93; 512], [94; 512]);
    let counts_before = [95, 96, 97];
    let (mut lists, mut counts) = (before, counts_before);
    let read = |sheet, lists: &mut RangeLists, counts: &mut [u64]| {
        slices::read_ranges(
            sheet,
            &mut lists.0,
            &mut lists.1,
            &mut lists.2,
            &mut lists.3,
            &mut lists.4,
            counts,
        )
    };
    assert_eq!(
        read(CROSSED_SHEET, &mut lists, &mut counts),
        DETAIL_UNIT * 51 + 15
    );
    // A list of another length, each in turn.
    for place in 0..6 {
        let lengths: [usize; 6] =
            std::array::from_fn(|i| [1024, 1024, 1024, 512, 512, 3][i] - usize::from(i == place));
        assert_eq!(
            slices::read_ranges(
                RANGE_SHEET,
                &mut lists.0[..lengths[0]],
                &mut lists.1[..lengths[1]],
                &mut lists.2[..lengths[2]],
                &mut lists.3[..lengths[3]],
                &mut lists.4[..lengths[4]],
                &mut counts[..lengths[5]]
            ),
            8
        );
    }
    assert_eq!((lists, counts), (before, counts_before));

    let mut after = before;
    after.0[..3].copy_from_slice(&[11, 13, 30]);
    after.1[..3].copy_from_slice(&[0, 23, 20]);
    after.2[..3].copy_from_slice(&[21, 25, 24]);
    after.3[..2].copy_from_slice(&[12, 14]);
    after.4[..2].copy_from_slice(&[7, 9]);
    assert_eq!(read(RANGE_SHEET, &mut lists, &mut counts), 0);
    assert_eq!((lists, counts), (after, [3, 2, slices::KIND_RANGES]));
    after.1[..3].copy_from_slice(&[21, 23, 24]);
    after.2[..3].copy_from_slice(&[21, 23, 24]);
    assert_eq!(read(SHEET, &mut lists, &mut counts), 0);
    assert_eq!((lists, counts), (after, [3, 2, slices::KIND_PLAIN]));

    let mut typed = before;
    for (sheet, used) in [
        (CROSSED_SHEET, refused(Report::CrossedRange, 51)),
        (RANGE_SHEET, Ok(Kind::Ranges)),
        (SHEET, Ok(Kind::Plain)),
    ] {
        assert_eq!(
            tankcurve::read_ranges(
                sheet,
                &mut typed.0,
                &mut typed.1,
                &mut typed.2,
                &mut typed.3,
                &mut typed.4
            ),
            used.map(|kind| RangeCounts {
                samples: 3,
                points: 2,
                kind
            })
        );
    }
    assert_eq!(typed, after);
    // The other reader takes no ranges.
    assert_eq!(
        tankcurve::read(
            RANGE_SHEET,
            &mut typed.0,
            &mut typed.1,
            &mut typed.3,
            &mut typed.4
        ),
        refused(Report::BadHeader, 21)
    );
    assert_eq!(typed, after);
}

#[test]
fn text() {
    let mut out = [90; MAX_OUTPUT];
    assert_eq!(slices::text(FALLING_SHEET, &mut out), DETAIL_UNIT * 52 + 4);
    assert_eq!(out, [90; MAX_OUTPUT]);
    assert_eq!(slices::text(SHEET, &mut out), DETAIL_UNIT * 94);
    assert_eq!((&out[..94], &out[94..]), (TEXT, &[90; MAX_OUTPUT - 94][..]));
    // Another length comes before what a sheet is refused for.
    let mut long = [90; MAX_OUTPUT + 1];
    for sheet in [SHEET, FALLING_SHEET] {
        assert_eq!(slices::text(sheet, &mut long), 8);
        assert_eq!(slices::text(sheet, &mut long[..MAX_OUTPUT - 1]), 8);
    }
    assert_eq!(long, [90; MAX_OUTPUT + 1]);

    let mut typed = [90; MAX_OUTPUT];
    assert_eq!(
        tankcurve::text(FALLING_SHEET, &mut typed),
        refused(Report::SampleOutOfOrder, 52)
    );
    assert_eq!(typed, [90; MAX_OUTPUT]);
    assert_eq!(tankcurve::text(SHEET, &mut typed), Ok(TEXT));
    assert_eq!(typed, out);
    assert_eq!(tankcurve::text(OFFICE_SHEET, &mut typed), Ok(TEXT));
    assert_eq!(typed, out);
    assert_eq!(
        tankcurve::text(CROSSED_SHEET, &mut typed),
        refused(Report::CrossedRange, 51)
    );
    assert_eq!(typed, out);
    assert_eq!(tankcurve::text(RANGE_SHEET, &mut typed), Ok(RANGE_TEXT));
    assert_eq!(typed[RANGE_TEXT.len()..], out[RANGE_TEXT.len()..]);
}

#[test]
fn refusal_text() {
    let mut out = [90; MAX_OUTPUT];
    assert_eq!(slices::refusal_text(4, 52, &mut out), DETAIL_UNIT * 19);
    assert_eq!(
        (&out[..19], &out[19..]),
        (FALLING_TEXT, &[90; MAX_OUTPUT - 19][..])
    );
    let mut long = [90; MAX_OUTPUT + 1];
    assert_eq!(slices::refusal_text(4, 52, &mut long), 8);
    assert_eq!(slices::refusal_text(4, 52, &mut long[..MAX_OUTPUT - 1]), 8);
    assert_eq!(long, [90; MAX_OUTPUT + 1]);

    // Numbers that no call reports, and every digit of 64 bits.
    let mut wide = [90; MAX_OUTPUT];
    let written = b"refused,place\n18446744073709551615,9876543210\n";
    assert_eq!(
        slices::refusal_text(u64::MAX, 9_876_543_210, &mut wide),
        DETAIL_UNIT * 46
    );
    assert_eq!(
        (&wide[..46], &wide[46..]),
        (&written[..], &[90; MAX_OUTPUT - 46][..])
    );

    let mut typed = [90; MAX_OUTPUT];
    let refusal = Refusal {
        report: Report::SampleOutOfOrder,
        place: 52,
    };
    assert_eq!(
        tankcurve::refusal_text(refusal, &mut typed),
        Ok(FALLING_TEXT)
    );
    assert_eq!(typed, out);
    let refusal = Refusal {
        report: Report::GridOverflow,
        place: u64::MAX,
    };
    assert_eq!(
        tankcurve::refusal_text(refusal, &mut typed),
        Ok(&b"refused,place\n13,18446744073709551615\n"[..])
    );
}

/// Falling values, so that limits tell the points apart: their rows have 21, 15, 8, none, 5 and 5. As
/// many points as samples, so that no exchange of lists shows in their lengths.
#[test]
fn first_at_most() {
    let (points, bandwidths) = ([9, 14, 22, 30, 31, 40], [6, 7, 8, 9, 10, 11]);
    let values = [31, 29, 13, 11, 7, 5];
    let mut position = [90];
    let narrowing = [6, 7, 8, 9, 10, 0];
    assert_eq!(
        slices::first_at_most(
            &MINUTES,
            &values,
            &points,
            &narrowing,
            65_535,
            &mut position
        ),
        DETAIL_UNIT * 5 + 9
    );
    assert_eq!(position, [90]);
    assert_eq!(
        tankcurve::first_at_most(&MINUTES, &values, &points, &narrowing, 65_535),
        refused(Report::BandwidthOutOfRange, 5)
    );
    assert_eq!(
        tankcurve::first_at_most(&FALLING, &values, &points, &bandwidths, 65_535),
        refused(Report::SampleOutOfOrder, 4)
    );
    let mut long = [90; 2];
    assert_eq!(
        slices::first_at_most(&MINUTES, &values, &points, &bandwidths, 21, &mut long),
        8
    );
    assert_eq!(long, [90; 2]);
    for (limit, point, passes) in [
        (65_535, Some(0), 4),
        (21, Some(0), 4),
        (20, Some(1), 6),
        (15, Some(1), 6),
        (14, Some(2), 8),
        (7, Some(4), 10),
        (5, Some(4), 10),
        (4, None, 11),
    ] {
        assert_eq!(
            slices::first_at_most(
                &MINUTES,
                &values,
                &points,
                &bandwidths,
                limit,
                &mut position
            ),
            DETAIL_UNIT * passes
        );
        assert_eq!(
            position,
            [point.map_or(slices::NO_POSITION, |k: usize| k as u64)]
        );
        assert_eq!(
            tankcurve::first_at_most(&MINUTES, &values, &points, &bandwidths, limit),
            Ok(tankcurve::Crossing { point, passes })
        );
    }
}

/// At 14 with half width 8 the value is 13, and 13, 15, 14, 13, 11 and 13 without each sample in turn; with half width 7
/// it is 12, and 12, 13, 12, 9, 12 and 12.
#[test]
fn decisive() {
    let mut position = [90];
    assert_eq!(
        slices::decisive(&FALLING, &VALUES, 14, 7, 12, &mut position),
        DETAIL_UNIT * 4 + 4
    );
    assert_eq!(
        slices::decisive(&MINUTES, &VALUES, 14, 0, 12, &mut position),
        9
    );
    assert_eq!(position, [90]);
    assert_eq!(
        tankcurve::decisive(&FALLING, &VALUES, 14, 7, 12),
        refused(Report::SampleOutOfOrder, 4)
    );
    assert_eq!(
        tankcurve::decisive(&MINUTES, &VALUES[..5], 14, 7, 12),
        refused(Report::LengthMismatch, 0)
    );
    let mut long = [90; 2];
    assert_eq!(slices::decisive(&MINUTES, &VALUES, 14, 7, 12, &mut long), 8);
    assert_eq!(long, [90; 2]);
    for (bandwidth, limit, expected) in [
        (7, 8, None),
        (7, 9, Some(3)),
        (7, 11, Some(3)),
        (7, 12, Some(1)),
        (7, 13, None),
        (8, 10, None),
        (8, 11, Some(4)),
        (8, 12, Some(4)),
        (8, 13, Some(1)),
        (8, 14, Some(1)),
        (8, 15, None),
        (8, 65_535, None),
    ] {
        assert_eq!(
            slices::decisive(&MINUTES, &VALUES, 14, bandwidth, limit, &mut position),
            0
        );
        assert_eq!(
            position,
            [expected.map_or(slices::NO_POSITION, |i: usize| i as u64)]
        );
        assert_eq!(
            tankcurve::decisive(&MINUTES, &VALUES, 14, bandwidth, limit),
            Ok(expected)
        );
    }
    assert_eq!(tankcurve::decisive(&[], &[], 14, 7, 65_535), Ok(None));
}

/// A twin of [`MINUTES`] and [`VALUES`], which parts from them at the third of three points.
const TWIN_MINUTES: [u16; 5] = [3, 8, 8, 15, 21];
const TWIN_VALUES: [u16; 5] = [5, 7, 11, 13, 35];

#[test]
#[rustfmt::skip]
fn compare() {
    let (points, bandwidths) = (&[9, 14, 22][..], &[6, 7, 8][..]);
    let (m, v, n, w) = (&MINUTES[..], &VALUES[..], &TWIN_MINUTES[..], &TWIN_VALUES[..]);
    let mut out = [90, 91, 92];
    let untouched = out;
    for length in [2, 4] {
        let mut other = vec![90; length];
        assert_eq!(slices::compare(m, v, n, w, points, bandwidths, &mut other), 8);
        assert_eq!(other, vec![90; length]);
    }
    // Each list in its place: another one at fault gets another answer.
    assert_eq!(slices::compare(m, &v[..5], n, w, points, bandwidths, &mut out), 8);
    assert_eq!(slices::compare(m, v, n, w, points, &bandwidths[..2], &mut out), 8);
    assert_eq!(slices::compare(&FALLING, v, n, w, points, bandwidths, &mut out), DETAIL_UNIT * 4 + 4);
    assert_eq!(slices::compare(n, w, &FALLING, v, points, bandwidths, &mut out), DETAIL_UNIT * 4 + 16);
    assert_eq!(slices::compare(m, v, n, &w[..4], points, bandwidths, &mut out), 16);
    assert_eq!(slices::compare(m, v, n, w, &[9, 14, 13], bandwidths, &mut out), DETAIL_UNIT * 2 + 5);
    assert_eq!(slices::compare(m, v, &FALLING, v, points, &[6, 7, 16], &mut out), DETAIL_UNIT * 2 + 10);
    assert_eq!(slices::compare(m, v, m, v, points, bandwidths, &mut out), 0);
    assert_eq!(out, untouched);
    assert_eq!(slices::compare(m, v, n, w, points, bandwidths, &mut out), DETAIL_UNIT * 2);
    assert_eq!(out, [2, 3, 5]);
    out = untouched;
    assert_eq!(slices::compare(n, w, m, v, points, bandwidths, &mut out), DETAIL_UNIT);
    assert_eq!(out, [2, 3, 5]);

    let twin = Parting { point: 2, higher: Tank::Second, run: &w[3..5] };
    let parting = tankcurve::compare(m, v, n, w, points, bandwidths);
    assert_eq!(parting, Ok(Some(twin)));
    assert_eq!(parting.unwrap().unwrap().run.as_ptr(), w[3..].as_ptr());
    let first = tankcurve::compare(n, w, m, v, points, bandwidths);
    assert_eq!(first, Ok(Some(Parting { higher: Tank::First, ..twin })));
    assert_eq!(tankcurve::compare(m, v, m, v, points, bandwidths), Ok(None));
    assert_eq!(tankcurve::compare(n, w, &FALLING, v, points, bandwidths), refused(Report::SecondSeries, 4));
    // A missing value, and the empty run at its place in its own list.
    let far = [7, 8];
    let missing = tankcurve::compare(&[50], &[9], &[3, 4], &far, &[50], &[1]).unwrap().unwrap();
    assert_eq!((missing.point, missing.higher, missing.run.as_ptr_range()), (0, Tank::Second, far[2..].as_ptr_range()));
}

/// As many points as samples, so that no exchange of lists shows in their lengths, and a k that is none of
/// their numbers.
#[test]
fn neighbours() {
    let points = [9, 14, 22, 30, 31, 40];
    let ask = |minutes: &[u16], k| {
        let (mut bandwidths, mut rows) = ([90; 6], [91; 6 * ROW_WIDTH]);
        let answer = slices::neighbours(minutes, &VALUES, &points, k, &mut bandwidths, &mut rows);
        (answer, bandwidths, rows)
    };
    for k in [0, 7, usize::MAX] {
        assert_eq!(ask(&MINUTES, k), (14, [90; 6], [91; 6 * ROW_WIDTH]));
    }
    let falls = DETAIL_UNIT * 4 + 4;
    assert_eq!(ask(&FALLING, 2), (falls, [90; 6], [91; 6 * ROW_WIDTH]));
    let rows = [
        1, 3, 6, 54, 9, 1, 5, 74, 858, 12, 3, 5, 78, 2022, 26, 4, 6, 61, 1811, 30, 4, 6, 61, 1849,
        30, 4, 6, 439, 13531, 31,
    ];
    assert_eq!(ask(&MINUTES, 2), (0, [2, 7, 8, 11, 11, 20], rows));
    assert_eq!(ask(&MINUTES, 6).1, [32, 27, 20, 28, 29, 38]);
    let mut long = [90; 7];
    assert_eq!(
        slices::neighbours(&MINUTES, &VALUES, &points, 2, &mut long, &mut [91; 30]),
        8
    );
    assert_eq!(long, [90; 7]);

    let (mut bandwidths, mut lent) = ([90; 6], [91; 6 * ROW_WIDTH]);
    let curve = tankcurve::neighbours(&MINUTES, &VALUES, &points, 2, &mut bandwidths, &mut lent);
    let values: Vec<Option<u16>> = curve.unwrap().map(|row| row.value()).collect();
    assert_eq!(values, [9, 12, 26, 30, 30, 31].map(Some));
    assert_eq!((bandwidths, lent), ([2, 7, 8, 11, 11, 20], rows));
    let refusal = tankcurve::neighbours(&MINUTES, &VALUES, &points, 7, &mut bandwidths, &mut lent);
    assert_eq!(refusal.map(|_| ()), refused(Report::TooFewSamples, 0));
    assert_eq!((bandwidths, lent), ([2, 7, 8, 11, 11, 20], rows));
}

/// Temperatures that tell the samples apart, and marks, half widths and lists of one length each.
#[test]
fn boxes() {
    const TEMPERATURES: [u8; 6] = [60, 10, 200, 61, 62, 9];
    type Lists = ([u64; 8], Vec<u32>, Vec<u32>);
    let before = || {
        (
            [90, 91, 92, 93, 94, 95, 96, 97],
            vec![70; CELLS],
            vec![71; CELLS],
        )
    };
    let ask =
        |points: &[u16], bandwidths: &[u32], degrees: &[u8], widths: &[u32]| -> (u64, Lists) {
            let mut lists = before();
            let answer = slices::boxes(
                &MINUTES,
                &TEMPERATURES,
                &VALUES,
                points,
                bandwidths,
                degrees,
                widths,
                &mut lists.0,
                &mut lists.1,
                &mut lists.2,
            );
            (answer, lists)
        };
    let refusals = [
        (ask(&[20, 8], &[5, 0], &[61, 10], &[1, 2]), 5),
        (ask(&[8, 20], &[5, 0], &[61, 10], &[1, 2]), 17),
        (ask(&[8, 20], &[5, 0], &[10, 61], &[257, 2]), 9),
    ];
    for (refusal, number) in refusals {
        assert_eq!(refusal, (DETAIL_UNIT + number, before()));
    }
    assert_eq!(ask(&[8, 20], &[5, 12], &[10, 61], &[257, 2]), (9, before()));
    let (mut counts, mut sums) = (vec![0; CELLS], vec![0; CELLS]);
    for (cell, count, sum) in [
        (68, 1, 5),
        (131, 1, 7),
        (134, 1, 11),
        (198, 2, 42),
        (261, 1, 31),
    ] {
        (counts[cell], sums[cell]) = (count, sum);
    }
    let after = ([1, 7, 1, 5, 1, 7, 2, 42], counts, sums);
    assert_eq!(
        ask(&[8, 20], &[5, 12], &[10, 61], &[1, 2]),
        (0, after.clone())
    );

    let (mut lent, mut counts, mut sums) = ([90; 8], [70; CELLS], [71; CELLS]);
    let found = tankcurve::boxes(
        &MINUTES,
        &TEMPERATURES,
        &VALUES,
        &[8, 20],
        &[5, 12],
        &[10, 61],
        &[1, 2],
        &mut lent,
        &mut counts,
        &mut sums,
    )
    .unwrap();
    let pairs: Vec<(u64, u64)> = found.iter().map(|pair| (pair.count, pair.sum)).collect();
    assert_eq!(pairs, [(1, 7), (1, 5), (1, 7), (2, 42)]);
    let last = found.get(1, 1).unwrap();
    assert_eq!((last.count, last.sum), (2, 42));
    assert_eq!((found.get(0, 2), found.get(2, 0)), (None, None));
    assert_eq!((&counts[..], &sums[..]), (&after.1[..], &after.2[..]));
}

/// Numbers about the places where a cell changes, as weight and as sum, by their bit patterns.
#[test]
fn doubles() {
    let stored = |weight, number| {
        let mut doubles = [90.5, 91.5, 92.5];
        let answer = slices::doubles(weight, number, &mut doubles[..2]);
        (answer, doubles.map(f64::to_bits))
    };
    let bits = |used: u64, first: f64, second: f64| {
        (DETAIL_UNIT * used, [first, second, 92.5].map(f64::to_bits))
    };
    for number in [0, 1, 9, 1 << 53, u64::MAX] {
        assert_eq!(stored(0, number), bits(0, 90.5, 91.5));
        assert_eq!(tankcurve::doubles(0, number), Ok(Cell::Empty));
    }
    for (number, double) in [
        (0, 0.0),
        (3, 3.0),
        ((1 << 32) - 1, 4_294_967_295.0),
        (1 << 32, 4_294_967_296.0),
        ((1 << 53) - 1, 9_007_199_254_740_991.0),
    ] {
        assert_eq!(stored(5, number), bits(1, double, 91.5));
        assert_eq!(tankcurve::doubles(5, number), Ok(Cell::One(double)));
    }
    for (number, high, low) in [
        (1 << 53, 9_007_199_254_740_992.0, 0.0),
        ((1 << 53) + 1, 9_007_199_254_740_992.0, 1.0),
        ((1 << 58) - (1 << 42), 288_225_978_105_200_640.0, 0.0),
        (
            18_034_464_286_310_400_000,
            18_034_464_283_156_283_392.0,
            3_154_116_608.0,
        ),
        (u64::MAX, 18_446_744_069_414_584_320.0, 4_294_967_295.0),
    ] {
        assert_eq!(stored(5, number), bits(2, high, low));
        assert_eq!(stored(u64::MAX, number), bits(2, high, low));
        let pair = tankcurve::doubles(5, number);
        assert_eq!(pair, Ok(Cell::Pair { high, low }));
        assert_eq!(high as u64 + low as u64, number);
    }
    // The weight is not the number.
    assert_eq!(stored(3, 0), bits(1, 0.0, 91.5));
    assert_eq!(stored(0, 3), bits(0, 90.5, 91.5));
    let mut long = [90.5; 3];
    assert_eq!(slices::doubles(5, 3, &mut long), 8);
    assert_eq!(slices::doubles(0, 3, &mut long[..1]), 8);
    assert_eq!(long, [90.5; 3]);
    // Doubles that are not numbers, each with bits of its own: unused ones keep them.
    let bits = [0x7ff8_0000_dead_beef, 0xfff0_0000_0000_0001];
    let mut list = bits.map(f64::from_bits);
    assert_eq!(slices::doubles(0, 3, &mut list), 0);
    assert_eq!(list.map(f64::to_bits), bits);
    assert_eq!(slices::doubles(5, 3, &mut list), DETAIL_UNIT);
    assert_eq!(list.map(f64::to_bits), [3f64.to_bits(), bits[1]]);
}
