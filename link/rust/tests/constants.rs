//! Holds every constant and every report of the crate against the archive: each limit is the last that
//! is accepted, each length the only one, and each report is got once by its name, with its word.

use tankcurve::slices::{self, DETAIL_UNIT};
use tankcurve::{
    Error, Estimate, Kind, RangeCounts, RangeEstimate, RangeRows, Refusal, Report, Rows,
    RunningSums, BIWEIGHT_BANDWIDTH, BIWEIGHT_MAX_SUM, BIWEIGHT_MAX_WEIGHT, BOX_MAX_POINTS,
    BOX_WIDTH, CELLS, MAX_BANDWIDTH, MAX_CELL_SUM, MAX_OUTPUT, MAX_POINTS, MAX_SAMPLES, MAX_SHEET,
    MAX_SUM, MAX_TEMPERATURE_BANDWIDTH, MAX_WEIGHT, MIN_BANDWIDTH, MISSING, PARTING_WIDTH,
    PREVIEW_MAX_POINTS, PREVIEW_MAX_SAMPLES, RANGE_ROW_WIDTH, RECORD_WIDTH, ROW_WIDTH, STRIPS,
};

const HEAD: &str = "mark,half\n5,2\n\nminute,inj,vdk\n";

/// What a sheet of either kind holds, or its refusal.
fn read_either(sheet: &[u8]) -> Result<RangeCounts, Error> {
    let [mut minutes, mut lows, mut highs] = [[0; MAX_SAMPLES]; 3];
    tankcurve::read_ranges(
        sheet,
        &mut minutes,
        &mut lows,
        &mut highs,
        &mut [0; MAX_POINTS],
        &mut [0; MAX_POINTS],
    )
}

/// A sheet's refusal by the calls that read one.
fn refusal(sheet: &[u8]) -> Result<(), Error> {
    let (mut minutes, mut values) = ([0; MAX_SAMPLES], [0; MAX_SAMPLES]);
    let (mut points, mut bandwidths) = ([0; MAX_POINTS], [0; MAX_POINTS]);
    let read = tankcurve::read(
        sheet,
        &mut minutes,
        &mut values,
        &mut points,
        &mut bandwidths,
    )
    .map(|_| ());
    let mut out = [0; MAX_OUTPUT];
    assert_eq!(tankcurve::text(sheet, &mut out).map(|_| ()), read);
    assert_eq!(read_either(sheet).map(|_| ()), read);
    read
}

fn refused<T>(report: Report, place: u64) -> Result<T, Error> {
    Err(Error::Refused(Refusal { report, place }))
}

/// A sheet without a fault of this many bytes: readings of injection 1, which are not kept, fill it up.
fn sheet_of(length: usize) -> String {
    let mut sheet = HEAD.to_string();
    while sheet.len() < length {
        let even = (length - sheet.len()) % 6 == 0;
        sheet.push_str(if even { "0,1,0\n" } else { "0,1,10\n" });
    }
    assert_eq!(sheet.len(), length);
    sheet
}

fn evaluate(samples: usize, bandwidth: u32) -> Result<Estimate, Error> {
    let list = vec![0; samples];
    tankcurve::evaluate(&list, &list, 0, bandwidth)
}

/// Points that are all 0, a bandwidth of the temperatures, and the lengths of the lists to write.
fn in_boxes(
    samples: usize,
    points: usize,
    temperature_points: usize,
    bandwidth: u32,
    [boxes, counts, sums]: [usize; 3],
) -> u64 {
    slices::boxes(
        &vec![0; samples],
        &vec![0; samples],
        &vec![0; samples],
        &vec![0; points],
        &vec![1; points],
        &vec![0; temperature_points],
        &vec![bandwidth; temperature_points],
        &mut vec![0; boxes],
        &mut vec![0; counts],
        &mut vec![0; sums],
    )
}

#[test]
fn version() {
    assert_eq!(tankcurve::version(), tankcurve::VERSION);
    let [_, major, minor, patch] = tankcurve::VERSION.to_be_bytes();
    assert_eq!(
        format!("{major}.{minor}.{patch}"),
        env!("CARGO_PKG_VERSION")
    );
}

#[test]
fn limits() {
    assert!(evaluate(MAX_SAMPLES, 1).is_ok());
    assert_eq!(evaluate(MAX_SAMPLES + 1, 1), refused(Report::TooMany, 0));
    let out_of_range = refused(Report::BandwidthOutOfRange, 0);
    assert!(evaluate(1, MIN_BANDWIDTH).is_ok());
    assert_eq!(evaluate(1, MIN_BANDWIDTH - 1), out_of_range);
    assert!(evaluate(1, MAX_BANDWIDTH).is_ok());
    assert_eq!(evaluate(1, MAX_BANDWIDTH + 1), out_of_range);
    let preview = |samples, points| {
        let (list, marks, bandwidths) = (vec![0; samples], vec![0; points], vec![1; points]);
        let mut rows = vec![0; points * ROW_WIDTH];
        tankcurve::preview(&list, &list, &marks, &bandwidths, &mut rows).map(|_| ())
    };
    assert_eq!(preview(PREVIEW_MAX_SAMPLES, PREVIEW_MAX_POINTS), Ok(()));
    let too_many = refused(Report::TooMany, 0);
    assert_eq!(preview(PREVIEW_MAX_SAMPLES + 1, 1), too_many);
    assert_eq!(preview(1, PREVIEW_MAX_POINTS + 1), too_many);
    let boxes = |samples, points, temperature_points, bandwidth| {
        let lengths = [BOX_WIDTH * points * temperature_points, CELLS, CELLS];
        in_boxes(samples, points, temperature_points, bandwidth, lengths)
    };
    let most = BOX_MAX_POINTS;
    assert_eq!(boxes(MAX_SAMPLES, most, most, 1), 0);
    assert_eq!(boxes(MAX_SAMPLES + 1, 1, 1, 1), 6);
    assert_eq!(boxes(1, most + 1, 1, 1), 6);
    assert_eq!(boxes(1, 1, most + 1, 1), 6);
    assert_eq!(boxes(1, 1, 1, MAX_TEMPERATURE_BANDWIDTH), 0);
    assert_eq!(boxes(1, 1, 1, MAX_TEMPERATURE_BANDWIDTH + 1), 9);
    let fill = |length| tankcurve::fill(0, 0, 0, &mut vec![0; length], &mut vec![0; length]);
    assert_eq!(fill(MAX_POINTS), Ok(()));
    assert_eq!(fill(MAX_POINTS + 1), refused(Report::TooMany, 0));
    assert_eq!(refusal(sheet_of(MAX_SHEET).as_bytes()), Ok(()));
    assert_eq!(
        refusal(sheet_of(MAX_SHEET + 1).as_bytes()),
        refused(Report::TooLong, MAX_SHEET as u64)
    );
}

/// Each length of a list is accepted; one less and one more are not.
#[test]
fn lengths() {
    for by in [0, 1, 2] {
        let answer = if by == 1 { 0 } else { 8 };
        let length = |stated: usize| stated - 1 + by;
        let row = &mut vec![0; length(ROW_WIDTH)];
        assert_eq!(slices::evaluate(&[], &[], 0, 1, row), answer);
        assert_eq!(slices::biweight(&[], &[], 0, row), answer);
        assert_eq!(slices::row(&[0; RECORD_WIDTH], 0, 1, row), answer);
        let record = &mut vec![0; length(RECORD_WIDTH)];
        assert_eq!(slices::advance(record, &[], &[], 0, 1), answer);
        assert_eq!(slices::row(record, 0, 1, &mut [0; ROW_WIDTH]), answer);
        let rows = &mut vec![0; length(2 * ROW_WIDTH)];
        assert_eq!(slices::smooth(&[], &[], &[0, 0], &[1, 1], rows), answer);
        let rows_of_ranges = &mut vec![0; length(2 * RANGE_ROW_WIDTH)];
        assert_eq!(
            slices::smooth_ranges(&[], &[], &[], &[0, 0], &[1, 1], rows_of_ranges),
            answer
        );
        let widths = &mut vec![0; length(2)];
        assert_eq!(
            slices::neighbours(&[0], &[0], &[0, 0], 1, widths, &mut [0; 2 * ROW_WIDTH]),
            answer
        );
        assert_eq!(
            slices::neighbours(&[0], &[0], &[0, 0], 1, &mut [0; 2], rows),
            answer
        );
        let position = &mut vec![0; length(1)];
        assert_eq!(
            slices::first_at_most(&[], &[], &[0], &[1], 0, position),
            answer
        );
        assert_eq!(slices::decisive(&[], &[], 0, 1, 0, position), answer);
        let parting = &mut vec![0; length(PARTING_WIDTH)];
        assert_eq!(
            slices::compare(&[], &[], &[], &[], &[0], &[1], parting),
            answer
        );
        let boxes = |lengths| in_boxes(1, 2, 3, 1, lengths);
        assert_eq!(boxes([length(BOX_WIDTH * 6), CELLS, CELLS]), answer);
        assert_eq!(boxes([BOX_WIDTH * 6, length(CELLS), CELLS]), answer);
        assert_eq!(boxes([BOX_WIDTH * 6, CELLS, length(CELLS)]), answer);
        let doubles = &mut vec![0.0; length(2)];
        assert_eq!(slices::number(slices::doubles(5, 3, doubles)), answer);
        let out = &mut vec![0; length(MAX_OUTPUT)];
        assert_eq!(slices::number(slices::refusal_text(1, 2, out)), answer);
        assert_eq!(slices::number(slices::text(HEAD.as_bytes(), out)), answer);
        let bounds = &mut vec![0; length(2)];
        assert_eq!(slices::window(&[], &[], 0, 1, bounds), answer);
        let read = |samples, points, counts| {
            slices::read(
                HEAD.as_bytes(),
                &mut vec![0; samples],
                &mut vec![0; samples],
                &mut vec![0; points],
                &mut vec![0; points],
                &mut vec![0; counts],
            )
        };
        assert_eq!(read(length(MAX_SAMPLES), MAX_POINTS, 2), answer);
        assert_eq!(read(MAX_SAMPLES, length(MAX_POINTS), 2), answer);
        assert_eq!(read(MAX_SAMPLES, MAX_POINTS, length(2)), answer);
        let read_ranges = |samples, points, counts| {
            slices::read_ranges(
                HEAD.as_bytes(),
                &mut vec![0; samples],
                &mut vec![0; samples],
                &mut vec![0; samples],
                &mut vec![0; points],
                &mut vec![0; points],
                &mut vec![0; counts],
            )
        };
        assert_eq!(read_ranges(length(MAX_SAMPLES), MAX_POINTS, 3), answer);
        assert_eq!(read_ranges(MAX_SAMPLES, length(MAX_POINTS), 3), answer);
        assert_eq!(read_ranges(MAX_SAMPLES, MAX_POINTS, length(3)), answer);
    }
    let mut out = [0; MAX_OUTPUT];
    // A text of 18 bytes, and a place.
    assert_eq!(slices::refusal_text(1, 2, &mut out), DETAIL_UNIT * 18);
    assert_eq!(
        slices::text(b"mark,half\n\n", &mut out),
        DETAIL_UNIT * 10 + 7
    );
}

/// One sheet or call for each report, by its name.
#[test]
fn reports() {
    let at = |text: &str| text.len() as u64;
    let ordered = format!("{HEAD}7,3,1\n");
    let crowded = HEAD.to_string() + &"0,3,0\n".repeat(MAX_SAMPLES);
    let marks = "mark,half\n".to_string() + &"5,2\n".repeat(MAX_POINTS);
    let sheets = [
        (sheet_of(MAX_SHEET + 1), Report::TooLong, MAX_SHEET as u64),
        ("mark,half\n5,2\n\nminute\n".into(), Report::BadHeader, 15),
        ("mark,half\n5,2\n5;2\n".into(), Report::MalformedLine, 14),
        (
            format!("{ordered}6,3,1\n"),
            Report::SampleOutOfOrder,
            at(&ordered),
        ),
        ("mark,half\n5,2\n4,2\n".into(), Report::PointOutOfOrder, 14),
        (format!("{crowded}0,3,0\n"), Report::TooMany, at(&crowded)),
        (format!("{marks}5,2\n"), Report::TooMany, at(&marks)),
        ("mark,half\n\n".into(), Report::NoPoints, 10),
        ("mark,half\r\n\r\n".into(), Report::NoPoints, 11),
        ("mark,half\r\n5,2\r\r\n".into(), Report::MalformedLine, 11),
        (
            "mark,half\n5,2\n5,65537\n".into(),
            Report::BandwidthOutOfRange,
            14,
        ),
        ("mark,half\n5,2\n6,4\n".into(), Report::EdgeDecreases, 14),
    ];
    for (sheet, report, place) in sheets {
        assert_eq!(refusal(sheet.as_bytes()), refused(report, place));
    }
    assert_eq!(
        tankcurve::evaluate(&[1, 2], &[1], 0, 1),
        refused(Report::LengthMismatch, 0)
    );
    let mut crossed = RunningSums {
        left: 1,
        ..RunningSums::default()
    };
    assert_eq!(
        tankcurve::advance(&mut crossed, &[0], &[0], 0, 1),
        refused(Report::InvalidRecord, 0)
    );
    let fill = |first, preset| tankcurve::fill(first, 1, preset, &mut [0; 2], &mut [0; 2]);
    assert_eq!(fill(0, 12), refused(Report::UnknownPreset, 0));
    assert_eq!(fill(65_535, 11), refused(Report::GridOverflow, 0));
    for k in [0, 2] {
        let (mut bandwidths, mut rows) = ([0; 1], [0; ROW_WIDTH]);
        assert_eq!(
            tankcurve::neighbours(&[0], &[0], &[0], k, &mut bandwidths, &mut rows).map(|_| ()),
            refused(Report::TooFewSamples, 0)
        );
    }
    let mut rows = [0; RANGE_ROW_WIDTH];
    let crossed = tankcurve::smooth_ranges(&[7, 7], &[5, 6], &[5, 5], &[7], &[1], &mut rows);
    assert_eq!(crossed.map(|_| ()), refused(Report::CrossedRange, 1));
    assert_eq!(
        read_either(b"mark,half\n5,2\n\nminute,inj,low,high\n1,3,5,5\n1,1,6,5\n"),
        refused(Report::CrossedRange, 43)
    );
    assert_eq!(
        tankcurve::compare(&[7], &[7], &[7, 6], &[7, 6], &[7], &[1]),
        refused(Report::SecondSeries, 1)
    );
    let (mut counts, mut sums) = ([0; CELLS], [0; CELLS]);
    let boxes = tankcurve::boxes(
        &[0],
        &[0],
        &[0],
        &[0],
        &[1],
        &[7, 6],
        &[1, 1],
        &mut [0; 4],
        &mut counts,
        &mut sums,
    )
    .map(|_| ());
    assert_eq!(boxes, refused(Report::TemperatureOutOfOrder, 1));
}

/// The trade's words, in the order of the numbers.
#[test]
fn words() {
    let trade = [
        "overlong",
        "heading",
        "torn line",
        "early reading",
        "early mark",
        "crowded",
        "no marks",
        "uneven",
        "half width",
        "edge back",
        "foreign record",
        "knob",
        "past the clock",
        "too few",
        "crossed range",
        "second tank",
        "early temperature mark",
    ];
    for (number, word) in (1..).zip(trade) {
        let report = Report::from_number(number).unwrap();
        assert_eq!((report.number(), report.word()), (number, word));
        assert_eq!(report.to_string(), word);
        let refusal = Refusal { report, place: 52 };
        let said = format!("report {number}, {word}, at 52");
        assert_eq!(refusal.to_string(), said);
        assert_eq!(Error::from(refusal).to_string(), said);
    }
}

/// Readings reach the greatest weight and sum, and no number over them is taken for a row of readings.
#[test]
fn bounds() {
    let (there, values) = ([0; MAX_SAMPLES], [65_535; MAX_SAMPLES]);
    let row = tankcurve::evaluate(&there, &values, 0, MAX_BANDWIDTH).unwrap();
    assert_eq!((row.weight(), row.sum()), (MAX_WEIGHT, MAX_SUM));
    assert_eq!(row.value(), Some(65_535));
    let estimate = |weight, sum| Estimate::try_from([0, 1024, weight, sum, 1]);
    assert!(estimate(MAX_WEIGHT, MAX_SUM).is_ok());
    assert!(estimate(MAX_WEIGHT + 1, MAX_SUM).is_err());
    assert!(estimate(MAX_WEIGHT, MAX_SUM + 1).is_err());
}

/// The kinds of sheets, by their names, and what is no row over ranges.
#[test]
fn ranges() {
    let kind = |names| read_either(format!("mark,half\n5,2\n\n{names}\n").as_bytes());
    for (names, kind_of) in [
        ("minute,inj,vdk", Kind::Plain),
        ("minute,inj,low,high", Kind::Ranges),
    ] {
        assert_eq!(kind(names).map(|used| used.kind), Ok(kind_of));
    }
    let row = [1, 5, 74, 418, 858, 6, 12];
    let estimate = RangeEstimate::try_from(row).unwrap();
    assert_eq!(<[u64; RANGE_ROW_WIDTH]>::from(estimate), row);
    assert_eq!(RangeRows::try_from(&row[..]).unwrap().len(), 1);
    assert!(RangeRows::try_from(&row[..6]).is_err());
    // A number over what readings give, the two sums and the two values exchanged, and one value missing.
    for (place, number) in [(2, MAX_WEIGHT + 1), (3, MAX_SUM + 1), (4, MAX_SUM + 1)] {
        let mut wrong = row;
        wrong[place] = number;
        assert!(RangeEstimate::try_from(wrong).is_err());
    }
    assert!(RangeEstimate::try_from([1, 5, 74, 858, 418, 6, 12]).is_err());
    assert!(RangeEstimate::try_from([1, 5, 74, 418, 858, 12, 6]).is_err());
    assert!(RangeEstimate::try_from([1, 5, 74, 418, 858, 6, MISSING]).is_err());
}

/// The fullest cell, and that the strips of as many points as there may be fill a list of cells.
#[test]
fn cells() {
    let (minutes, temperatures, values) =
        ([9; MAX_SAMPLES], [3; MAX_SAMPLES], [65_535; MAX_SAMPLES]);
    let (mut lent, mut counts, mut sums) = ([7; 8], [7; CELLS], [7; CELLS]);
    let boxes = tankcurve::boxes(
        &minutes,
        &temperatures,
        &values,
        &[5, 9],
        &[1, 1],
        &[3, 8],
        &[1, 1],
        &mut lent,
        &mut counts,
        &mut sums,
    );
    let found = boxes.unwrap().get(1, 0).unwrap();
    assert_eq!((found.count, found.sum), (1024, MAX_CELL_SUM.into()));
    // Cuts 4, 7, 8, 11 and 2, 5, 7, 10.
    let cell = 3 * STRIPS + 1;
    assert_eq!((counts[cell], sums[cell]), (1024, MAX_CELL_SUM));
    assert_eq!((2 * BOX_MAX_POINTS + 1, STRIPS * STRIPS), (STRIPS, CELLS));
}

/// The same of the biweight row, whose edges are those of its bandwidth.
#[test]
fn biweight_bounds() {
    let (there, values) = ([5; MAX_SAMPLES], [65_535; MAX_SAMPLES]);
    let row = tankcurve::biweight(&there, &values, 5).unwrap();
    let greatest = (BIWEIGHT_MAX_WEIGHT, BIWEIGHT_MAX_SUM);
    assert_eq!((row.weight(), row.sum()), greatest);
    assert_eq!(row.value(), Some(65_535));
    // From 17 readings at the mark on the weight is over what other rows have: this call gives such rows, the conversion takes none.
    for (count, over) in [(16, false), (17, true), (MAX_SAMPLES, true)] {
        let row = tankcurve::biweight(&there[..count], &values[..count], 5).unwrap();
        let weight = 268_738_560_000 * count as u64;
        assert_eq!((row.weight(), row.sum()), (weight, weight * 65_535));
        assert_eq!((row.right(), row.value()), (count as u64, Some(65_535)));
        assert_eq!(weight > MAX_WEIGHT, over);
        assert_eq!(
            Estimate::try_from(<[u64; ROW_WIDTH]>::from(row)).is_err(),
            over
        );
    }
    let more = [5; MAX_SAMPLES + 1];
    assert_eq!(
        tankcurve::biweight(&more, &more, 5),
        refused(Report::TooMany, 0)
    );
    for (by, left) in [(0, 0), (1, 1)] {
        let point = 5 + BIWEIGHT_BANDWIDTH as u16 + by;
        let row = tankcurve::biweight(&[5], &[7], point).unwrap();
        assert_eq!((row.left(), row.right(), row.value()), (left, 1, None));
    }
}

/// Rows of a record that is not of the point and bandwidth asked for: their value is 0 or 1 and has a weight.
#[test]
fn rows_of_another_window() {
    let (minutes, values) = ([10, 20, 20, 35], [40, 60, 80, 20]);
    let after = |steps: &[(u16, u32)]| {
        let mut record = RunningSums::default();
        for &(point, bandwidth) in steps {
            tankcurve::advance(&mut record, &minutes, &values, point, bandwidth).unwrap();
        }
        record
    };
    let one = after(&[(20, 10)]);
    // Both edges of the second step lie back.
    let back = after(&[(35, 5), (20, 5)]);
    assert_eq!((back.left, back.right), (3, 4));
    let cases = [
        (one, 60, 20, 1),
        (one, 60, 40, 1),
        (one, 20, 5, 0),
        (back, 20, 5, 1),
    ];
    for (record, point, bandwidth, value) in cases {
        let row = record.row(point, bandwidth).unwrap();
        assert_eq!(row.value(), Some(value));
        assert!(Estimate::try_from(row).is_err());
    }
    let row = Estimate::try_from(one.row(20, 10).unwrap());
    assert_eq!(row.map(|row| row.value()), Ok(Some(70)));
}

/// A value is there by its weight, never by its number.
#[test]
fn missing() {
    let none = tankcurve::evaluate(&[], &[], 0, 1).unwrap();
    assert_eq!((none.value(), none.raw_value()), (None, MISSING));
    let zero = tankcurve::evaluate(&[0], &[0], 0, 1).unwrap();
    assert_eq!((zero.value(), zero.raw_value()), (Some(0), 0));
    let without = Estimate::try_from([0, 1, 0, 0, 70]).unwrap();
    assert_eq!((without.value(), without.raw_value()), (None, 70));
    // A record that no readings gave: its value is 65,536 with a weight.
    let foreign = RunningSums::from([0, 0, 1, 0, 0, MISSING, 0, 0, 0]);
    let row = foreign.row(0, 1).unwrap();
    assert_eq!((row.present(), row.value()), (true, Some(MISSING)));
    assert_eq!(row.raw_value(), MISSING);
    assert!(Estimate::try_from(row).is_err());
    let empty = RunningSums::default().row(0, 1).unwrap();
    assert_eq!((empty.present(), empty.value()), (false, None));
    assert_eq!(empty.raw_value(), MISSING);
    assert!(Rows::try_from(&[0, 0, 1, MISSING, MISSING][..]).is_err());
}
