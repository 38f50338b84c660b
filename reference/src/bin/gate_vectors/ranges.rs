//! Readings known as ranges: the sweep, and the reader of both kinds of sheet,
//! whose sheets text is made of too.

use crate::calls::{length as lent, listed, sized, wide, MOST_ELEMENTS, MOST_NUMBERS};
use crate::draws::{self, length, sample_count, LISTS};
use crate::files::{Answer, Cases};
use crate::sheet::{C12, SHEET};
use reference::exported::{RANGE_COUNTS, RANGE_READER};
use reference::generators::lists::fall;
use reference::generators::random::Random;
use reference::generators::sheets::{lengthened, with_end, ENDS};
use reference::{plain_program, program, RANGE_ROW_WIDTH};
use reference::{read_ranges, sweep_ranges, Kind, MISSING, MOST_BYTES, MOST_OUTPUT};

/// The most rows: those of 514 marks.
const MOST_RANGE_ROWS: usize = 3600;

/// Minutes, lows, highs, marks and half widths.
type Lists<'a> = (&'a [u16], &'a [u16], &'a [u16], &'a [u16], &'a [u32]);

impl Cases {
    /// The sweep, with so many numbers of rows lent.
    fn smooth_ranges(&mut self, lists: Lists, rows: usize) -> Answer {
        let (minutes, lows, highs, points, bandwidths) = lists;
        let mut numbers = vec![];
        for list in [minutes, lows, highs, points] {
            numbers.extend(listed(list, MOST_ELEMENTS));
        }
        numbers.extend(listed(bandwidths, MOST_ELEMENTS));
        numbers.push(lent(rows, MOST_RANGE_ROWS));
        self.case("smooth_ranges", &numbers, b"");
        let mut list = vec![7; rows];
        let result = sweep_ranges(minutes, lows, highs, points, bandwidths, &mut list);
        self.answer("smooth_ranges", result, b"", vec![list])
    }

    /// The same, with as many as there are marks.
    fn swept(&mut self, lists: Lists) -> Answer {
        self.smooth_ranges(lists, RANGE_ROW_WIDTH * lists.3.len())
    }

    fn read_ranges(&mut self, sheet: &[u8], lengths: [usize; 6]) -> Answer {
        let mut numbers = vec![];
        numbers.extend(lengths[..5].iter().map(|&n| lent(n, MOST_ELEMENTS)));
        numbers.push(lent(lengths[5], MOST_NUMBERS));
        self.case("read_ranges", &numbers, sheet);
        let [mut minutes, mut lows, mut highs, mut points] =
            [0, 1, 2, 3].map(|k| vec![7; lengths[k]]);
        let mut bandwidths = vec![7; lengths[4]];
        let result = sized(lengths[5], RANGE_COUNTS).and_then(|()| {
            read_ranges(
                sheet,
                &mut minutes,
                &mut lows,
                &mut highs,
                &mut points,
                &mut bandwidths,
            )
        });
        let counts = result.map_or(vec![7; lengths[5]], |(kept, marks, kind)| {
            vec![kept as u64, marks as u64, u64::from(kind == Kind::Ranges)]
        });
        let lists = vec![
            wide(&minutes),
            wide(&lows),
            wide(&highs),
            wide(&points),
            wide(&bandwidths),
            counts,
        ];
        self.answer("read_ranges", result.map(|_| 0), b"", lists)
    }

    /// A sheet read, and its text; gives the reader's answer. The text is
    /// refused as the reader refuses, and a plain sheet's is what it was.
    fn either(&mut self, sheet: &[u8]) -> Answer {
        let text = self.text(sheet, MOST_OUTPUT);
        let answer = self.read_ranges(sheet, RANGE_READER);
        assert_eq!(text.number, answer.number);
        if answer.number != 0 {
            text.refused(answer.number, answer.detail);
        } else if answer.lists[5][2] == 0 {
            assert_eq!(program(sheet), plain_program(sheet));
        }
        answer
    }
}

/// The case is a sheet with so many kept readings and marks, of this kind.
#[track_caller]
fn holds(answer: &Answer, kept: u64, marks: u64, kind: u64) {
    assert_eq!((answer.number, answer.detail), (0, 0));
    assert_eq!(answer.lists[5], [kept, marks, kind]);
}

/// The published sheet's readings, two of them below the detector's floor, and
/// its marks.
const PUBLISHED: Lists = (
    &[10, 20, 20, 35],
    &[40, 0, 80, 0],
    &[40, 60, 80, 20],
    &[20, 25, 60],
    &[10, 15, 20],
);

const FRONT: &str = "mark,half\n20,10\n25,15\n60,20\n\n";
const RANGES: &str = "minute,inj,low,high\n10,3,40,40\n12,1,900,900\n14,2,400,400\n20,3,0,60\n20,4,80,80\n35,5,0,20\n";

pub fn cases(cases: &mut Cases) {
    sweeps(cases);
    order(cases);
    row_lengths(cases);
    sheets(cases);
    lines(cases);
    limits(cases);
    list_lengths(cases);
}

#[rustfmt::skip]
fn sweeps(cases: &mut Cases) {
    let rows = [
        0, 3, 200, 8000, 14000, 40, 70, 0, 4, 525, 16000, 30500, 30, 58, 4, 4, 0, 0, 0, MISSING, MISSING,
    ];
    cases.swept(PUBLISHED).accepted(8, &rows);
    // Equal ends.
    let (minutes, _, highs, points, bandwidths) = PUBLISHED;
    let rows = [
        0, 3, 200, 14000, 14000, 70, 70, 0, 4, 525, 30500, 30500, 58, 58, 4, 4, 0, 0, 0, MISSING, MISSING,
    ];
    cases.swept((minutes, highs, highs, points, bandwidths)).accepted(8, &rows);
    // No readings; one on the edge.
    cases.swept((&[], &[], &[], &[5], &[1])).accepted(0, &[0, 0, 0, 0, 0, MISSING, MISSING]);
    cases.swept((&[10], &[0], &[40], &[20], &[10])).accepted(1, &[0, 1, 0, 0, 0, MISSING, MISSING]);
    // Each end is rounded by itself, halves to the even number.
    cases.swept((&[0, 0], &[0, 3], &[1, 4], &[0], &[1])).accepted(2, &[0, 2, 2, 3, 5, 2, 2]);
    cases.swept((&[0, 0], &[2, 3], &[3, 4], &[0], &[1])).accepted(2, &[0, 2, 2, 5, 7, 2, 4]);
    // A reading jumped over.
    let rows = [0, 0, 0, 0, 0, MISSING, MISSING, 1, 1, 0, 0, 0, MISSING, MISSING];
    cases.swept((&[50], &[0], &[9], &[0, 100], &[1, 1])).accepted(2, &rows);
    // As many readings and marks as there may be, from the least to the greatest sum.
    let row = [0, 1024, 1 << 42, 0, (1 << 58) - (1 << 42), 0, 65535];
    cases
        .swept((&[65535; 1024], &[0; 1024], &[65535; 1024], &[65535; 512], &[65536; 512]))
        .accepted(1024, &row.repeat(512));
}

/// Each case has the fault of its report and the faults of those that come
/// later in the call's order.
#[rustfmt::skip]
fn order(cases: &mut Cases) {
    let mut falling = vec![3; 1025];
    falling[1] = 2;
    let ones = [1; 1025];
    let twos = [2; 1025];
    let (three, low, high) = (&falling[..3], &twos[..3], &ones[..3]);
    let mut refused = |lists: Lists, rows, number, place| {
        cases.smooth_ranges(lists, rows).refused(number, place);
    };

    // 8, 6, 7, 4, 15, 5, 9, 10, lowest position each.
    refused((&falling, &[], &ones, &[], &[]), 0, 8, 0);
    refused((&falling, &twos, &[], &[], &[]), 0, 8, 0);
    refused((&falling, &twos, &ones, &[], &[0]), 0, 8, 0);
    refused((&falling, &twos, &ones, &[7, 6], &[0, 0]), 10, 8, 0);
    refused((&falling, &twos, &ones, &[], &[]), 0, 6, 0);
    refused((three, low, high, &[5; 513], &[0; 513]), 3591, 6, 0);
    refused((three, low, high, &[], &[]), 0, 7, 0);
    refused((&[], &[], &[], &[], &[]), 0, 7, 0);
    refused((three, low, high, &[7, 6], &[0, 0]), 14, 4, 1);
    // Crossed at 1, early at 3.
    refused((&[10, 20, 20, 15], &[40, 61, 80, 0], &[40, 60, 80, 20], &[7], &[1]), 7, 4, 3);
    refused((&[3; 3], low, high, &[7, 6], &[0, 0]), 14, 15, 0);
    refused((&[3; 3], &[0, 0, 2], &[0, 1, 1], &[7, 6], &[0, 0]), 14, 15, 2);
    refused((&[3], &[65535], &[65534], &[7], &[1]), 7, 15, 0);
    refused((&[3], &[1], &[1], &[7, 8, 7], &[0, 9, 9]), 21, 5, 2);
    refused((&[], &[], &[], &[7, 8, 7], &[0, 9, 9]), 21, 5, 2);
    refused((&[3], &[1], &[2], &[7, 7, 7], &[9, 0, 1]), 21, 9, 1);
    refused((&[3], &[1], &[2], &[7, 7], &[65537, 1]), 14, 9, 0);
    refused((&[3], &[1], &[2], &[7, 7], &[9, 8]), 14, 10, 1);
    refused((&[3], &[1], &[2], &[5, 6], &[10, 12]), 14, 10, 1);
}

/// The rows one short and long, of five a mark, and empty.
fn row_lengths(cases: &mut Cases) {
    for rows in [20, 22, 15, 0, 7, 3600] {
        cases.smooth_ranges(PUBLISHED, rows).refused(8, 0);
    }
}

fn sheets(cases: &mut Cases) {
    let sheet = format!("{FRONT}{RANGES}");
    let answer = cases.either(sheet.as_bytes());
    holds(&answer, 4, 3, 1);
    assert_eq!(answer.lists[1][..5], [40, 0, 80, 0, 7]);
    assert_eq!(answer.lists[2][..5], [40, 60, 80, 20, 7]);
    // A plain value stands as low and high.
    let answer = cases.either(SHEET);
    holds(&answer, 4, 3, 0);
    assert_eq!(answer.lists[1][..5], [40, 60, 80, 20, 7]);
    assert_eq!(answer.lists[2], answer.lists[1]);
    holds(&cases.either(&with_end(sheet.as_bytes(), ENDS[1])), 4, 3, 1);
    // The names line alone tells the kind.
    holds(
        &cases.either(format!("{FRONT}minute,inj,low,high\n").as_bytes()),
        0,
        3,
        1,
    );
    holds(
        &cases.either(format!("{FRONT}minute,inj,vdk\n").as_bytes()),
        0,
        3,
        0,
    );
    // A dropped line crossed.
    let crossed = sheet.replace("12,1,900,900", "12,1,901,900");
    cases.either(crossed.as_bytes()).refused(15, 60);
    cases.either(C12).refused(10, 16);
    cases.either(b"").refused(2, 0);
}

#[rustfmt::skip]
fn lines(cases: &mut Cases) {
    for (names, number, place) in [
        ("minute,inj,low\n", 2, 29),
        ("minute,inj,high,low\n", 2, 29),
        ("minute,inj,low,high,\n", 2, 29),
        ("minute,inj,low,high", 2, 29),
        ("minute,inj,low,high\r\r\n", 2, 29),
        ("Minute,inj,low,high\n", 2, 29),
        ("minute,inj,vdk,vdk\n", 2, 29),
        ("", 2, 29),
        // A line of the other kind.
        ("minute,inj,vdk\n1,3,4,4\n", 3, 44),
        ("minute,inj,low,high\n1,3,4\n", 3, 49),
    ] {
        cases.either(format!("{FRONT}{names}").as_bytes()).refused(number, place);
    }
    // Torn lines, each behind a sound one.
    for line in [
        "1,3,4,4,4", "1,3,4,", "1,3,,4", ",3,4,4", "1,,4,4", "1,3,4,65536", "1,3,65536,65535", "1,0,4,4", "1,3,04,4", "1,3,4,04",
        "65536,3,4,4", "1,65536,4,4", "1,3,4,4 ", "1,3,-4,4", "", "1,1,4", "1,2,4,x", "minute,inj,low,high",
    ] {
        let sheet = format!("{FRONT}minute,inj,low,high\n1,3,0,5\n{line}\n");
        cases.either(sheet.as_bytes()).refused(3, 57);
    }
    for (lines, number, place) in [
        ("1,3,4,4", 3, 49),
        // Early before crossed, of one line; of two lines the first.
        ("2,3,4,4\n1,3,5,4\n", 4, 57),
        ("2,3,5,4\n1,3,4,4\n", 15, 49),
        ("2,3,4,4\n1,1,5,4\n", 4, 57),
        // Dropped lines are looked at, too, and the next minute beside them.
        ("2,1,5,4\n", 15, 49),
        ("2,2,65535,65534\n", 15, 49),
        ("2,1,4,4\n1,3,4,4\n", 4, 57),
        ("3,3,0,5\n4,3,9,5\n5,3,0,5\n4,3,0,5\n", 15, 57),
    ] {
        let sheet = format!("{FRONT}minute,inj,low,high\n{lines}");
        cases.either(sheet.as_bytes()).refused(number, place);
    }
    // In front of the second names line nothing is new.
    for (front, number, place) in [
        ("mark,half\n\n", 7, 10), ("mark,half\n5,2\n4,2\n", 5, 14), ("mark,half\n5,0\n", 9, 10),
        ("mark,half\n5,2\n6,4\n", 10, 14), ("Mark,half\n", 2, 0),
        ("mark,half\n", 3, 10), ("mark,half\n9,2\n8,0\n", 5, 14), ("mark,half\n9,65537\n", 9, 10), ("mark,half\n\n\n", 7, 10),
        ("mark,half\n5,9\n5,8\n", 10, 14),
    ] {
        cases.either(format!("{front}{RANGES}").as_bytes()).refused(number, place);
    }
    // Numbers at their ends.
    let sheet = format!("{FRONT}minute,inj,low,high\n0,65535,0,65535\n65535,3,65535,65535\n65535,2,0,0\n");
    holds(&cases.either(sheet.as_bytes()), 2, 3, 1);
}

/// Sheets at the limits, with one more line or byte.
fn limits(cases: &mut Cases) {
    let head = "mark,half\n3,2\n\nminute,inj,low,high\n";
    let many = format!("{head}{}", "9,3,4,5\n".repeat(1024));
    let place = many.len() as u64;
    holds(&cases.either(many.as_bytes()), 1024, 1, 1);
    // A line that is not kept does not crowd; crossed comes before crowded.
    for (line, number) in [
        ("9,3,4,5\n", 6),
        ("9,3,5,4\n", 15),
        ("8,3,5,4\n", 4),
        ("9,1,5,4\n", 15),
    ] {
        cases
            .either(format!("{many}{line}").as_bytes())
            .refused(number, place);
    }
    holds(
        &cases.either(format!("{many}9,2,4,5\n").as_bytes()),
        1024,
        1,
        1,
    );
    let crowded = format!("mark,half\n{}", "3,2\n".repeat(513));
    cases.either(crowded.as_bytes()).refused(6, 2058);
    // The longest text: as many marks with numbers of as many digits as a sheet can give.
    let marks = "65535,65536\n".repeat(512);
    let readings = "65535,3,65535,65535\n".repeat(1024);
    let sheet = format!("mark,half\n{marks}\nminute,inj,low,high\n{readings}");
    holds(&cases.either(sheet.as_bytes()), 1024, 512, 1);
    // A plain sheet of as many bytes as there may be, and one byte more.
    let plain = b"mark,half\n3,2\n\nminute,inj,vdk\n9,3,4\n".to_vec();
    holds(
        &cases.either(&lengthened(plain.clone(), MOST_BYTES, ENDS[0])),
        1,
        1,
        0,
    );
    cases
        .either(&lengthened(plain, MOST_BYTES + 1, ENDS[0]))
        .refused(1, 32_768);
    cases.either(&[b'\n'; MOST_BYTES + 1]).refused(1, 32_768);
}

/// Lent lists one short, one long and empty.
fn list_lengths(cases: &mut Cases) {
    let sheet = format!("{FRONT}{RANGES}");
    for which in 0..RANGE_READER.len() {
        for wrong in [RANGE_READER[which] - 1, RANGE_READER[which] + 1, 0] {
            let mut lengths = RANGE_READER;
            lengths[which] = wrong;
            cases.read_ranges(sheet.as_bytes(), lengths).refused(8, 0);
            cases.read_ranges(&[b'\n'; 40], lengths).refused(8, 0);
        }
    }
}

fn random_sweep(random: &mut Random, cases: &mut Cases) {
    let count = sample_count(random);
    let mut minutes = LISTS.ordered_minutes(random, count);
    let mut highs = LISTS.some_values(random, count);
    let mut lows: Vec<u16> = highs
        .iter()
        .map(|&high| draws::low_of(random, high))
        .collect();
    let used = random.between(1, 7) as usize;
    let (mut points, mut bandwidths) = LISTS.fit_points(random, &minutes, used);
    while random.chance(12) {
        match random.below(4) {
            0 => LISTS.damage_samples(random, &mut minutes, &mut lows),
            1 => LISTS.damage_samples(random, &mut minutes, &mut highs),
            2 => fall(random, &mut points),
            _ => {
                let at = random.below(bandwidths.len());
                bandwidths[at] = LISTS.bad_bandwidth(random);
            }
        }
    }
    let rows = length(random, RANGE_ROW_WIDTH * points.len());
    cases.smooth_ranges((&minutes, &lows, &highs, &points, &bandwidths), rows);
}

fn random_sheet(random: &mut Random, cases: &mut Cases) {
    let sheet = draws::range_sheet(random);
    if random.chance(20) {
        let mut lengths = RANGE_READER;
        let which = random.below(lengths.len());
        lengths[which] = length(random, lengths[which]);
        cases.read_ranges(&sheet, lengths);
    } else {
        cases.either(&sheet);
    }
}

/// Drawn apart from the cases of the other calls.
pub fn random_cases(cases: &mut Cases) {
    let random = &mut Random(18);
    (0..160).for_each(|_| random_sweep(random, cases));
    (0..60).for_each(|_| random_sheet(random, cases));
}
