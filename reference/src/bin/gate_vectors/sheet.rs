//! The reader, on sheets that text is made of too.

use crate::draws::{self, length};
use crate::files::Cases;
use reference::exported::READER;
use reference::generators::random::Random;
use reference::generators::sheets::{feed_sheets, lengthened, lines_of, sheet_of, with_end, ENDS};
use reference::{MOST_BYTES, MOST_MARKS, MOST_OUTPUT, MOST_READINGS};

/// The published sheet.
pub const SHEET: &[u8] = b"mark,half\n20,10\n25,15\n60,20\n\nminute,inj,vdk\n\
    10,3,40\n12,1,900\n14,2,400\n20,3,60\n20,4,80\n35,5,20\n";

pub const C12: &[u8] = b"mark,half\n20,10\n21,12\n";

pub fn cases(cases: &mut Cases) {
    published(cases);
    lines(cases);
    line_ends(cases);
    limits(cases);
    large(cases);
    feeds(cases);
    order(cases);
    lengths(cases);
}

/// C12, the published sheet, and what the specification says of its lines.
fn published(cases: &mut Cases) {
    cases.sheet(C12).refused(10, 16);

    // The whole sheet, and empty input.
    cases.sheet(SHEET).used(4, 3);
    cases.sheet(b"").refused(2, 0);

    // Lines are dropped by inj, not after a gap in minutes.
    for (readings, kept) in [
        ("0,1,5\n1,2,6\n2,3,7\n9000,4,8\n9001,5,9\n", 3),
        ("0,3,5\n1,1,6\n2,2,7\n3,3,8\n3,2,9\n3,1,9\n", 2),
        ("0,10,5\n1,20,6\n2,12,7\n3,21,8\n4,65535,9\n", 5),
        ("0,1,5\n1,2,6\n", 0),
    ] {
        cases.sheet(&sheet_of("10,9\n", readings)).used(kept, 1);
    }

    // A value at a half, down and up.
    let sheet = sheet_of("0,1\n9,1\n", "0,3,2\n0,4,3\n9,5,3\n9,6,4\n");
    cases.sheet(&sheet).used(4, 2);
}

#[rustfmt::skip]
fn lines(cases: &mut Cases) {
    for (sheet, number, place) in [
        // Names lines.
        ("mark,half", 2, 0),
        ("Mark,half\n", 2, 0),
        ("mark,half\r\r\n20,10\n", 2, 0),
        ("\n", 2, 0),
        ("mark,hal\n", 2, 0),
        ("mark,half,\n20,10\n", 2, 0),
        ("mark,half\n20,10\n\n", 2, 17),
        ("mark,half\n20,10\n\nminute,inj,vdk", 2, 17),
        ("mark,half\n20,10\n\nminute,inj,value\n1,3,1\n", 2, 17),
        ("mark,half\n20,10\n\n\nminute,inj,vdk\n", 2, 17),
        // No empty line, or a torn mark line.
        ("mark,half\n", 3, 10),
        ("mark,half\n20,10\n", 3, 16),
        ("mark,half\n20,10\n21,11", 3, 16),
        ("mark,half\n020,10\n", 3, 10),
        ("mark,half\n20,100000\n\n", 3, 10),
        ("mark,half\n65536,10\n\n", 3, 10),
        ("mark,half\n20\n\n", 3, 10),
        ("mark,half\n20,10,1\n\n", 3, 10),
        ("mark,half\n20,\n\n", 3, 10),
        ("mark,half\n20,1:\n\n", 3, 10),
        ("mark,half\n20,1/\n\n", 3, 10),
        ("mark,half\n 20,1\n\n", 3, 10),
        // A blank where the empty line belongs.
        ("mark,half\n20,10\n \nminute,inj,vdk\n", 3, 16),
        // Marks and half widths.
        ("mark,half\n20,10\n19,10\n", 5, 16),
        ("mark,half\n20,10\n19,0\n", 5, 16),
        ("mark,half\n20,0\n", 9, 10),
        ("mark,half\n20,10\n20,0\n", 9, 16),
        ("mark,half\n20,65537\n", 9, 10),
        ("mark,half\n20,99999\n", 9, 10),
        ("mark,half\n20,10\n20,9\n", 10, 16),
        ("mark,half\n20,10\n21,8\n\nminute,inj,vdk\n", 10, 16),
        // A left edge below 0 that falls.
        ("mark,half\n5,10\n6,12\n\nminute,inj,vdk\n", 10, 15),
        ("mark,half\n\nnothing else", 7, 10),
        ("mark,half\n\nminute,inj,vdk\n", 7, 10),
        // Readings.
        ("mark,half\n1,1\n\nminute,inj,vdk\n5,3,1\n4,3,1\n", 4, 36),
        ("mark,half\n1,1\n\nminute,inj,vdk\n5,3,1\n9,1,1\n8,3,1\n", 4, 42),
        ("mark,half\n1,1\n\nminute,inj,vdk\n5,3,1\n4,1,1\n", 4, 36),
        ("mark,half\n1,1\n\nminute,inj,vdk\n5,0,1\n", 3, 30),
        ("mark,half\n1,1\n\nminute,inj,vdk\n5,3,65536\n", 3, 30),
        ("mark,half\n1,1\n\nminute,inj,vdk\n5,3\n", 3, 30),
        ("mark,half\n1,1\n\nminute,inj,vdk\n5,3,1,1\n", 3, 30),
        ("mark,half\n1,1\n\nminute,inj,vdk\n5,3,1", 3, 30),
        ("mark,half\n1,1\n\nminute,inj,vdk\n5,3,1\n\n", 3, 36),
        // The first faulty line, whatever its number.
        ("mark,half\n20,10\n21,12\nx\n", 10, 16),
        ("mark,half\n20,0\n\nx", 9, 10),
        ("mark,half\n20,10\n\nminute,inj,vdk\n9,3,5\n8,3,5\nx\n", 4, 38),
    ] {
        cases.sheet(sheet.as_bytes()).refused(number, place);
    }

    // Numbers at their ends, equal edges.
    for (sheet, kept, marks) in [
        ("20,65536\n\nminute,inj,vdk\n", 0, 1),
        ("1,1\n\nminute,inj,vdk\n0,65535,65535\n65535,3,0\n65535,2,65535\n", 2, 1),
        ("0,1\n65535,65536\n\nminute,inj,vdk\n", 0, 2),
        ("0,1\n65535,65536\n\nminute,inj,vdk\n0,1,0\n0,3,0\n65535,65535,65535\n", 2, 2),
        ("20,10\n21,11\n\nminute,inj,vdk\n", 0, 2),
        ("20,10\n21,9\n\nminute,inj,vdk\n", 0, 2),
    ] {
        cases.sheet(format!("mark,half\n{sheet}").as_bytes()).used(kept, marks);
    }

    // Torn lines, each behind a sound one.
    let lines = b"20|20,|,10|,|20,10,|20,10,3|020,10|20,010|00,10|20,00|200000,10|20,100000|65536,10|\
        99999,10|99999,0| 20,10|20,10 |20, 10|20;10|-2,10|+2,10|2.0,10|20,10\r\r|a,10|20,b|mark,half|\
        minute,inj,vdk|\0|20,1\0|20,1\xb0|\xb2\xb0,10|20\xac10|20,10\x8a";
    for line in lines.split(|&b| b == b'|') {
        let sheet = [b"mark,half\n20,10\n", line, b"\n\nminute,inj,vdk\n"].concat();
        cases.read(&sheet, READER).refused(3, 16);
    }
    let lines = b"|9|9,3|9,3,|9,,5|,3,5|9,3,5,|9,3,5,5|09,3,5|9,03,5|9,3,05|00,3,5|9,3,00|9,0,5|9,00,5|\
        9,65536,5|65536,3,5|9,3,65536|99999,3,5|9,99999,5|9,3,99999|100000,3,5|9,100000,5|9,3,100000|\
        9,3,5\r\r| 9,3,5|9,3,-5|9,3,x|65536,1,5|9,2,65536|9,1,05|9,3,\xb5|9,3\xac5";
    for line in lines.split(|&b| b == b'|') {
        let sheet = [b"mark,half\n2,1\n\nminute,inj,vdk\n9,3,5\n", line, b"\n"].concat();
        cases.read(&sheet, READER).refused(3, 36);
    }
}

/// Lines that end in a carriage return and a line feed, and carriage returns
/// elsewhere.
#[rustfmt::skip]
fn line_ends(cases: &mut Cases) {
    // The whole sheet with that end in all lines, in every second one, and in
    // each line alone.
    cases.sheet(&with_end(SHEET, ENDS[1])).used(4, 3);
    let lines = lines_of(SHEET);
    let chosen = |office: &dyn Fn(usize) -> bool| -> Vec<u8> {
        let ended = |(k, line): (usize, &Vec<u8>)| [&line[..], ENDS[usize::from(office(k))]].concat();
        lines.iter().enumerate().flat_map(ended).collect()
    };
    cases.sheet(&chosen(&|k| k % 2 == 0)).used(4, 3);
    cases.sheet(&chosen(&|k| k % 2 == 1)).used(4, 3);
    for line in 0..lines.len() {
        cases.read(&chosen(&|k| k == line), READER).used(4, 3);
    }
    for (sheet, number, place) in [
        // Places: a line's first byte, or the sheet's length.
        ("mark,half\r\n\r\n", 7, 11),
        ("mark,half\r\n20,10\r\n21,12\r\n", 10, 18),
        ("mark,half\r\n20,10\r\n19,10\r\n", 5, 18),
        ("mark,half\r\n20,0\r\n", 9, 11),
        ("mark,half\r\n", 3, 11),
        ("mark,half\r\n20,10\r\n", 3, 18),
        ("mark,half\r\n20,10\r\n\r\n", 2, 20),
        ("mark,half\r\n1,1\r\n\r\nminute,inj,vdk\r\n5,3,1\r\n4,3,1\r\n", 4, 41),
        // One carriage return belongs to the end, a second to the text.
        ("mark,half\r\r\n", 2, 0),
        ("mark,half\r\n0,1\r\r\n", 3, 11),
        ("mark,half\n0,1\n\r\r\n", 3, 14),
        ("mark,half\n0,1\n\nminute,inj,vdk\r\r\n", 2, 15),
        ("mark,half\n0,1\n\nminute,inj,vdk\n5,3,1\r\r\n", 3, 30),
        // Elsewhere it is a wrong byte.
        ("\r", 2, 0),
        ("\r\n", 2, 0),
        ("mark\r,half\n", 2, 0),
        ("\rmark,half\n", 2, 0),
        ("mark,half\r0,1\r\rminute,inj,vdk\r5,3,1\r", 2, 0),
        ("mark,half\n\r0,1\n", 3, 10),
        ("mark,half\n0\r,1\n", 3, 10),
        ("mark,half\n0,1\r0,1\n", 3, 10),
        ("mark,half\n0,1\n\n\rminute,inj,vdk\n", 2, 15),
        ("mark,half\n0,1\n\nminute,inj,vdk\n5,3\r,1\n", 3, 30),
        // A line without its line feed, also where it is a carriage return alone.
        ("mark,half\r", 2, 0),
        ("mark,half\r\n0,1\r", 3, 11),
        ("mark,half\r\n0,1\r\n\r", 3, 16),
        ("mark,half\n0,1\n\nminute,inj,vdk\r", 2, 15),
        ("mark,half\n0,1\n\nminute,inj,vdk\n5,3,1\r", 3, 30),
        ("mark,half\n0,1\n\nminute,inj,vdk\n\r", 3, 30),
        // An empty line among the readings.
        ("mark,half\n0,1\n\nminute,inj,vdk\n\r\n", 3, 30),
    ] {
        cases.sheet(sheet.as_bytes()).refused(number, place);
    }
}

/// A sheet with so many equal mark lines and reading lines, and more behind.
fn many(mark: &str, marks: usize, reading: &str, readings: usize, more: &str) -> Vec<u8> {
    let readings = reading.repeat(readings) + more;
    sheet_of(&mark.repeat(marks), &readings)
}

/// A sheet of so many bytes, in order but for that: lines that are not kept
/// make up the length.
fn sheet_of_length(length: usize, end: &[u8]) -> Vec<u8> {
    let sheet = many("5,2\n", 3, "4,3,9\n", 1000, "6,3,65535\n");
    lengthened(with_end(&sheet, end), length, end)
}

/// Sheets at the limits, with one more line or byte.
#[rustfmt::skip]
fn limits(cases: &mut Cases) {
    // Lines that differ, and the longest lines.
    let marks: String = (0..512).map(|k| format!("{},2\n", k / 64)).collect();
    let readings: String = (0..1024)
        .map(|k| format!("{},{},{}\n", k / 128, 3 + k % 7, k % 10))
        .collect();
    cases.sheet(&sheet_of(&marks, &readings)).used(1024, 512);

    // One mark; lines that are not kept do not crowd.
    let (mark, reading) = ("3,2\n", "9,3,4\n");
    cases.read(&many(mark, 1, "9,2,4\n", 1025, "10,3,4\n"), READER).used(1, 1);
    cases.read(&many(mark, 1, reading, 1024, "10,2,4\n9,3,1\n"), READER).refused(4, 6181);
    cases.read(&many(mark, 1, reading, 1024, "8,3,4\n"), READER).refused(4, 6174);

    // A sound sheet of as many bytes as there may be, and of one more.
    cases.text(&sheet_of_length(MOST_BYTES, ENDS[0]), MOST_OUTPUT);
    cases.sheet(&sheet_of_length(MOST_BYTES + 1, ENDS[0])).refused(1, 32_768);
    // Carriage returns count.
    cases.read(&sheet_of_length(MOST_BYTES, ENDS[1]), READER).used(1001, 3);
    cases.read(&sheet_of_length(MOST_BYTES + 1, ENDS[1]), READER).refused(1, 32_768);
}

/// Large sheets, each read and its curve written.
#[rustfmt::skip]
fn large(cases: &mut Cases) {
    let full = |reading: &str, readings: usize, more: &str| many("3,2\n", MOST_MARKS, reading, readings, more);
    let reading = "9,3,4\n";
    cases.sheet(&full(reading, MOST_READINGS, "")).used(1024, 512);
    // One mark too many, one kept reading too many.
    cases.sheet(&many("3,2\n", MOST_MARKS + 1, reading, 1, "")).refused(6, 2058);
    cases.sheet(&full(reading, MOST_READINGS, "10,3,4\n")).refused(6, 8218);
    // A line that is not kept does not crowd, and the next minute is checked against it.
    cases.sheet(&full(reading, MOST_READINGS, "10,2,4\n9,3,1\n")).refused(4, 8225);
    cases.sheet(&full("9,2,4\n", MOST_READINGS + 1, "10,3,4\n")).used(1, 512);
    // Early comes before crowded.
    cases.sheet(&full(reading, MOST_READINGS, "8,3,4\n")).refused(4, 8218);
    // The longest lines.
    cases.sheet(&many("65535,65536\n", MOST_MARKS, "65535,3,65535\n", MOST_READINGS, "")).used(1024, 512);
    // Nothing but line feeds.
    cases.sheet(&[b'\n'; MOST_BYTES + 1]).refused(1, 32_768);
    cases.sheet(&[b'\n'; MOST_BYTES]).refused(2, 0);
}

/// Line feeds at each offset of a word of eight bytes, and about its end.
fn feeds(cases: &mut Cases) {
    for sheet in feed_sheets() {
        cases.read(&sheet, READER);
    }
}

/// Each case has the fault of its report and the faults of those that come
/// later in the reader's order.
#[rustfmt::skip]
fn order(cases: &mut Cases) {
    // Reader 8, 1, then the first faulty line. That 1 comes before 2 is among
    // the large sheets.
    cases.read(&[10; 32_769], [1024, 1024, 512, 511, 2]).refused(8, 0);
    cases.read(b"", [1024, 1023, 512, 512, 2]).refused(8, 0);

    // Within a line 3, 5, 9, 10, 6: the 513th mark.
    for (line, number) in [
        ("4,00\n", 3),
        ("4,0\n", 5),
        ("6,0\n", 9),
        ("6,4\n", 10),
        ("6,2\nx\n", 6),
    ] {
        let sheet = format!("mark,half\n{}{line}", "5,2\n".repeat(512));
        cases.read(sheet.as_bytes(), READER).refused(number, 2058);
        if number == 6 {
            cases.text(sheet.as_bytes(), MOST_OUTPUT).refused(number, 2058);
        }
    }
    // Within a line 3, 4; that 4 comes before 6 is among the large sheets.
    for line in ["8,0,5\n", "8,3,65536\n", "8,3,5", "8,1,05\n"] {
        let sheet = format!("mark,half\n2,1\n\nminute,inj,vdk\n9,3,5\n{line}");
        cases.read(sheet.as_bytes(), READER).refused(3, 36);
    }
    for line in ["19,00", "19,10,1", "19,100000", "19,x"] {
        let sheet = format!("mark,half\n20,10\n{line}\n");
        cases.read(sheet.as_bytes(), READER).refused(3, 16);
    }
    for line in ["19,99999", "19,20", "19,1"] {
        let sheet = format!("mark,half\n20,10\n{line}\n");
        cases.read(sheet.as_bytes(), READER).refused(5, 16);
    }
    // No marks before anything of the second names line.
    cases.read(b"mark,half\n\n", READER).refused(7, 10);
    cases.read(b"mark,half\n\nx", READER).refused(7, 10);
}

/// Lent lists one short, one long and empty.
fn lengths(cases: &mut Cases) {
    for which in 0..5 {
        for wrong in [READER[which] - 1, READER[which] + 1, 0] {
            let mut lengths = READER;
            lengths[which] = wrong;
            cases.read(SHEET, lengths).refused(8, 0);
            cases.read(C12, lengths).refused(8, 0);
            cases.read(b"", lengths).refused(8, 0);
        }
    }
    for lengths in [
        [0; 5],
        [512, 512, 1024, 1024, 2],
        [1024, 1024, 1024, 1024, 2],
    ] {
        cases.read(SHEET, lengths).refused(8, 0);
    }
}

fn random_read(random: &mut Random, cases: &mut Cases) {
    let mut lengths = READER;
    if random.chance(40) {
        let which = random.below(lengths.len());
        lengths[which] = length(random, lengths[which]);
    }
    let sheet = draws::sheet(random);
    cases.read(&sheet, lengths);
}

pub fn random_cases(random: &mut Random, cases: &mut Cases) {
    (0..60).for_each(|_| random_read(random, cases));
}
