//! Every report that a sheet can earn, with its words. 8 and 11 to 14 are about lists, a record, the knob
//! and neighbours, 16 about a second tank's lists, 17 about temperatures: no sheet earns them.

mod run;

use run::run;

/// The sheet of the specification's worked case, twelve lines.
const GOOD: &str = "mark,half\n20,10\n25,15\n60,20\n\nminute,inj,vdk\n10,3,40\n12,1,900\n14,2,400\n20,3,60\n20,4,80\n35,5,20\n";

fn with(old: &str, new: &str) -> String {
    assert!(GOOD.contains(old), "{old:?} is not in the sheet");
    GOOD.replacen(old, new, 1)
}

/// The sheet is refused with this number and place, and exactly these words.
fn refused(sheet: impl AsRef<[u8]>, number: u64, place: usize, words: &str) {
    let ran = run(&[], sheet.as_ref());
    let text = String::from_utf8_lossy(&ran.stdout).into_owned();
    assert_eq!(text, format!("refused,place\n{number},{place}\n"));
    assert_eq!(
        ran.stderr,
        format!("tankview: standard input is refused with {words}\n")
    );
    assert_eq!(ran.status, Some(1));
}

/// The same, of which only the likely cause is told here.
fn caused(sheet: impl AsRef<[u8]>, number: u64, line: usize, cause: &str) {
    let ran = run(&[], sheet.as_ref());
    let first = format!("tankview: standard input is refused with report {number}, ");
    assert!(ran.stderr.starts_with(&first), "{}", ran.stderr);
    assert!(
        ran.stderr.contains(&format!(" in line {line} (byte ")),
        "{}",
        ran.stderr
    );
    let last = format!("\n  likely cause: {cause}\n");
    assert!(ran.stderr.ends_with(&last), "{}", ran.stderr);
    assert_eq!(ran.status, Some(1));
}

const MARK: &str = "a mark line mark,half: two whole numbers with a comma between them, and a line feed; behind the last one an empty line";
const READING: &str = "a reading line minute,inj,vdk: three whole numbers with two commas between them, and a line feed";
const NAMES: &str =
    "the names line minute,inj,vdk, or minute,inj,low,high for ranges, and a line feed";
const UNENDED: &str =
    "no line feed ends the last line: put the cursor behind it, press Enter, and save";

const RETURNED: &str = "the last line ends in a carriage return without its line feed";
const COMMENT: &str = "a comment; a sheet has none";

#[test]
fn a_good_sheet_is_silent() {
    let ran = run(&[], GOOD.as_bytes());
    assert_eq!((ran.status, ran.stderr.as_str()), (Some(0), ""));
}

#[test]
fn report_1_overlong() {
    let sheet = format!(
        "mark,half\n20,10\n\nminute,inj,vdk\n{}",
        "10,1,4\n".repeat(5000)
    );
    refused(
        sheet,
        1,
        32_768,
        "report 1, overlong, in line 4681 (byte 32768).\n  the line:     10,1,…\n  expected:     a sheet of at most 32,768 bytes\n  likely cause: too many lines; those with inj 1 or 2, which do not count, may be left out",
    );
    let mut file = b"PK\x03\x04".to_vec();
    file.resize(40_000, b'x');
    caused(
        file,
        1,
        1,
        "this is a spreadsheet program's own file; save it as text, with commas (CSV)",
    );
}

#[test]
fn report_2_heading() {
    refused(
        "",
        2,
        0,
        "report 2, heading, at its start (byte 0).\n  expected:     the names line mark,half, and a line feed\n  likely cause: the file is empty",
    );
    refused(
        "mark,half\n20,10\n25,15\n\n",
        2,
        23,
        &format!("report 2, heading, at its end, behind line 4 (byte 23).\n  expected:     {NAMES}\n  likely cause: the sheet ends behind its marks: the readings are missing, or the file was cut off"),
    );
    refused(
        format!("\u{feff}{GOOD}"),
        2,
        0,
        "report 2, heading, in line 1 (byte 0).\n  the line:     \\u{feff}mark,half\n  expected:     the names line mark,half, and a line feed\n  likely cause: the file begins with a byte order mark; save it as UTF-8 without one, or as plain text",
    );
    refused(
        with("\n\n", "\n\n\n"),
        2,
        29,
        &format!("report 2, heading, in line 6 (byte 29).\n  the line:     (empty)\n  expected:     {NAMES}\n  likely cause: there are two empty lines behind the marks"),
    );
}

#[test]
fn likely_causes_of_a_heading() {
    let semicolons =
        "semicolons stand where commas belong; a spreadsheet program with a decimal comma saves so";
    caused(GOOD.replace(',', ";"), 2, 1, semicolons);
    caused(
        GOOD.replace(',', "\t"),
        2,
        1,
        "tabs stand where commas belong",
    );
    caused(
        "minute,inj,vdk\n10,3,40\n\nmark,half\n20,10\n",
        2,
        1,
        "the two blocks are swapped: marks come first, then an empty line, then readings",
    );
    caused(
        format!("\n{GOOD}"),
        2,
        1,
        "an empty line stands in front of the names line",
    );
    caused("mark,half", 2, 1, UNENDED);
    caused(
        with("mark,half", "mark,half,"),
        2,
        1,
        "commas stand at the end of the line; a spreadsheet program fills up short rows with them",
    );
    caused(
        with("mark,half", "Mark,Half"),
        2,
        1,
        "the names have capital letters; they are written small",
    );
    caused(
        with("mark,half", "mark,half "),
        2,
        1,
        "a blank stands in front of the names or behind them",
    );
    caused(
        with("mark,half", "mark, half"),
        2,
        1,
        "a blank stands between the names",
    );
    caused(
        with("mark,half", "\"mark\",\"half\""),
        2,
        1,
        "quotation marks stand around cells; a sheet has none",
    );
    caused(
        GOOD.replace('\n', "\r"),
        2,
        1,
        "the lines end in carriage returns without line feeds",
    );
    caused(
        with("mark,half\n", ""),
        2,
        1,
        "the names line is missing: numbers stand here already",
    );
    caused(
        with("minute,inj,vdk\n", ""),
        2,
        6,
        "the names line is missing: numbers stand here already",
    );
    caused(
        with("minute,inj,vdk", "mark,half"),
        2,
        6,
        "the marks' names line stands here again, where the readings begin",
    );
    caused(
        with("vdk", "diacetyl"),
        2,
        6,
        "other names than a sheet has",
    );
    caused(
        "mark,half,left,right,weight,sum,vdk\n",
        2,
        1,
        "this is what the program writes, a curve or a refusal, and not the sheet it was made from",
    );
    let wide: Vec<u8> = GOOD.bytes().flat_map(|byte| [byte, 0]).collect();
    caused(wide, 2, 1, "the file is saved as Unicode with two bytes a letter (UTF-16); save it as plain text or UTF-8");
    caused(
        with("mark,half", "mark half"),
        2,
        1,
        "blanks stand where commas belong",
    );
    caused(
        "Dear brewer,\n",
        2,
        1,
        "other names, or another file than a tank sheet",
    );
    let marked = format!("\u{feff}{}", GOOD.replace(',', ";"));
    caused(
        marked,
        2,
        1,
        "the file begins with a byte order mark; save it as UTF-8 without one, or as plain text",
    );
    caused(b"\x7fELF\x02\0", 2, 1, "this is no file of text");
    caused(format!("# tank 4\n{GOOD}"), 2, 1, COMMENT);
    caused("mark,half\r", 2, 1, RETURNED);
    caused("mark,half\n20,10\n\nminute,inj,vdk\r", 2, 4, RETURNED);
}

#[test]
fn report_3_torn_line() {
    refused(
        with("20,3,60", "20, 3,60"),
        3,
        70,
        &format!("report 3, torn line, in line 10 (byte 70).\n  the line:     20, 3,60\n  expected:     {READING}\n  likely cause: a blank stands in the line"),
    );
    refused(
        GOOD.trim_end(),
        3,
        86,
        &format!("report 3, torn line, in line 12 (byte 86).\n  the line:     35,5,20\n  expected:     {READING}\n  likely cause: {UNENDED}"),
    );
    refused(
        with("\n\n", "\n"),
        3,
        28,
        &format!("report 3, torn line, in line 5 (byte 28).\n  the line:     minute,inj,vdk\n  expected:     {MARK}\n  likely cause: the empty line between the marks and this names line is missing"),
    );
    refused(
        "mark,half\n20,10\n25,15\n",
        3,
        22,
        "report 3, torn line, at its end, behind line 3 (byte 22).\n  expected:     an empty line behind the marks, and then the readings\n  likely cause: the readings are missing, or the file was cut off",
    );
}

#[test]
fn likely_causes_of_a_torn_line() {
    let reading = |line: &str, cause: &str| caused(with("20,3,60", line), 3, 10, cause);
    let mark = |line: &str, cause: &str| caused(with("25,15", line), 3, 3, cause);
    reading(
        "20;3;60",
        "semicolons stand where commas belong; a spreadsheet program with a decimal comma saves so",
    );
    reading("20\t3\t60", "tabs stand where commas belong");
    reading(
        "\"20\",\"3\",\"60\"",
        "quotation marks stand around cells; a sheet has none",
    );
    reading(
        "20,3,6.0",
        "a decimal point: all numbers are whole, a value is in tenths of a microgram per litre",
    );
    reading("20,3,6,0", "4 numbers where 3 belong: a decimal comma in a number, which has to be whole (values are in tenths), or a line of a sheet with ranges");
    reading(
        "20,3",
        "2 numbers where 3 belong: a mark line among the readings, or a number is missing",
    );
    reading(
        "20",
        "1 number where 3 belong: a number is missing, or the line was cut off",
    );
    reading("20,3,60,", "4 numbers where 3 belong: commas stand at the end of the line; a spreadsheet program fills up short rows with them");
    reading(
        "20,3,-",
        "a dash stands for a number; a reading without a value is left out of a sheet",
    );
    reading("20,3,-6", "a minus sign: no number of a sheet has a sign");
    reading("20,3,+6", "a plus sign: no number of a sheet has a sign");
    reading("20,3,6O", "'O' is neither a digit nor a comma");
    reading("20,3,60 µg", "'µ' is neither a digit nor a comma");
    reading("20,3,60\u{a0}", "a blank stands in the line");
    reading("20,3,60\r\r", "a carriage return stands inside the line");
    reading("20,,60", "there is no number for inj");
    reading("20,0,60", "inj is 0; injections count from 1");
    reading("20,03,60", "inj is 03, with a zero in front");
    reading("20,3,65536", "vdk is 65536, above 65,535");
    reading(
        "20,3,99999999999999999999999",
        "vdk is a number of 23 digits, above 65,535",
    );
    reading("20,3,<200", "'<' is neither a digit nor a comma; a value below the detector's floor belongs into a sheet with ranges, as 0,200");
    reading("20,3,<", "'<' is neither a digit nor a comma");
    reading("2,100,7,1010", "4 numbers where 3 belong: a decimal comma in a number, which has to be whole (values are in tenths), or a separator of thousands, or a line of a sheet with ranges");
    reading("2,100,7,1,010", "5 numbers where 3 belong: a decimal comma in a number, which has to be whole, or a separator of thousands, or two lines in one");
    reading("# 20,3,60", COMMENT);
    mark("#25,15", COMMENT);
    mark("1,440,480", "3 numbers where 2 belong: a decimal comma in a number, which has to be whole, or a separator of thousands, or a reading line among the marks");
    caused(with("35,5,20\n", "35,5,20\r"), 3, 12, RETURNED);
    caused(
        with("35,5,20\n", "35,05,20\r"),
        3,
        12,
        &format!("inj is 05, with a zero in front; besides, {RETURNED}"),
    );
    caused(format!("{GOOD}\r"), 3, 13, RETURNED);
    reading("", "an empty line stands among the readings or behind them; nothing may follow the last reading");
    reading(
        "mark,half",
        "a second block begins here: two sheets in one file",
    );
    mark("25,100000", "half is 100000, above 65,536");
    mark("25,15,7", "3 numbers where 2 belong: a decimal comma in a number, which has to be whole, or a reading line among the marks");
    mark(
        ",,",
        "a spreadsheet program has filled up an empty line with commas; it has to be empty",
    );
    mark("  ", "the line looks empty, but blanks stand in it");
    mark("mark,half", "the names line stands here again");
    caused("mark,half\n20,10\n25", 3, 3, &format!("1 number where 2 belong: a number is missing, or the line was cut off; besides, {UNENDED}"));
}

#[test]
fn report_4_early_reading() {
    refused(
        with("14,2,400", "11,2,400"),
        4,
        61,
        "report 4, early reading, in line 9 (byte 61).\n  the line:     11,2,400\n  expected:     a minute of 12 or more, since line 8 has 12\n  likely cause: minute 11 is below 12 of line 8: a typing error in one of the two, or readings that are not in the order of time",
    );
}

#[test]
fn report_5_early_mark() {
    refused(
        with("25,15", "19,9"),
        5,
        16,
        "report 5, early mark, in line 3 (byte 16).\n  the line:     19,9\n  expected:     a mark of 20 or more, since line 2 has 20\n  likely cause: mark 19 is below 20 of line 2: a typing error in one of the two, or marks that are not in the order of time",
    );
}

#[test]
fn report_6_crowded() {
    refused(
        format!("mark,half\n20,10\n\nminute,inj,vdk\n8,1,9\n{}", "10,3,4\n".repeat(1025)),
        6,
        7206,
        "report 6, crowded, in line 1030 (byte 7206).\n  the line:     10,3,4\n  expected:     at most 1,024 kept readings; lines with inj 1 or 2 do not count\n  likely cause: this line has the 1,025th kept reading",
    );
    refused(
        format!("mark,half\n{}\nminute,inj,vdk\n", "20,10\n".repeat(513)),
        6,
        3082,
        "report 6, crowded, in line 514 (byte 3082).\n  the line:     20,10\n  expected:     at most 512 marks\n  likely cause: this line has the 513th mark",
    );
}

#[test]
fn report_7_no_marks() {
    refused(
        "mark,half\n\nminute,inj,vdk\n10,3,40\n",
        7,
        10,
        "report 7, no marks, in line 2 (byte 10).\n  the line:     (empty)\n  expected:     a mark line or more between the names line mark,half and the empty line\n  likely cause: the marks are missing, or an empty line stands in front of them",
    );
}

#[test]
fn report_9_half_width() {
    refused(
        with("25,15", "25,0"),
        9,
        16,
        "report 9, half width, in line 3 (byte 16).\n  the line:     25,0\n  expected:     a half width of 1 to 65,536 minutes\n  likely cause: half is 0; the narrowest window has half width 1",
    );
    caused(
        with("25,15", "25,65537"),
        9,
        3,
        "half is 65537, above 65,536",
    );
}

#[test]
fn report_10_edge_back() {
    refused(
        with("25,15", "25,16"),
        10,
        16,
        "report 10, edge back, in line 3 (byte 16).\n  the line:     25,16\n  expected:     a window that begins and ends no earlier than the one of the line in front\n  likely cause: the window begins at minute 9, that of line 2 at 10: between marks that are 5 minutes apart the half width may change by 5 at most",
    );
    caused(with("25,15", "25,2"), 10, 3, "the window ends at minute 27, that of line 2 at 30: between marks that are 5 minutes apart the half width may change by 5 at most");
}

const RANGES: &str = "mark,half\n20,10\n\nminute,inj,low,high\n10,3,0,40\n20,3,50,60\n";

#[test]
fn report_15_crossed_range() {
    refused(
        RANGES.replace("50,60", "60,50"),
        15,
        47,
        "report 15, crossed range, in line 6 (byte 47).\n  the line:     20,3,60,50\n  expected:     a low that is no higher than high\n  likely cause: low is 60, above high, which is 50: the two are swapped, or one has a typing error",
    );
}

#[test]
fn lines_of_a_sheet_with_ranges() {
    let reading = |line: &str, cause: &str| caused(RANGES.replace("20,3,50,60", line), 3, 6, cause);
    reading(
        "20,3,60",
        "3 numbers where 4 belong: a line of a sheet without ranges",
    );
    reading("20,3,5,0,60", "5 numbers where 4 belong: a decimal comma in a number, which has to be whole, or two lines in one");
    reading("20,3,50,65536", "high is 65536, above 65,535");
    refused(
        RANGES.replace("20,3,50,60", "20,3,<50,60"),
        3,
        47,
        "report 3, torn line, in line 6 (byte 47).\n  the line:     20,3,<50,60\n  expected:     a reading line minute,inj,low,high: four whole numbers with three commas between them, and a line feed\n  likely cause: '<' is neither a digit nor a comma",
    );
}
