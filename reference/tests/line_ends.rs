//! Sheets whose lines end in a carriage return and a line feed, or in either.

use reference::{program, MOST_BYTES};

const SHEET: &str = "mark,half\n20,10\n25,15\n60,20\n\nminute,inj,vdk\n\
    10,3,40\n12,1,900\n14,2,400\n20,3,60\n20,4,80\n35,5,20\n";

const CURVE: &str = "mark,half,left,right,weight,sum,vdk\n\
    20,10,0,3,200,14000,70\n25,15,0,4,525,30500,58\n60,20,4,4,0,0,-\n\n\
    kept,passes\n4,8\n";

fn refusal(number: u64, place: usize) -> Vec<u8> {
    format!("refused,place\n{number},{place}\n").into_bytes()
}

/// The sheet with a carriage return in the ends of the lines that are asked
/// for by their positions.
fn ended(sheet: &str, office: impl Fn(usize) -> bool) -> Vec<u8> {
    let mut bytes = Vec::new();
    for (k, line) in sheet.lines().enumerate() {
        bytes.extend(line.as_bytes());
        bytes.extend(if office(k) { &b"\r\n"[..] } else { b"\n" });
    }
    bytes
}

#[test]
fn refused_sheets() {
    let cases = [
        ("mark,half\r\n\r\n", 7, 11),
        ("mark,half\r\n0,1\r\n\r", 3, 16),
        ("mark,half\r\n0,1\r\r\n", 3, 11),
        ("mark,half\r", 2, 0),
        ("mark,half\n\r0,1\n", 3, 10),
        ("mark,half\r\n20,10\r\n21,12\r\n", 10, 18),
        ("mark,half\r\r\n", 2, 0),
        ("mark\r,half\n", 2, 0),
        ("mark,half\n0,1\n\nminute,inj,vdk\r\r\n", 2, 15),
        ("mark,half\n0,1\n\r\r\n", 3, 14),
        ("mark,half\n0,1\n\nminute,inj,vdk\n\r\n", 3, 30),
        // Carriage returns that end no line.
        ("\r", 2, 0),
        ("\r\n", 2, 0),
        ("\rmark,half\n", 2, 0),
        ("mark,half\r20,10\r\n", 2, 0),
        ("mark,half\r20,10\r\rminute,inj,vdk\r", 2, 0),
        ("mark,half\n\r", 3, 10),
        ("mark,half\n20\r,10\n", 3, 10),
        ("mark,half\n20,10\r30,10\n", 3, 10),
        ("mark,half\n20,10\r", 3, 10),
        ("mark,half\n20,10\n\n\rminute,inj,vdk\n", 2, 17),
        ("mark,half\n20,10\n\nminute,inj,vdk\r", 2, 17),
        ("mark,half\n20,10\n\nminute,inj,vdk\n9,3,5\r", 3, 32),
        ("mark,half\n20,10\n\nminute,inj,vdk\n9,3,5\n\r", 3, 38),
        ("mark,half\n20,10\n\nminute,inj,vdk\n9\r,3,5\n", 3, 32),
        ("mark,half\n20,10\n\nminute,inj,vdk\n9,3,5\r\r\n", 3, 32),
        (
            "mark,half\n20,10\n\nminute,inj,vdk\n9,3,5\n\r9,3,5\n",
            3,
            38,
        ),
        // A number without digits before the line's end.
        ("mark,half\n20,\r\n", 3, 10),
        ("mark,half\n20,10\n\nminute,inj,vdk\n9,3,\r\n", 3, 32),
        // The line with the fault, and where nothing more comes.
        ("mark,half\r\n", 3, 11),
        ("mark,half\r\n20,10\r\n", 3, 18),
        ("mark,half\r\n20,10\r\n\r\n", 2, 20),
        ("mark,half\r\n20,10\r\n19,9\r\n", 5, 18),
        ("mark,half\r\n20,0\r\n", 9, 11),
        ("mark,half\r\n20,10\r\n\r\nminute,inj,vdj\r\n", 2, 20),
        (
            "mark,half\r\n20,10\r\n\r\nminute,inj,vdk\r\n9,3,5\r\n8,3,5\r\n",
            4,
            43,
        ),
    ];
    for (sheet, number, place) in cases {
        assert_eq!(
            program(sheet.as_bytes()),
            refusal(number, place),
            "{sheet:?}"
        );
    }
}

#[test]
fn every_choice_of_ends_gives_the_same_curve() {
    assert_eq!(program(SHEET.as_bytes()), CURVE.as_bytes());
    for choice in 0..1 << SHEET.lines().count() {
        let sheet = ended(SHEET, |line| choice >> line & 1 == 1);
        assert_eq!(program(&sheet), CURVE.as_bytes(), "{choice:b}");
    }
}

/// A carriage return at each place of the sheet: before a line feed it is part
/// of the line's end, anywhere else a fault of the line that it stands in.
#[test]
fn one_carriage_return_anywhere() {
    let before = SHEET.as_bytes();
    for at in 0..=before.len() {
        let mut sheet = before.to_vec();
        sheet.insert(at, b'\r');
        let start = before[..at]
            .iter()
            .rposition(|&b| b == b'\n')
            .map_or(0, |feed| feed + 1);
        let names = start == 0 || before[start..].starts_with(b"minute");
        let expected = match before.get(at) {
            Some(b'\n') => CURVE.as_bytes().to_vec(),
            _ => refusal(if names { 2 } else { 3 }, start),
        };
        assert_eq!(program(&sheet), expected, "{at}");
    }
}

#[test]
fn carriage_returns_count_in_the_length() {
    let lines = "9,1,0\r\n".repeat(4676);
    let sheet = |half| format!("mark,half\r\n20,{half}\r\n\r\nminute,inj,vdk\r\n{lines}");
    let fits = sheet("10");
    assert_eq!(fits.len(), MOST_BYTES);
    assert!(program(fits.as_bytes()).starts_with(b"mark,half,left"));
    // Only what the carriage returns take is over the limit.
    let over = sheet("100");
    assert_eq!(program(over.as_bytes()), refusal(1, 32_768));
    let plain = over.replace('\r', "");
    assert!(program(plain.as_bytes()).starts_with(b"mark,half,left"));
}
