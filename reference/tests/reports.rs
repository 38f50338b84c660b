//! Each report of each call with its place, the order of the reports, and the
//! lent lists after a refusal.

use reference::*;

fn no<T>(number: u8, place: u64) -> Result<T, Refusal> {
    Err(Refusal { number, place })
}

// ------------------------------------------------------------- one mark

/// The row's answer, with the run compared to it.
fn one(minutes: &[u16], values: &[u16], mark: u16, half: u32) -> Result<[u64; ROW_WIDTH], Refusal> {
    let answer = one_mark(minutes, values, mark, half);
    let run = one_mark_run(minutes, values, mark, half);
    match answer {
        Ok(row) => assert_eq!(run, (row[0] as usize, row[1] as usize)),
        Err(_) => assert_eq!(run, (0, 0)),
    }
    answer
}

#[test]
fn one_mark_reports() {
    assert_eq!(one(&[1], &[], 5, 5), no(8, 0));
    assert_eq!(one(&[], &[1], 5, 5), no(8, 0));
    assert_eq!(one(&[1; 1025], &[1; 1025], 5, 5), no(6, 0));
    assert_eq!(one(&[5, 5, 4, 3], &[1; 4], 5, 5), no(4, 2));
    assert_eq!(one(&[5, 4], &[1; 2], 5, 5), no(4, 1));
    assert_eq!(one(&[4, 5], &[1; 2], 5, 0), no(9, 0));
    assert_eq!(one(&[4, 5], &[1; 2], 5, 65537), no(9, 0));
    assert_eq!(one(&[4, 5], &[1; 2], 5, u32::MAX), no(9, 0));
    assert!(one(&[4, 5], &[1; 2], 5, 65536).is_ok());
    assert!(one(&[4, 5], &[1; 2], 5, 1).is_ok());
}

#[test]
fn one_mark_order() {
    let mut falling = vec![3u16; 1025];
    falling[1] = 2;
    // 8, 6, 4, 9
    assert_eq!(one(&falling, &[1; 1024], 5, 0), no(8, 0));
    assert_eq!(one(&falling, &[1; 1025], 5, 0), no(6, 0));
    assert_eq!(one(&falling[..3], &[1; 3], 5, 0), no(4, 1));
    assert_eq!(one(&[3; 3], &[1; 3], 5, 0), no(9, 0));
}

// ----------------------------------------------------------------- step

fn record(left: u64, right: u64) -> Record {
    Record {
        left,
        right,
        sums: [5; 6],
        passes: 0,
    }
}

#[test]
fn step_reports() {
    let fresh = Record::default();
    assert_eq!(step(fresh, &[1], &[], 5, 5), no(8, 0));
    assert_eq!(step(fresh, &[1; 1025], &[1; 1025], 5, 5), no(6, 0));
    assert_eq!(step(record(1, 0), &[1], &[1], 5, 5), no(11, 0));
    assert_eq!(step(record(0, 2), &[1], &[1], 5, 5), no(11, 0));
    assert_eq!(step(record(2, 2), &[1], &[1], 5, 5), no(11, 0));
    assert_eq!(step(record(0, u64::MAX), &[1], &[1], 5, 5), no(11, 0));
    assert_eq!(step(record(u64::MAX, 1), &[1], &[1], 5, 5), no(11, 0));
    assert_eq!(step(record(0, 1 << 32), &[1], &[1], 5, 5), no(11, 0));
    assert_eq!(step(fresh, &[1], &[1], 5, 0), no(9, 0));
    assert_eq!(step(fresh, &[1], &[1], 5, 65537), no(9, 0));
    assert!(step(record(1, 1), &[1], &[1], 5, 65536).is_ok());
}

#[test]
fn step_order() {
    // 8, 6, 11, 9
    let foreign = record(1, 0);
    assert_eq!(step(foreign, &[1; 1025], &[1; 3], 5, 0), no(8, 0));
    assert_eq!(step(foreign, &[1; 1025], &[1; 1025], 5, 0), no(6, 0));
    assert_eq!(step(foreign, &[1; 3], &[1; 3], 5, 0), no(11, 0));
    assert_eq!(step(record(0, 0), &[1; 3], &[1; 3], 5, 0), no(9, 0));
}

#[test]
fn step_takes_any_order() {
    // The right edge is 20: 30 stops it although 10 follows.
    let got = step(Record::default(), &[15, 3, 30, 10], &[2, 7, 1, 1], 15, 5).unwrap();
    assert_eq!((got.left, got.right), (0, 2));
    assert_eq!(got.sums, [2, 18, 234, 9, 51, 513]);
    // The left edge is 12: 15 stops it although 3 follows.
    let next = step(got, &[15, 3, 30, 10], &[2, 7, 1, 1], 30, 18).unwrap();
    assert_eq!((next.left, next.right), (0, 4));
    assert_eq!(next.sums, [4, 58, 1234, 11, 91, 1513]);
    // The left edge is 20: 15 and 3 are let go, 30 stops it.
    let last = step(next, &[15, 3, 30, 10], &[2, 7, 1, 1], 30, 10).unwrap();
    assert_eq!((last.left, last.right), (2, 4));
    assert_eq!(last.sums, [2, 40, 1000, 2, 40, 1000]);
}

#[test]
fn step_sums_wrap() {
    let full = Record {
        left: 0,
        right: 0,
        sums: [u64::MAX; 6],
        passes: u64::MAX,
    };
    let up = step(full, &[2], &[3], 2, 1).unwrap();
    assert_eq!((up.left, up.right), (0, 1));
    assert_eq!(up.sums, [0, 1, 3, 2, 5, 11]);
    assert_eq!(up.passes, 0);
    let empty = Record {
        left: 0,
        right: 1,
        sums: [0; 6],
        passes: 0,
    };
    let down = step(empty, &[2], &[3], 9, 1).unwrap();
    assert_eq!((down.left, down.right), (1, 1));
    assert_eq!(down.passes, 1);
    let less = |n: u64| 0u64.wrapping_sub(n);
    assert_eq!(
        down.sums,
        [less(1), less(2), less(4), less(3), less(6), less(12)]
    );
}

// ---------------------------------------------------------------- sweep

/// A sweep with a rows list of the given length, which must stay as it was on
/// a refusal.
fn swept(
    minutes: &[u16],
    values: &[u16],
    marks: &[u16],
    halves: &[u32],
    length: usize,
) -> Result<u64, Refusal> {
    let before: Vec<u64> = (0..length as u64).map(|i| 1000 + i).collect();
    let mut rows = before.clone();
    let answer = sweep(minutes, values, marks, halves, &mut rows);
    if answer.is_err() {
        assert_eq!(rows, before);
    }
    answer
}

#[test]
fn sweep_reports() {
    assert_eq!(swept(&[1], &[], &[5], &[5], 5), no(8, 0));
    assert_eq!(swept(&[], &[1], &[5], &[5], 5), no(8, 0));
    assert_eq!(swept(&[], &[], &[5], &[5, 5], 5), no(8, 0));
    assert_eq!(swept(&[], &[], &[5, 5], &[5], 10), no(8, 0));
    assert_eq!(swept(&[], &[], &[5], &[5], 4), no(8, 0));
    assert_eq!(swept(&[], &[], &[5], &[5], 6), no(8, 0));
    assert_eq!(swept(&[], &[], &[5], &[5], 10), no(8, 0));
    assert_eq!(swept(&[], &[], &[], &[], 5), no(8, 0));
    assert_eq!(swept(&[1; 1025], &[1; 1025], &[5], &[5], 5), no(6, 0));
    assert_eq!(swept(&[], &[], &[5; 513], &[5; 513], 2565), no(6, 0));
    assert_eq!(swept(&[], &[], &[], &[], 0), no(7, 0));
    assert_eq!(swept(&[1, 1, 0, 5, 4], &[1; 5], &[5], &[5], 5), no(4, 2));
    assert_eq!(
        swept(&[], &[], &[5, 6, 6, 4, 3], &[9, 9, 9, 9, 9], 25),
        no(5, 3)
    );
    assert_eq!(swept(&[], &[], &[5], &[0], 5), no(9, 0));
    assert_eq!(swept(&[], &[], &[5, 5, 5], &[5, 65537, 0], 15), no(9, 1));
    assert_eq!(swept(&[], &[], &[5, 5], &[5, u32::MAX], 10), no(9, 1));
    // The left edge falls, then the right edge falls.
    assert_eq!(swept(&[], &[], &[5, 6, 7, 9], &[5, 5, 7, 5], 20), no(10, 2));
    assert_eq!(swept(&[], &[], &[5, 6], &[5, 3], 10), no(10, 1));
    // Equal edges pass.
    assert_eq!(swept(&[], &[], &[5, 6, 7], &[5, 4, 5], 15), Ok(0));
}

#[test]
fn sweep_order() {
    let mut minutes = vec![3u16; 1025];
    minutes[1] = 2;
    let values = vec![1u16; 1025];
    // 8, 6, 7, 4, 5, 9, 10
    assert_eq!(swept(&minutes, &values[1..], &[], &[], 0), no(8, 0));
    assert_eq!(swept(&minutes, &values, &[], &[], 0), no(6, 0));
    assert_eq!(swept(&minutes[..3], &values[..3], &[], &[], 0), no(7, 0));
    assert_eq!(
        swept(&minutes[..3], &values[..3], &[7, 6, 8], &[5, 5, 0], 15),
        no(4, 1)
    );
    assert_eq!(swept(&[3], &[1], &[7, 8, 7], &[0, 9, 9], 15), no(5, 2));
    assert_eq!(swept(&[3], &[1], &[7, 7, 7], &[1, 9, 0], 15), no(9, 2));
    assert_eq!(swept(&[3], &[1], &[7, 7, 7], &[1, 9, 1], 15), no(10, 1));
}

// ----------------------------------------------------------------- fill

/// A fill of lists of the given lengths, which must stay as they were on a
/// refusal.
fn filled(
    first: u16,
    spacing: u16,
    position: u32,
    marks: usize,
    halves: usize,
) -> Result<(Vec<u16>, Vec<u32>), Refusal> {
    let marks_before: Vec<u16> = (0..marks as u16).map(|i| 100 + i).collect();
    let halves_before: Vec<u32> = (0..halves as u32).map(|i| 200 + i).collect();
    let mut marks = marks_before.clone();
    let mut halves = halves_before.clone();
    let answer = fill(first, spacing, position, &mut marks, &mut halves);
    if let Err(refusal) = answer {
        assert_eq!(marks, marks_before);
        assert_eq!(halves, halves_before);
        return Err(refusal);
    }
    Ok((marks, halves))
}

#[test]
fn fill_reports() {
    assert_eq!(filled(0, 1, 0, 2, 1), no(8, 0));
    assert_eq!(filled(0, 1, 0, 0, 1), no(8, 0));
    assert_eq!(filled(0, 1, 0, 0, 0), no(7, 0));
    assert_eq!(filled(0, 0, 0, 513, 513), no(6, 0));
    assert_eq!(filled(0, 1, 12, 1, 1), no(12, 0));
    assert_eq!(filled(0, 1, u32::MAX, 1, 1), no(12, 0));
    assert_eq!(filled(65535, 1, 0, 2, 2), no(13, 0));
    assert_eq!(filled(1, 65535, 11, 2, 2), no(13, 0));
    assert_eq!(filled(65535, 65535, 11, 512, 512), no(13, 0));
    assert_eq!(
        filled(0, 65535, 11, 2, 2),
        Ok((vec![0, 65535], vec![1440; 2]))
    );
    assert_eq!(filled(65535, 65535, 0, 1, 1), Ok((vec![65535], vec![30])));
    assert_eq!(filled(65535, 0, 0, 3, 3), Ok((vec![65535; 3], vec![30; 3])));
}

#[test]
fn fill_order() {
    // 8, 7, 6, 12, 13
    assert_eq!(filled(65535, 9, 12, 514, 513), no(8, 0));
    assert_eq!(filled(65535, 9, 12, 0, 0), no(7, 0));
    assert_eq!(filled(65535, 9, 12, 513, 513), no(6, 0));
    assert_eq!(filled(65535, 9, 12, 512, 512), no(12, 0));
    assert_eq!(filled(65535, 9, 11, 512, 512), no(13, 0));
}

// ----------------------------------------------------------------- read

/// A read into lists of the given lengths, which must stay as they were on a
/// refusal, and behind the used counts.
fn read_into(sheet: &[u8], lengths: [usize; 4]) -> Result<(usize, usize), Refusal> {
    let minutes_before: Vec<u16> = (0..lengths[0]).map(|i| 1 + i as u16).collect();
    let values_before: Vec<u16> = (0..lengths[1]).map(|i| 2 + i as u16).collect();
    let marks_before: Vec<u16> = (0..lengths[2]).map(|i| 3 + i as u16).collect();
    let halves_before: Vec<u32> = (0..lengths[3]).map(|i| 4 + i as u32).collect();
    let mut minutes = minutes_before.clone();
    let mut values = values_before.clone();
    let mut marks = marks_before.clone();
    let mut halves = halves_before.clone();
    let answer = read(sheet, &mut minutes, &mut values, &mut marks, &mut halves);
    let (kept, used) = answer.unwrap_or((0, 0));
    assert_eq!(minutes[kept..], minutes_before[kept..]);
    assert_eq!(values[kept..], values_before[kept..]);
    assert_eq!(marks[used..], marks_before[used..]);
    assert_eq!(halves[used..], halves_before[used..]);
    answer
}

/// A read into lists of the right lengths, and what the program writes.
fn got(sheet: &str) -> Result<(usize, usize), Refusal> {
    let answer = read_into(sheet.as_bytes(), [1024, 1024, 512, 512]);
    let written = String::from_utf8(program(sheet.as_bytes())).unwrap();
    match answer {
        Ok((kept, _)) => {
            assert!(written.starts_with("mark,half,left,right,weight,sum,vdk\n"));
            assert!(written.contains(&format!("\n\nkept,passes\n{kept},")));
        }
        Err(refusal) => assert_eq!(
            written,
            format!("refused,place\n{},{}\n", refusal.number, refusal.place)
        ),
    }
    answer
}

const HEAD: &str = "mark,half\n20,10\n\nminute,inj,vdk\n";

#[test]
fn read_lengths() {
    let lengths = [1024, 1024, 512, 512];
    assert_eq!(read_into(HEAD.as_bytes(), lengths), Ok((0, 1)));
    for which in 0..4 {
        for wrong in [0, lengths[which] - 1, lengths[which] + 1] {
            let mut other = lengths;
            other[which] = wrong;
            assert_eq!(read_into(HEAD.as_bytes(), other), no(8, 0));
            // 8 before 1 and before any line.
            assert_eq!(read_into(&[b'x'; 32769], other), no(8, 0));
            assert_eq!(read_into(b"", other), no(8, 0));
        }
    }
    assert_eq!(read_into(HEAD.as_bytes(), [0; 4]), no(8, 0));
    assert_eq!(read_into(HEAD.as_bytes(), [512, 512, 1024, 1024]), no(8, 0));
}

#[test]
fn read_names_lines() {
    assert_eq!(got(""), no(2, 0));
    assert_eq!(got("\n"), no(2, 0));
    assert_eq!(got("mark,half"), no(2, 0));
    assert_eq!(got("mark,hal\n"), no(2, 0));
    assert_eq!(got("mark,half\r\r\n20,10\r\n"), no(2, 0));
    assert_eq!(got("mark,half,\n20,10\n"), no(2, 0));
    assert_eq!(got("Mark,half\n20,10\n"), no(2, 0));
    // Second names line absent, different, without its line feed, empty.
    assert_eq!(got("mark,half\n20,10\n\n"), no(2, 17));
    assert_eq!(got("mark,half\n20,10\n\nminute,inj,vdj\n"), no(2, 17));
    assert_eq!(got("mark,half\n20,10\n\nminute,inj,vdk"), no(2, 17));
    assert_eq!(got("mark,half\n20,10\n\nm"), no(2, 17));
    assert_eq!(got("mark,half\n20,10\n\n\nminute,inj,vdk\n"), no(2, 17));
    assert_eq!(got(HEAD), Ok((0, 1)));
}

#[test]
fn read_torn_mark_lines() {
    let torn = [
        "20",
        "20,",
        ",10",
        ",",
        "20,10,",
        "20,10,3",
        "020,10",
        "20,010",
        "00,10",
        "20,00",
        "200000,10",
        "20,100000",
        "65536,10",
        "99999,10",
        "99999,0",
        " 20,10",
        "20,10 ",
        "20, 10",
        "20;10",
        "-2,10",
        "+2,10",
        "2.0,10",
        "20,10\r\r",
        "a,10",
        "20,b",
        "mark,half",
        "minute,inj,vdk",
        "\u{0}",
        "20,1\u{0}",
    ];
    for line in torn {
        let sheet = format!("mark,half\n20,10\n{line}\n\nminute,inj,vdk\n");
        assert_eq!(got(&sheet), no(3, 16), "{line:?}");
    }
    // Without its line feed.
    assert_eq!(got("mark,half\n20,10"), no(3, 10));
    assert_eq!(got("mark,half\n20,10\n30"), no(3, 16));
    // No empty line before the end.
    assert_eq!(got("mark,half\n"), no(3, 10));
    assert_eq!(got("mark,half\n20,10\n"), no(3, 16));
    assert_eq!(got("mark,half\n20,10\n30,10\n"), no(3, 22));
}

#[test]
fn read_torn_reading_lines() {
    let torn = [
        "",
        "9",
        "9,3",
        "9,3,",
        "9,,5",
        ",3,5",
        "9,3,5,",
        "9,3,5,5",
        "09,3,5",
        "9,03,5",
        "9,3,05",
        "00,3,5",
        "9,3,00",
        "9,0,5",
        "9,00,5",
        "9,65536,5",
        "65536,3,5",
        "9,3,65536",
        "99999,3,5",
        "9,99999,5",
        "9,3,99999",
        "100000,3,5",
        "9,100000,5",
        "9,3,100000",
        "9,3,5\r\r",
        " 9,3,5",
        "9,3,-5",
        "9,3,x",
        "65536,1,5",
        "9,2,65536",
    ];
    for line in torn {
        let sheet = format!("{HEAD}9,3,5\n{line}\n");
        assert_eq!(got(&sheet), no(3, 38), "{line:?}");
    }
    assert_eq!(got(&format!("{HEAD}9,3,5")), no(3, 32));
    assert_eq!(got(&format!("{HEAD}9,3,5\n9,3,5")), no(3, 38));
    assert_eq!(got(&format!("{HEAD}9,3,5\n\n")), no(3, 38));
}

#[test]
fn read_numbers_at_their_ends() {
    assert_eq!(
        got("mark,half\n0,1\n65535,65536\n\nminute,inj,vdk\n0,1,0\n0,3,0\n65535,65535,65535\n"),
        Ok((2, 2))
    );
}

#[test]
fn read_early_reading() {
    assert_eq!(got(&format!("{HEAD}9,3,5\n8,3,5\n")), no(4, 38));
    assert_eq!(got(&format!("{HEAD}9,3,5\n9,4,5\n")), Ok((2, 1)));
    // Discarded lines are checked, and checked against.
    assert_eq!(got(&format!("{HEAD}9,3,5\n8,1,5\n")), no(4, 38));
    assert_eq!(got(&format!("{HEAD}9,2,5\n8,3,5\n")), no(4, 38));
    assert_eq!(got(&format!("{HEAD}9,2,5\n8,1,5\n")), no(4, 38));
    assert_eq!(got(&format!("{HEAD}9,1,5\n9,2,5\n9,3,5\n")), Ok((1, 1)));
}

#[test]
fn read_marks() {
    let tail = "\nminute,inj,vdk\n";
    assert_eq!(got(&format!("mark,half\n20,10\n19,10\n{tail}")), no(5, 16));
    assert_eq!(got(&format!("mark,half\n20,0\n{tail}")), no(9, 10));
    assert_eq!(got(&format!("mark,half\n20,65537\n{tail}")), no(9, 10));
    assert_eq!(got(&format!("mark,half\n20,99999\n{tail}")), no(9, 10));
    assert_eq!(got(&format!("mark,half\n20,65536\n{tail}")), Ok((0, 1)));
    assert_eq!(got(&format!("mark,half\n20,10\n21,12\n{tail}")), no(10, 16));
    assert_eq!(got(&format!("mark,half\n20,10\n21,8\n{tail}")), no(10, 16));
    assert_eq!(got(&format!("mark,half\n20,10\n21,11\n{tail}")), Ok((0, 2)));
    assert_eq!(got(&format!("mark,half\n20,10\n21,9\n{tail}")), Ok((0, 2)));
    assert_eq!(got(&format!("mark,half\n{tail}")), no(7, 10));
    assert_eq!(got("mark,half\n\n"), no(7, 10));
    assert_eq!(got("mark,half\n\nx"), no(7, 10));
}

#[test]
fn read_order_within_a_line() {
    let tail = "\nminute,inj,vdk\n";
    // 3 before 5, 5 before 9, 9 before 10.
    assert_eq!(got(&format!("mark,half\n20,10\n19,00\n{tail}")), no(3, 16));
    assert_eq!(got(&format!("mark,half\n20,10\n19,0\n{tail}")), no(5, 16));
    assert_eq!(
        got(&format!("mark,half\n20,10\n19,99999\n{tail}")),
        no(5, 16)
    );
    assert_eq!(got(&format!("mark,half\n20,10\n19,20\n{tail}")), no(5, 16));
    assert_eq!(got(&format!("mark,half\n20,10\n21,0\n{tail}")), no(9, 16));
    assert_eq!(
        got(&format!("mark,half\n20,10\n21,65537\n{tail}")),
        no(9, 16)
    );
    // 3 before 4.
    assert_eq!(got(&format!("{HEAD}9,3,5\n8,0,5\n")), no(3, 38));
    assert_eq!(got(&format!("{HEAD}9,3,5\n8,3,65536\n")), no(3, 38));
    assert_eq!(got(&format!("{HEAD}9,3,5\n8,3,5")), no(3, 38));
}

#[test]
fn read_first_faulty_line() {
    // An earlier line's report, whatever its number, before a later line's.
    assert_eq!(got("mark,half\n20,10\n21,12\nx\n"), no(10, 16));
    assert_eq!(got("mark,half\n20,0\n\nx"), no(9, 10));
    assert_eq!(got("mark,half\n20,10\n19,10\n"), no(5, 16));
    assert_eq!(got("mark,half\n\nminute\n"), no(7, 10));
    assert_eq!(got(&format!("{HEAD}9,3,5\n8,3,5\nx\n")), no(4, 38));
}

// ----------------------------------------------------------------- text

/// Bytes that no text has, all different from their neighbours.
fn prefilled(length: usize) -> Vec<u8> {
    (0..length).map(|i| 128 + (i % 127) as u8).collect()
}

/// A text in a buffer of the given length, which must be as it was on a
/// refusal, and behind the text.
fn texted(sheet: &[u8], length: usize) -> Result<Vec<u8>, Refusal> {
    let before = prefilled(length);
    let mut out = before.clone();
    let size = text(sheet, &mut out);
    let used = size.unwrap_or(0);
    assert_eq!(out[used..], before[used..]);
    size.map(|used| out[..used].to_vec())
}

/// The same of a refusal's text.
fn refusal_texted(number: u64, place: u64, length: usize) -> Result<Vec<u8>, Refusal> {
    let before = prefilled(length);
    let mut out = before.clone();
    let size = refusal_text(number, place, &mut out);
    let used = size.unwrap_or(0);
    assert_eq!(out[used..], before[used..]);
    size.map(|used| out[..used].to_vec())
}

const WRONG_LENGTHS: [usize; 6] = [0, 31_291, 44_112, 44_114, 88_226, 109_649];

#[test]
fn text_reports() {
    let tail = "\nminute,inj,vdk\n";
    let sheets = [
        ("\n".repeat(32769), 1, 32768),
        (String::new(), 2, 0),
        (String::from("mark,half\n20,10\n\n"), 2, 17),
        (String::from("mark,half\n20\n"), 3, 10),
        (format!("{HEAD}9,3,5\n8,3,5\n"), 4, 38),
        (format!("mark,half\n20,10\n19,10\n{tail}"), 5, 16),
        (format!("mark,half\n{}", "5,2\n".repeat(513)), 6, 2058),
        (format!("{HEAD}{}", "9,3,1\n".repeat(1025)), 6, 6176),
        (format!("mark,half\n{tail}"), 7, 10),
        (format!("mark,half\n20,0\n{tail}"), 9, 10),
        (format!("mark,half\n20,10\n21,12\n{tail}"), 10, 16),
    ];
    for (sheet, number, place) in &sheets {
        let sheet = sheet.as_bytes();
        assert_eq!(texted(sheet, MOST_OUTPUT), no(*number, *place));
        // 8 before the report of the sheet.
        for length in WRONG_LENGTHS {
            assert_eq!(texted(sheet, length), no(8, 0));
        }
        // The program tells the refusal that the call returns.
        let told = refusal_texted(u64::from(*number), *place, MOST_OUTPUT);
        assert_eq!(told, Ok(program(sheet)));
    }
    for length in WRONG_LENGTHS {
        assert_eq!(texted(HEAD.as_bytes(), length), no(8, 0));
    }
    assert_eq!(
        texted(HEAD.as_bytes(), MOST_OUTPUT),
        Ok(program(HEAD.as_bytes()))
    );
}

/// 512 lines of 58 bytes, and both counts of four digits.
#[test]
fn text_of_a_full_sheet() {
    let sheet = format!(
        "mark,half\n{}\nminute,inj,vdk\n{}{}",
        "65535,65534\n".repeat(512),
        "0,3,65535\n".repeat(1000),
        "65535,3,65535\n".repeat(24)
    );
    let written = texted(sheet.as_bytes(), MOST_OUTPUT).unwrap();
    assert_eq!(written, program(sheet.as_bytes()));
    assert_eq!(written.len(), 36 + 512 * 58 + 13 + 10);
}

#[test]
fn refusal_texts() {
    let most = u64::MAX;
    for (number, place, line) in [
        (0, 0, "0,0"),
        (0, 1, "0,1"),
        (1, 0, "1,0"),
        (2, 0, "2,0"),
        (10, 16, "10,16"),
        (13, 32768, "13,32768"),
        (0, most, "0,18446744073709551615"),
        (most, 0, "18446744073709551615,0"),
        (1, most, "1,18446744073709551615"),
        (most, most, "18446744073709551615,18446744073709551615"),
    ] {
        let written = format!("refused,place\n{line}\n").into_bytes();
        assert_eq!(refusal_texted(number, place, MOST_OUTPUT), Ok(written));
        for length in WRONG_LENGTHS {
            assert_eq!(refusal_texted(number, place, length), no(8, 0));
        }
    }
}
