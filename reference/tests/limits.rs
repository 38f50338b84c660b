//! Lists and sheets at their limits and one over.

use reference::*;

fn no<T>(number: u8, place: u64) -> Result<T, Refusal> {
    Err(Refusal { number, place })
}

fn got(sheet: &[u8]) -> Result<(usize, usize), Refusal> {
    let mut minutes = [7; 1024];
    let mut values = [8; 1024];
    let mut marks = [9; 512];
    let mut halves = [10; 512];
    let answer = read(sheet, &mut minutes, &mut values, &mut marks, &mut halves);
    if answer.is_err() {
        assert_eq!(minutes, [7; 1024]);
        assert_eq!(values, [8; 1024]);
        assert_eq!(marks, [9; 512]);
        assert_eq!(halves, [10; 512]);
    }
    if let Err(refusal) = answer {
        let line = format!("refused,place\n{},{}\n", refusal.number, refusal.place);
        assert_eq!(program(sheet), line.as_bytes());
    }
    answer
}

#[test]
fn readings_1024_and_1025() {
    let minutes: Vec<u16> = (0..1025).collect();
    let values = vec![7u16; 1025];
    let (m, v) = (&minutes[..1024], &values[..1024]);

    assert_eq!(one_mark(m, v, 2000, 5), Ok([1024, 1024, 0, 0, 65536]));
    assert_eq!(one_mark(&minutes, &values, 2000, 5), no(6, 0));
    assert_eq!(one_mark_run(m, v, 1000, 500), (500, 1024));
    assert_eq!(one_mark_run(&minutes, &values, 1000, 500), (0, 0));

    let after = step(Record::default(), m, v, 2000, 5).unwrap();
    assert_eq!((after.left, after.right, after.sums), (1024, 1024, [0; 6]));
    assert_eq!(
        step(Record::default(), &minutes, &values, 2000, 5),
        no(6, 0)
    );

    let mut rows = [3; ROW_WIDTH];
    assert_eq!(sweep(&minutes, &values, &[2000], &[5], &mut rows), no(6, 0));
    assert_eq!(rows, [3; ROW_WIDTH]);
    assert_eq!(sweep(m, v, &[2000], &[5], &mut rows), Ok(2048));
}

#[test]
fn marks_512_and_513() {
    let marks: Vec<u16> = (0..513).collect();
    let halves = vec![5u32; 513];
    let mut rows = vec![3u64; 2565];
    assert_eq!(sweep(&[], &[], &marks, &halves, &mut rows), no(6, 0));
    assert_eq!(rows, vec![3u64; 2565]);
    let mut rows = vec![3u64; 2560];
    assert_eq!(
        sweep(&[511], &[4], &marks[..512], &halves[..512], &mut rows),
        Ok(1)
    );
    assert_eq!(rows[2555..], [0, 1, 25, 100, 4]);

    let mut marks = [1u16; 512];
    let mut halves = [1u32; 512];
    assert_eq!(fill(0, 128, 3, &mut marks, &mut halves), Ok(()));
    assert_eq!((marks[511], halves[511]), (65408, 90));
    assert_eq!(fill(127, 128, 3, &mut marks, &mut halves), Ok(()));
    assert_eq!(marks[511], 65535);
    assert_eq!(fill(128, 128, 4, &mut marks, &mut halves), no(13, 0));
    assert_eq!((marks[0], marks[511], halves[0]), (127, 65535, 90));
    let mut marks = [1u16; 513];
    let mut halves = [1u32; 513];
    assert_eq!(fill(0, 0, 3, &mut marks, &mut halves), no(6, 0));
    assert_eq!((marks, halves), ([1; 513], [1; 513]));
}

/// A sheet with so many marks `5,2` and readings `9,3,1`, and lines behind.
fn sheet(marks: usize, more_marks: &str, readings: usize, more_readings: &str) -> Vec<u8> {
    let mut text = String::from("mark,half\n");
    text += &"5,2\n".repeat(marks);
    text += more_marks;
    text += "\nminute,inj,vdk\n";
    text += &"9,3,1\n".repeat(readings);
    text += more_readings;
    text.into_bytes()
}

#[test]
fn sheet_marks() {
    let place = 10 + 4 * 512;
    assert_eq!(got(&sheet(512, "", 0, "")), Ok((0, 512)));
    assert_eq!(got(&sheet(513, "", 0, "")), no(6, place));
    assert_eq!(got(&sheet(512, "6,3\n", 0, "")), no(6, place));
    // Crowded comes last within a line.
    assert_eq!(got(&sheet(512, "6\n", 0, "")), no(3, place));
    let mut cut = sheet(513, "", 0, "");
    cut.truncate(place as usize + 3);
    assert_eq!(got(&cut), no(3, place));
    assert_eq!(got(&sheet(512, "4,2\n", 0, "")), no(5, place));
    assert_eq!(got(&sheet(512, "6,0\n", 0, "")), no(9, place));
    assert_eq!(got(&sheet(512, "6,4\n", 0, "")), no(10, place));
    // And before any fault of a later line.
    assert_eq!(got(&sheet(512, "6,2\nx\n", 0, "")), no(6, place));
}

#[test]
fn sheet_readings() {
    let place = 10 + 4 + 1 + 15 + 6 * 1024;
    assert_eq!(got(&sheet(1, "", 1024, "")), Ok((1024, 1)));
    assert_eq!(got(&sheet(1, "", 1025, "")), no(6, place));
    assert_eq!(got(&sheet(1, "", 1024, "10,3,1\n")), no(6, place));
    // Discarded lines do not crowd.
    assert_eq!(got(&sheet(1, "", 1024, "9,1,1\n9,2,1\n")), Ok((1024, 1)));
    assert_eq!(
        got(&sheet(1, "", 1024, "9,1,1\n9,2,1\n9,3,1\n")),
        no(6, place + 12)
    );
    // Crowded comes last within a line.
    assert_eq!(got(&sheet(1, "", 1024, "9,3\n")), no(3, place));
    assert_eq!(got(&sheet(1, "", 1024, "9,3,1")), no(3, place));
    assert_eq!(got(&sheet(1, "", 1024, "8,3,1\n")), no(4, place));
    assert_eq!(got(&sheet(1, "", 1024, "8,1,1\n")), no(4, place));
    assert_eq!(got(&sheet(1, "", 1024, "9,3,1\nx\n")), no(6, place));
    assert_eq!(got(&sheet(512, "", 1024, "")), Ok((1024, 512)));
}

/// A fit sheet of exactly so many bytes: discarded lines make up the length.
fn sheet_of(length: usize) -> Vec<u8> {
    let mut bytes = sheet(1, "", 1000, "");
    while length - bytes.len() > 20 {
        bytes.extend(b"9,1,0\n");
    }
    let left = length - bytes.len();
    for size in [left / 2, left - left / 2] {
        bytes.extend(b"9,2,");
        bytes.extend(vec![b'1'; size - 5]);
        bytes.push(b'\n');
    }
    assert_eq!(bytes.len(), length);
    bytes
}

#[test]
fn bytes_32768_and_32769() {
    assert_eq!(got(&sheet_of(32767)), Ok((1000, 1)));
    assert_eq!(got(&sheet_of(32768)), Ok((1000, 1)));
    assert_eq!(got(&sheet_of(32769)), no(1, 32768));
    // Overlong before any line.
    assert_eq!(got(&[b'x'; 32769]), no(1, 32768));
    assert_eq!(got(&[b'x'; 32768]), no(2, 0));
    assert_eq!(got(&[b'\n'; 100_000]), no(1, 32768));
    // One line feed more is an empty line behind the readings.
    let mut more = sheet_of(32767);
    more.push(b'\n');
    assert_eq!(got(&more), no(3, 32767));
}
