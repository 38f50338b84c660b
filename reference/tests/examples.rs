//! The published sheet, the cases C1 to C12 and the table of the knob.

use reference::*;

const SHEET: &[u8] = b"mark,half
20,10
25,15
60,20

minute,inj,vdk
10,3,40
12,1,900
14,2,400
20,3,60
20,4,80
35,5,20
";

const WRITTEN: &[u8] = b"mark,half,left,right,weight,sum,vdk
20,10,0,3,200,14000,70
25,15,0,4,525,30500,58
60,20,4,4,0,0,-

kept,passes
4,8
";

const MINUTES: [u16; 4] = [10, 20, 20, 35];
const VALUES: [u16; 4] = [40, 60, 80, 20];

#[test]
fn c1_to_c3() {
    let row = |mark, half| one_mark(&MINUTES, &VALUES, mark, half);
    assert_eq!(row(20, 10), Ok([0, 3, 200, 14000, 70]));
    assert_eq!(row(25, 15), Ok([0, 4, 525, 30500, 58]));
    assert_eq!(row(60, 20), Ok([4, 4, 0, 0, 65536]));

    let run = |mark, half| one_mark_run(&MINUTES, &VALUES, mark, half);
    assert_eq!(run(20, 10), (0, 3));
    assert_eq!(run(25, 15), (0, 4));
    assert_eq!(run(60, 20), (4, 4));

    let mut rows = [9; 15];
    let passes = sweep(&MINUTES, &VALUES, &[20, 25, 60], &[10, 15, 20], &mut rows);
    assert_eq!(passes, Ok(8));
    assert_eq!(
        rows,
        [0, 3, 200, 14000, 70, 0, 4, 525, 30500, 58, 4, 4, 0, 0, 65536]
    );
}

#[test]
fn c4_no_readings() {
    assert_eq!(one_mark(&[], &[], 5, 1), Ok([0, 0, 0, 0, 65536]));
    assert_eq!(one_mark_run(&[], &[], 5, 1), (0, 0));
    let mut rows = [9; ROW_WIDTH];
    assert_eq!(sweep(&[], &[], &[5], &[1], &mut rows), Ok(0));
    assert_eq!(rows, [0, 0, 0, 0, 65536]);
}

#[test]
fn c5_edge_reading_only() {
    assert_eq!(one_mark(&[10], &[40], 20, 10), Ok([0, 1, 0, 0, 65536]));
    assert_eq!(one_mark_run(&[10], &[40], 20, 10), (0, 1));
}

#[test]
fn c6_left_edge_below_zero() {
    assert_eq!(one_mark(&[0], &[50], 3, 10), Ok([0, 1, 91, 4550, 50]));
}

#[test]
fn c7_half_to_even() {
    assert_eq!(one_mark(&[0, 0], &[2, 3], 0, 1), Ok([0, 2, 2, 5, 2]));
}

/// Halves over even and odd numbers, and what lies a quarter beside them.
#[test]
fn halves_to_even() {
    for (values, row) in [
        (&[0, 1][..], [0, 2, 2, 1, 0]),
        (&[1, 2], [0, 2, 2, 3, 2]),
        (&[65534, 65535], [0, 2, 2, 131069, 65534]),
        (&[1, 1, 1, 2], [0, 4, 4, 5, 1]),
        (&[1, 1, 2, 2], [0, 4, 4, 6, 2]),
        (&[1, 2, 2, 2], [0, 4, 4, 7, 2]),
        (&[2, 2, 2, 3], [0, 4, 4, 9, 2]),
        (&[2, 2, 3, 3], [0, 4, 4, 10, 2]),
        (&[2, 3, 3, 3], [0, 4, 4, 11, 3]),
    ] {
        let minutes = vec![0; values.len()];
        assert_eq!(one_mark(&minutes, values, 0, 1), Ok(row));
    }
}

#[test]
fn c8_greatest() {
    assert_eq!(
        one_mark(&[65535], &[65535], 65535, 65536),
        Ok([0, 1, 4294967296, 281470681743360, 65535])
    );
}

#[test]
fn c9_jumped_over() {
    let mut rows = [9; 10];
    assert_eq!(sweep(&[50], &[9], &[0, 100], &[1, 1], &mut rows), Ok(2));
    assert_eq!(rows, [0, 0, 0, 0, 65536, 1, 1, 0, 0, 65536]);

    let first = step(Record::default(), &[50], &[9], 0, 1).unwrap();
    assert_eq!(first, Record::default());
    let second = step(first, &[50], &[9], 100, 1).unwrap();
    let gone = Record {
        left: 1,
        right: 1,
        sums: [0; 6],
        passes: 2,
    };
    assert_eq!(second, gone);
}

#[test]
fn c10_left_edge_stands() {
    let mut rows = [9; 10];
    assert_eq!(sweep(&[], &[], &[100, 101], &[10, 11], &mut rows), Ok(0));
}

#[test]
fn c11_edge_back() {
    let mut rows = [9; 10];
    assert_eq!(
        sweep(&[], &[], &[100, 101], &[10, 12], &mut rows),
        Err(Refusal {
            number: 10,
            place: 1
        })
    );
    assert_eq!(rows, [9; 10]);
}

#[test]
fn c12_edge_back_in_a_sheet() {
    let sheet = b"mark,half\n20,10\n21,12\n";
    assert_eq!(program(sheet), b"refused,place\n10,16\n");
    let mut out = [90; MOST_OUTPUT];
    let refusal = Refusal {
        number: 10,
        place: 16,
    };
    assert_eq!(text(sheet, &mut out), Err(refusal));
    assert_eq!(out, [90; MOST_OUTPUT]);
    assert_eq!(refusal_text(10, 16, &mut out), Ok(20));
    assert_eq!(out[..20], *b"refused,place\n10,16\n");
    assert_eq!(out[20..], [90; MOST_OUTPUT - 20]);
}

#[test]
fn whole_sheet() {
    assert_eq!(program(SHEET), WRITTEN);
    let mut out = [90; MOST_OUTPUT];
    assert_eq!(text(SHEET, &mut out), Ok(WRITTEN.len()));
    assert_eq!(out[..WRITTEN.len()], *WRITTEN);
    assert!(out[WRITTEN.len()..].iter().all(|&b| b == 90));
}

#[test]
fn whole_sheet_read() {
    let mut minutes = [7; 1024];
    let mut values = [8; 1024];
    let mut marks = [9; 512];
    let mut halves = [10; 512];
    let counts = read(SHEET, &mut minutes, &mut values, &mut marks, &mut halves);
    assert_eq!(counts, Ok((4, 3)));
    assert_eq!(minutes[..4], MINUTES);
    assert_eq!(values[..4], VALUES);
    assert_eq!(marks[..3], [20, 25, 60]);
    assert_eq!(halves[..3], [10, 15, 20]);
    assert!(minutes[4..].iter().all(|&m| m == 7));
    assert!(values[4..].iter().all(|&v| v == 8));
    assert!(marks[3..].iter().all(|&z| z == 9));
    assert!(halves[3..].iter().all(|&h| h == 10));
}

#[test]
fn empty_input() {
    assert_eq!(program(b""), b"refused,place\n2,0\n");
}

#[test]
fn knob() {
    let table = [30, 45, 60, 90, 120, 180, 240, 360, 480, 720, 1080, 1440];
    for (position, &half) in table.iter().enumerate() {
        let mut marks = [1; 3];
        let mut halves = [1; 3];
        assert_eq!(
            fill(100, 7, position as u32, &mut marks, &mut halves),
            Ok(())
        );
        assert_eq!(marks, [100, 107, 114]);
        assert_eq!(halves, [half; 3]);
    }
}

#[test]
fn greatest_sum() {
    // 1,024 readings of the greatest value at the mark, greatest half width:
    // 2^58 - 2^42.
    let row = one_mark(&[65535; 1024], &[65535; 1024], 65535, 65536).unwrap();
    assert_eq!(row, [0, 1024, 1 << 42, (1 << 58) - (1 << 42), 65535]);
}
