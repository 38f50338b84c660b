//! The preview: its limits, its reports, and that it gives what the sweep gives.

use reference::*;

fn no<T>(number: u8, place: u64) -> Result<T, Refusal> {
    Err(Refusal { number, place })
}

/// What a call answers, and its rows list, lent as 3 everywhere.
type Told = (Result<u64, Refusal>, Vec<u64>);

type Call = fn(&[u16], &[u16], &[u16], &[u32], &mut [u64]) -> Result<u64, Refusal>;

fn told(
    call: Call,
    (minutes, values): (&[u16], &[u16]),
    (marks, halves): (&[u16], &[u32]),
    rows: usize,
) -> Told {
    let mut list = vec![3; rows];
    let answer = call(minutes, values, marks, halves, &mut list);
    if answer.is_err() {
        assert_eq!(list, vec![3; rows]);
    }
    (answer, list)
}

/// So many readings, a minute apart, and so many marks with half width 5.
fn lists(readings: u16, marks: u16) -> (Vec<u16>, Vec<u16>, Vec<u16>, Vec<u32>) {
    let minutes: Vec<u16> = (0..readings).collect();
    let values = minutes.iter().map(|m| m * 7 % 100).collect();
    let marks: Vec<u16> = (0..marks).map(|k| 3 * k).collect();
    let halves = vec![5; marks.len()];
    (minutes, values, marks, halves)
}

#[test]
fn limits() {
    for readings in [0, 1, 255, 256, 257, 1024, 1025] {
        for marks in [0, 1, 63, 64, 65, 512, 513] {
            let (m, v, z, h) = lists(readings, marks);
            let rows = ROW_WIDTH * z.len();
            let small = told(preview, (&m, &v), (&z, &h), rows);
            let full = told(sweep, (&m, &v), (&z, &h), rows);
            if readings > 256 || marks > 64 {
                assert_eq!(small.0, no(6, 0));
            } else if marks == 0 {
                assert_eq!(small.0, no(7, 0));
            } else {
                assert!(small.0.is_ok());
                assert_eq!(small, full);
            }
        }
    }
}

#[test]
fn reports_in_order() {
    let swept =
        |m: &[u16], v: &[u16], z: &[u16], h: &[u32], rows| told(preview, (m, v), (z, h), rows).0;
    // 8 comes first, also of more than a small curve has.
    assert_eq!(swept(&[1; 257], &[1; 256], &[5], &[5], 5), no(8, 0));
    assert_eq!(swept(&[1; 256], &[1; 257], &[5], &[5], 5), no(8, 0));
    assert_eq!(swept(&[], &[], &[5; 65], &[5; 64], 325), no(8, 0));
    assert_eq!(swept(&[], &[], &[5; 65], &[5; 65], 320), no(8, 0));
    assert_eq!(swept(&[1; 2000], &[1], &[5], &[5], 5), no(8, 0));
    // Then 6, 7, 4, 5, 9, 10.
    let mut falling = [3u16; 257];
    falling[1] = 2;
    assert_eq!(swept(&falling, &[1; 257], &[], &[], 0), no(6, 0));
    assert_eq!(swept(&[2, 1], &[1; 2], &[5; 65], &[0; 65], 325), no(6, 0));
    assert_eq!(swept(&falling[..3], &[1; 3], &[], &[], 0), no(7, 0));
    assert_eq!(
        swept(&falling[..3], &[1; 3], &[7, 6, 8], &[5, 5, 0], 15),
        no(4, 1)
    );
    assert_eq!(swept(&[3], &[1], &[7, 8, 7], &[0, 9, 9], 15), no(5, 2));
    assert_eq!(swept(&[3], &[1], &[7, 7, 7], &[1, 9, 0], 15), no(9, 2));
    assert_eq!(swept(&[3], &[1], &[7, 7, 7], &[1, 9, 1], 15), no(10, 1));
}

#[test]
fn rows_and_passes_of_the_sweep() {
    let (m, v) = ([10, 20, 20, 35], [40, 60, 80, 20]);
    let (z, h) = ([20, 25, 60], [10, 15, 20]);
    let rows = [
        0, 3, 200, 14000, 70, 0, 4, 525, 30500, 58, 4, 4, 0, 0, 65536,
    ];
    let small = told(preview, (&m, &v), (&z, &h), ROW_WIDTH * z.len());
    assert_eq!(small, (Ok(8), rows.to_vec()));
    // Each row is also that of the question at one mark.
    for (k, row) in small.1.chunks(ROW_WIDTH).enumerate() {
        assert_eq!(one_mark(&m, &v, z[k], h[k]).unwrap(), row);
    }
}
