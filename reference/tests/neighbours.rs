//! Half widths by neighbours.

use reference::*;

fn no<T>(number: u8, place: u64) -> Result<T, Refusal> {
    Err(Refusal { number, place })
}

const MINUTES: [u16; 4] = [10, 20, 20, 35];
const VALUES: [u16; 4] = [40, 60, 80, 20];
const MARKS: [u16; 3] = [20, 25, 60];

/// The half widths alone, of lists that are fit.
fn halves(minutes: &[u16], marks: &[u16], k: usize) -> Vec<u32> {
    let values = vec![5; minutes.len()];
    let (mut halves, mut rows) = (vec![0; marks.len()], vec![0; ROW_WIDTH * marks.len()]);
    neighbours(minutes, &values, marks, k, &mut halves, &mut rows).unwrap();
    halves
}

#[test]
fn of_the_published_sheet() {
    let of = |k| halves(&MINUTES, &MARKS, k);
    assert_eq!(of(1), [1, 6, 26]);
    assert_eq!(of(2), [1, 6, 41]);
    assert_eq!(of(3), [11, 11, 41]);
    assert_eq!(of(4), [16, 16, 51]);
}

/// Readings of one minute count each, and the last run is reached.
#[test]
fn equal_minutes_and_the_ends() {
    assert_eq!(halves(&[0, 0, 0, 10], &[10], 1), [1]);
    assert_eq!(halves(&[0, 0, 0, 10], &[10], 2), [11]);
    assert_eq!(halves(&[0, 0, 0, 10], &[10], 4), [11]);
    assert_eq!(halves(&[65535], &[0], 1), [65536]);
    assert_eq!(halves(&[0], &[65535], 1), [65536]);
    assert_eq!(halves(&[7; 5], &[7, 7, 9], 5), [1, 1, 3]);
}

#[test]
fn rows_are_those_of_the_new_half_widths() {
    for k in 1..=4 {
        let (mut widths, mut rows) = ([9; MARKS.len()], [7; ROW_WIDTH * MARKS.len()]);
        let answer = neighbours(&MINUTES, &VALUES, &MARKS, k, &mut widths, &mut rows);
        assert_eq!(answer, Ok(()));
        let mut swept = [7; ROW_WIDTH * MARKS.len()];
        sweep(&MINUTES, &VALUES, &MARKS, &widths, &mut swept).unwrap();
        assert_eq!(rows, swept);
        assert!(rows
            .chunks(ROW_WIDTH)
            .all(|row| row[2] > 0 && row[4] != MISSING));
    }
    // K of 1 at mark 25: the two readings of minute 20 weigh 36 − 25 each.
    let (mut widths, mut rows) = ([9], [7; ROW_WIDTH]);
    neighbours(&MINUTES, &VALUES, &[25], 1, &mut widths, &mut rows).unwrap();
    assert_eq!((widths, rows), ([6], [1, 3, 22, 1540, 70]));
}

/// 8, 6, 7, 4, 5, 14, each with the faults of those behind it; both lists stay.
#[test]
fn reports() {
    let mut falling = vec![3u16; 1025];
    falling[1] = 2;
    let ones = [1; 1025];
    let three = &falling[..3];
    let ask = |m: &[u16], v: &[u16], z: &[u16], k: usize, h: usize, r: usize| {
        let (mut halves, mut rows) = (vec![9; h], vec![7; r]);
        let answer = neighbours(m, v, z, k, &mut halves, &mut rows);
        if answer.is_err() {
            assert_eq!((halves, rows), (vec![9; h], vec![7; r]));
        }
        answer
    };
    assert_eq!(ask(&falling, &[], &[], 0, 0, 0), no(8, 0));
    assert_eq!(ask(three, &ones[..3], &[7, 6], 0, 1, 10), no(8, 0));
    assert_eq!(ask(three, &ones[..3], &[7, 6], 0, 2, 9), no(8, 0));
    assert_eq!(ask(&falling, &ones, &[], 0, 0, 0), no(6, 0));
    assert_eq!(ask(three, &ones[..3], &[5; 513], 0, 513, 2565), no(6, 0));
    assert_eq!(ask(three, &ones[..3], &[], 0, 0, 0), no(7, 0));
    assert_eq!(ask(three, &ones[..3], &[7, 6], 0, 2, 10), no(4, 1));
    assert_eq!(ask(&[3], &[1], &[7, 8, 7], 0, 3, 15), no(5, 2));
    assert_eq!(ask(&[3], &[1], &[7, 8, 8], 0, 3, 15), no(14, 0));
    assert_eq!(ask(&[3], &[1], &[7, 8, 8], 2, 3, 15), no(14, 0));
    assert_eq!(ask(&[3], &[1], &[7, 8, 8], usize::MAX, 3, 15), no(14, 0));
    assert_eq!(ask(&[3], &[1], &[7, 8, 8], 1, 3, 15), Ok(()));
    // Without readings there is no K that will do.
    for k in [0, 1, 2, 1024] {
        assert_eq!(ask(&[], &[], &[5], k, 1, 5), no(14, 0));
    }
    assert_eq!(ask(&MINUTES, &VALUES, &MARKS, 0, 3, 15), no(14, 0));
    assert_eq!(ask(&MINUTES, &VALUES, &MARKS, 5, 3, 15), no(14, 0));
}

/// The table of `examples/README.md`: a tank that is sampled every half hour at first and once a day in the end.
#[test]
fn of_a_tank_that_is_sampled_less_and_less() {
    let path = format!("{}/../examples/thinning.sheet", env!("CARGO_MANIFEST_DIR"));
    let sheet = std::fs::read(path).unwrap();
    let (mut minutes, mut values) = ([0; 1024], [0; 1024]);
    let (mut marks, mut fixed) = ([0; 512], [0; 512]);
    let counts = read(&sheet, &mut minutes, &mut values, &mut marks, &mut fixed);
    let (kept, used) = counts.unwrap();
    let (minutes, values, marks) = (&minutes[..kept], &values[..kept], &marks[..used]);
    let (mut widths, mut rows) = (vec![0; used], vec![0; ROW_WIDTH * used]);
    neighbours(minutes, values, marks, 3, &mut widths, &mut rows).unwrap();
    let table: Vec<(u16, u32, u64)> = (0..used)
        .map(|k| (marks[k], widths[k], rows[ROW_WIDTH * k + 4]))
        .collect();
    #[rustfmt::skip]
    assert_eq!(table, [
        (660, 31, 438), (780, 31, 606), (900, 31, 724), (1080, 181, 746), (1440, 511, 1386), (2160, 841, 2560),
        (2880, 1441, 3624), (3600, 1441, 4432), (4320, 1471, 4603), (5040, 2041, 4317), (5760, 1441, 3949),
        (6480, 2151, 3347), (7200, 1431, 2773), (7920, 2131, 2185), (8640, 2851, 2105),
    ]);
    // With the sheet's own half width four of these marks have no value.
    let passes = sweep(minutes, values, marks, &fixed[..used], &mut rows);
    assert!(passes.is_ok());
    assert_eq!(rows.chunks(ROW_WIDTH).filter(|row| row[2] == 0).count(), 4);
}
