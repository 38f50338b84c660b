//! The first mark at or below a limit, and the reading that decides.

use reference::*;

fn no<T>(number: u8, place: u64) -> Result<T, Refusal> {
    Err(Refusal { number, place })
}

const MINUTES: [u16; 4] = [10, 20, 20, 35];
const VALUES: [u16; 4] = [40, 60, 80, 20];

// ------------------------------------------------------ first at or below

#[test]
fn first_of_the_published_sheet() {
    let first = |limit| first_at_most(&MINUTES, &VALUES, &[20, 25, 60], &[10, 15, 20], limit);
    assert_eq!(first(0), Ok((None, 8)));
    assert_eq!(first(57), Ok((None, 8)));
    assert_eq!(first(58), Ok((Some(1), 4)));
    assert_eq!(first(69), Ok((Some(1), 4)));
    assert_eq!(first(70), Ok((Some(0), 3)));
    assert_eq!(first(65535), Ok((Some(0), 3)));
}

/// A missing value is not low, though every present one is at or below 65,535.
#[test]
fn first_is_present() {
    let c9 = |limit| first_at_most(&[50], &[9], &[0, 100], &[1, 1], limit);
    assert_eq!(c9(65535), Ok((None, 2)));
    assert_eq!(c9(0), Ok((None, 2)));
    let c5 = first_at_most(&[10], &[40], &[20], &[10], 65535);
    assert_eq!(c5, Ok((None, 1)));
    assert_eq!(first_at_most(&[], &[], &[5], &[1], 65535), Ok((None, 0)));
    // The first mark has no value, the second one of 0.
    let next = first_at_most(&[50], &[0], &[0, 50], &[1, 1], 0);
    assert_eq!(next, Ok((Some(1), 1)));
}

/// Of several the first, also where the curve rises behind it.
#[test]
fn first_of_several() {
    let minutes = [0, 100, 200, 300, 400];
    let values = [9, 5, 7, 5, 3];
    let first = |limit| first_at_most(&minutes, &values, &[0, 100, 200, 300, 400], &[50; 5], limit);
    assert_eq!(first(9), Ok((Some(0), 1)));
    assert_eq!(first(8), Ok((Some(1), 3)));
    assert_eq!(first(5), Ok((Some(1), 3)));
    assert_eq!(first(4), Ok((Some(4), 9)));
    assert_eq!(first(2), Ok((None, 9)));
}

/// Values behind the right edge of the mark that answers do not count.
#[test]
fn first_looks_no_further() {
    let marks = [20, 25, 60];
    let halves = [10, 15, 20];
    for value in [0, 1, 58, 65535] {
        let values = [40, 60, 80, value];
        let answer = first_at_most(&MINUTES, &values, &marks, &halves, 70);
        assert_eq!(answer, Ok((Some(0), 3)));
    }
}

#[test]
fn first_reports() {
    let ask = |m: &[u16], v: &[u16], z: &[u16], h: &[u32]| first_at_most(m, v, z, h, 65535);
    let mut falling = vec![3u16; 1025];
    falling[1] = 2;
    let ones = [1; 1025];
    let three = &falling[..3];
    // 8, 6, 7, 4, 5, 9, 10, each with the faults of those behind it.
    assert_eq!(ask(&falling, &[], &[], &[]), no(8, 0));
    assert_eq!(ask(&falling, &ones, &[], &[0]), no(8, 0));
    assert_eq!(ask(three, &ones[..3], &[7, 6], &[0]), no(8, 0));
    assert_eq!(ask(&falling, &ones, &[], &[]), no(6, 0));
    assert_eq!(ask(three, &ones[..3], &[5; 513], &[0; 513]), no(6, 0));
    assert_eq!(ask(three, &ones[..3], &[], &[]), no(7, 0));
    assert_eq!(ask(three, &ones[..3], &[7, 6, 8], &[5, 5, 0]), no(4, 1));
    assert_eq!(ask(&[3], &[1], &[7, 8, 7], &[0, 9, 9]), no(5, 2));
    assert_eq!(ask(&[3], &[1], &[7, 7, 7], &[1, 9, 0]), no(9, 2));
    assert_eq!(ask(&[3], &[1], &[7, 7, 7], &[1, 9, 1]), no(10, 1));
    // A fault of the last mark, though mark 0 would answer.
    assert_eq!(ask(&[7], &[1], &[7, 7, 6], &[9, 9, 9]), no(5, 2));
    assert_eq!(ask(&[7], &[1], &[7, 7, 7], &[9, 9, 0]), no(9, 2));
    assert_eq!(ask(&[7], &[1], &[7, 7, 7], &[9, 9, 8]), no(10, 2));
}

/// Values at the sample sheets' marks: both are first low enough at the same
/// mark under one limit, and at another only one is. At the last mark one hangs
/// on its last reading, and the other on none.
#[test]
fn first_of_two_lagers() {
    for (name, at_945, decides) in [("even-fall", Some(10), None), ("afternoon", None, Some(10))] {
        let path = format!("{}/../examples/{name}.sheet", env!("CARGO_MANIFEST_DIR"));
        let sheet = std::fs::read(path).unwrap();
        let (mut minutes, mut values) = ([0; 1024], [0; 1024]);
        let (mut marks, mut halves) = ([0; 512], [0; 512]);
        let counts = read(&sheet, &mut minutes, &mut values, &mut marks, &mut halves);
        let (kept, used) = counts.unwrap();
        let first = |limit| {
            let (m, v) = (&minutes[..kept], &values[..kept]);
            first_at_most(m, v, &marks[..used], &halves[..used], limit)
        };
        let passes = at_945.map_or(17, |_| 16);
        assert_eq!(first(945), Ok((at_945, passes)));
        assert_eq!(first(1000), Ok((Some(10), 16)));
        let (m, v) = (&minutes[..kept], &values[..kept]);
        let last = (marks[used - 1], halves[used - 1]);
        assert_eq!(decisive(m, v, last.0, last.1, 1000), Ok(decides));
    }
}

// ------------------------------------------------------- which one decides

#[test]
fn decisive_cases() {
    let at_20 = |limit| decisive(&MINUTES, &VALUES, 20, 10, limit);
    for limit in [0, 59, 80, 65535] {
        assert_eq!(at_20(limit), Ok(None));
    }
    for limit in [60, 65, 69] {
        assert_eq!(at_20(limit), Ok(Some(2)));
    }
    for limit in [70, 75, 79] {
        assert_eq!(at_20(limit), Ok(Some(1)));
    }
    assert_eq!(decisive(&MINUTES, &VALUES, 25, 15, 65), Ok(Some(3)));

    // One reading, whose removal leaves no value.
    let one = |limit| decisive(&[10], &[40], 10, 5, limit);
    assert_eq!(one(40), Ok(Some(0)));
    assert_eq!(one(65535), Ok(Some(0)));
    assert_eq!(one(39), Ok(None));
    // On the edge it has no weight.
    assert_eq!(decisive(&[10], &[40], 20, 10, 65535), Ok(None));
    // Two alike: none decides alone.
    assert_eq!(decisive(&[10, 10], &[40, 40], 10, 5, 40), Ok(None));
    assert_eq!(decisive(&[], &[], 10, 5, 40), Ok(None));
}

/// The rounded value decides: 5/2 is 2, 8/3 is 3, 6/2 is 3.
#[test]
fn decisive_rounds() {
    let at_0 = |values: &[u16], limit| decisive(&vec![0; values.len()], values, 0, 1, limit);
    assert_eq!(at_0(&[2, 3], 2), Ok(Some(0)));
    assert_eq!(at_0(&[2, 3, 3], 2), Ok(Some(1)));
}

#[test]
fn decisive_reports() {
    let mut falling = vec![3u16; 1025];
    falling[1] = 2;
    let ones = [1; 1025];
    // 8, 6, 4, 9
    assert_eq!(decisive(&falling, &ones[..1024], 5, 0, 0), no(8, 0));
    assert_eq!(decisive(&falling, &ones, 5, 0, 0), no(6, 0));
    assert_eq!(decisive(&falling[..3], &ones[..3], 5, 0, 0), no(4, 1));
    assert_eq!(decisive(&[3; 3], &ones[..3], 5, 0, 0), no(9, 0));
    assert_eq!(decisive(&[3; 3], &ones[..3], 5, 65537, 0), no(9, 0));
}
