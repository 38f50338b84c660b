//! The biweight row.

use reference::*;

fn no<T>(number: u8, place: u64) -> Result<T, Refusal> {
    Err(Refusal { number, place })
}

/// The row of one reading of value 7 at this minute, for mark 1,000.
fn one(minute: u16) -> [u64; ROW_WIDTH] {
    biweight(&[minute], &[7], 1000).unwrap()
}

/// The weight at distances 0, 1, 719, 720 and 721, on both sides of the mark.
#[test]
fn weights_by_distance() {
    for (away, weight) in [
        (0, 268_738_560_000),
        (1, 268_737_523_201),
        (360, 151_165_440_000),
        (719, 2_070_721),
    ] {
        let row = [0, 1, weight, 7 * weight, 7];
        assert_eq!(one(1000 + away), row);
        assert_eq!(one(1000 - away), row);
    }
    // On the edge: inside, without weight.
    assert_eq!(one(1720), [0, 1, 0, 0, MISSING]);
    assert_eq!(one(280), [0, 1, 0, 0, MISSING]);
    // Beyond it.
    assert_eq!(one(1721), [0, 0, 0, 0, MISSING]);
    assert_eq!(one(279), [1, 1, 0, 0, MISSING]);
}

/// A mark whose window begins below 0.
#[test]
fn marks_below_the_half_width() {
    assert_eq!(biweight(&[720], &[7], 0), Ok([0, 1, 0, 0, MISSING]));
    let weight = 2_070_721;
    let row = Ok([0, 1, weight, 9 * weight, 9]);
    assert_eq!(biweight(&[0], &[9], 719), row);
    assert_eq!(biweight(&[719], &[9], 0), row);
    assert_eq!(biweight(&[], &[], 5), Ok([0, 0, 0, 0, MISSING]));
}

/// The published readings, far within the window.
#[test]
fn published_readings() {
    let row = biweight(&[10, 20, 20, 35], &[40, 60, 80, 20], 20).unwrap();
    let weights: [u64; 4] = [
        268_634_890_000,
        268_738_560_000,
        268_738_560_000,
        268_505_330_625,
    ];
    assert_eq!(weights[0], (518_400u64 - 100).pow(2));
    assert_eq!(weights[3], (518_400u64 - 225).pow(2));
    assert_eq!(row[..2], [0, 4]);
    assert_eq!(row[2], weights.iter().sum::<u64>());
    let terms = weights.iter().zip([40, 60, 80, 20]);
    assert_eq!(row[3], terms.map(|(w, v)| w * v).sum::<u64>());
    assert_eq!(row[4], 50);
}

/// A half goes to the even neighbour, also where twice the sum is over 2^64.
#[test]
fn halves_to_even() {
    let value = |values: &[u16]| biweight(&vec![9; values.len()], values, 9).unwrap()[4];
    assert_eq!(value(&[2, 3]), 2);
    assert_eq!(value(&[1, 2]), 2);
    assert_eq!(value(&[2, 2, 2, 3]), 2);
    assert_eq!(value(&[65_534, 65_535]), 65_534);
    let mut many = vec![65_534; 1024];
    many[512..].fill(65_535);
    assert_eq!(value(&many), 65_534);
    let mut many = vec![65_533; 1024];
    many[512..].fill(65_534);
    assert_eq!(value(&many), 65_534);
}

#[test]
fn greatest_sum() {
    let row = biweight(&[5; 1024], &[65_535; 1024], 5);
    let greatest = [
        0,
        1024,
        275_188_285_440_000,
        18_034_464_286_310_400_000,
        65_535,
    ];
    assert_eq!(row, Ok(greatest));
}

/// Edges and reports are those of the question at one mark with 720 on each
/// side.
#[test]
fn run_and_reports_of_the_question_at_720() {
    let mut falling = vec![3u16; 1025];
    falling[1] = 2;
    let ones = [1; 1025];
    // 8, 6, 4
    assert_eq!(biweight(&falling, &ones[..1024], 5), no(8, 0));
    assert_eq!(biweight(&[], &[1], 5), no(8, 0));
    assert_eq!(biweight(&falling, &ones, 5), no(6, 0));
    assert_eq!(biweight(&falling[..3], &ones[..3], 5), no(4, 1));
    assert_eq!(biweight(&[1, 1, 0, 5, 4], &ones[..5], 5), no(4, 2));
    assert!(biweight(&[3; 1024], &ones[..1024], 5).is_ok());

    let minutes: Vec<u16> = (0..1000).map(|i| 7 * i).collect();
    let values: Vec<u16> = (0..1000).map(|i| 13 * i).collect();
    for mark in [0, 1, 719, 720, 721, 1440, 3501, 6993, 8000, 65_535] {
        let soft = biweight(&minutes, &values, mark).unwrap();
        let plain = one_mark(&minutes, &values, mark, BIWEIGHT_HALF).unwrap();
        assert_eq!(soft[..2], plain[..2]);
        assert_eq!(soft[4] == MISSING, plain[4] == MISSING);
    }
}

/// The sample sheets of `examples/`: at these marks the softer value beside that of half width 720.
#[test]
fn softer_curves_of_two_lagers() {
    for (name, expected) in [
        (
            "even-fall",
            [
                (13_680, 1340, 1340),
                (13_920, 962, 957),
                (14_400, 942, 941),
                (14_880, 935, 937),
                (15_120, 920, 917),
            ],
        ),
        (
            "afternoon",
            [
                (13_680, 1340, 1340),
                (13_920, 918, 923),
                (14_400, 938, 939),
                (14_880, 945, 943),
                (15_120, 962, 969),
            ],
        ),
    ] {
        let path = format!("{}/../examples/{name}.sheet", env!("CARGO_MANIFEST_DIR"));
        let sheet = std::fs::read(path).unwrap();
        let (mut minutes, mut values) = ([0; 1024], [0; 1024]);
        let (mut marks, mut halves) = ([0; 512], [0; 512]);
        let counts = read(&sheet, &mut minutes, &mut values, &mut marks, &mut halves);
        let (m, v) = (&minutes[..counts.unwrap().0], &values[..counts.unwrap().0]);
        for (mark, soft, plain) in expected {
            assert_eq!(biweight(m, v, mark).unwrap()[4], soft);
            assert_eq!(one_mark(m, v, mark, BIWEIGHT_HALF).unwrap()[4], plain);
        }
    }
}
