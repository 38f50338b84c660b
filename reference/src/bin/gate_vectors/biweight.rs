//! The biweight row.

use crate::calls::{length as lent, listed, sized, MOST_ELEMENTS, MOST_NUMBERS};
use crate::draws::{length, sample_count, LISTS};
use crate::files::{Answer, Cases};
use reference::generators::lists::some_point;
use reference::generators::random::Random;
use reference::{biweight, MISSING, ROW_WIDTH};

impl Cases {
    pub fn biweight(&mut self, minutes: &[u16], values: &[u16], mark: u16, row: usize) -> Answer {
        let mut numbers = listed(minutes, MOST_ELEMENTS);
        numbers.extend(listed(values, MOST_ELEMENTS));
        numbers.extend([mark.into(), lent(row, MOST_NUMBERS)]);
        self.case("biweight", &numbers, b"");
        let result = sized(row, ROW_WIDTH).and_then(|()| biweight(minutes, values, mark));
        let list = result.map_or(vec![7; row], |five| five.to_vec());
        let answer = result.map(|_| 0);
        self.answer("biweight", answer, b"", vec![list])
    }
}

/// A tank sampled once a day, then four times in an afternoon.
const DAYS: [u16; 12] = [
    0, 1440, 2880, 4320, 5760, 7200, 8640, 9900, 9960, 10020, 10080, 11520,
];
const LEVELS: [u16; 12] = [12, 180, 640, 910, 870, 655, 430, 402, 118, 395, 97, 60];

pub fn cases(cases: &mut Cases) {
    distances(cases);
    rows(cases);
    order(cases);
    lengths(cases);
}

/// One reading of value 7 at the distances 0, 1, 719, 720 and 721, on both sides of the mark, and at marks whose window begins below 0.
#[rustfmt::skip]
fn distances(cases: &mut Cases) {
    let mut one = |minute, mark, row: [u64; ROW_WIDTH]| cases.biweight(&[minute], &[7], mark, ROW_WIDTH).accepted(0, &row);
    for (away, weight) in [(0, 268_738_560_000), (1, 268_737_523_201), (719, 2_070_721)] {
        one(1000 + away, 1000, [0, 1, weight, 7 * weight, 7]);
        one(1000 - away, 1000, [0, 1, weight, 7 * weight, 7]);
        one(away, 0, [0, 1, weight, 7 * weight, 7]);
        one(0, away, [0, 1, weight, 7 * weight, 7]);
        one(65_535 - away, 65_535, [0, 1, weight, 7 * weight, 7]);
    }
    // Windows that end at 65,535 and behind it.
    one(65_535, 64_815, [0, 1, 0, 0, MISSING]);
    one(65_535, 64_816, [0, 1, 2_070_721, 14_495_047, 7]);
    one(1720, 1000, [0, 1, 0, 0, MISSING]);
    one(280, 1000, [0, 1, 0, 0, MISSING]);
    one(720, 0, [0, 1, 0, 0, MISSING]);
    one(0, 720, [0, 1, 0, 0, MISSING]);
    one(1721, 1000, [0, 0, 0, 0, MISSING]);
    one(279, 1000, [1, 1, 0, 0, MISSING]);
    one(0, 721, [1, 1, 0, 0, MISSING]);
    one(65_535, 0, [0, 0, 0, 0, MISSING]);
    one(0, 65_535, [1, 1, 0, 0, MISSING]);
}

#[rustfmt::skip]
fn rows(cases: &mut Cases) {
    cases.biweight(&[], &[], 5, ROW_WIDTH).accepted(0, &[0, 0, 0, 0, MISSING]);
    let (m, v) = ([10, 20, 20, 35], [40, 60, 80, 20]);
    cases.biweight(&m, &v, 20, ROW_WIDTH).accepted(0, &[0, 4, 1_074_617_340_625, 53_738_900_612_500, 50]);
    cases.biweight(&m, &v, 755, ROW_WIDTH).accepted(0, &[3, 4, 0, 0, MISSING]);
    cases.biweight(&m, &v, 756, ROW_WIDTH).accepted(0, &[4, 4, 0, 0, MISSING]);

    // Halves over even and odd numbers, and a hair beside them.
    for (values, value) in [([2, 3], 2), ([1, 2], 2), ([0, 1], 0), ([65_534, 65_535], 65_534)] {
        let answer = cases.biweight(&[9, 9], &values, 9, ROW_WIDTH);
        assert_eq!(answer.lists[0][4], value);
    }
    for (values, value) in [([2, 3], 3), ([3, 2], 2), ([1, 2], 2), ([2, 1], 1)] {
        let answer = cases.biweight(&[9, 10], &values, 10, ROW_WIDTH);
        assert_eq!(answer.lists[0][4], value);
    }

    // As many readings as there may be: the greatest sum, and a half whose doubled sum has 65 bits.
    let greatest = [0, 1024, 275_188_285_440_000, 18_034_464_286_310_400_000, 65_535];
    cases.biweight(&[5; 1024], &[65_535; 1024], 5, ROW_WIDTH).accepted(0, &greatest);
    let mut half = [65_533; 1024];
    half[512..].fill(65_534);
    let answer = cases.biweight(&[5; 1024], &half, 5, ROW_WIDTH);
    assert_eq!(answer.lists[0][4], 65_534);
    half[..512].fill(65_535);
    half.reverse();
    let row = [0, 1024, 275_188_285_440_000, 18_034_326_692_167_680_000, 65_534];
    cases.biweight(&[5; 1024], &half, 5, ROW_WIDTH).accepted(0, &row);
    // From 17 readings at the mark on the weight is over that of any other row.
    for count in [16, 17] {
        let weight = 268_738_560_000 * count as u64;
        let row = [0, count as u64, weight, 65_535 * weight, 65_535];
        cases.biweight(&vec![5; count], &vec![65_535; count], 5, ROW_WIDTH).accepted(0, &row);
    }
    let every: Vec<u16> = (0..1024).map(|i| 2 * i).collect();
    for mark in [0, 719, 720, 1024, 1440, 2046] {
        cases.biweight(&every, &[65_535; 1024], mark, ROW_WIDTH);
    }

    // Days, with marks on and beside both edges.
    for mark in [0, 1, 719, 720, 721, 2160, 5000, 7920, 9359, 9360, 9361, 10_000, 10_799, 10_800, 12_240, 12_241, 65_535] {
        cases.biweight(&DAYS, &LEVELS, mark, ROW_WIDTH);
    }
}

/// Each case has the fault of its report and the faults of those that come later in the call's order.
#[rustfmt::skip]
fn order(cases: &mut Cases) {
    let mut falling = vec![3; 1025];
    falling[1] = 2;
    let ones = [1; 1025];
    let three = &falling[..3];
    // 8, 6, 4; 8 first for the length of the row.
    cases.biweight(three, &ones[..3], 5, ROW_WIDTH - 1).refused(8, 0);
    cases.biweight(&falling, &ones[..1024], 5, ROW_WIDTH).refused(8, 0);
    cases.biweight(&[], &[1], 5, ROW_WIDTH).refused(8, 0);
    cases.biweight(&[1], &[1, 1], 5, ROW_WIDTH).refused(8, 0);
    cases.biweight(&falling, &ones, 5, ROW_WIDTH).refused(6, 0);
    cases.biweight(&ones, &ones, 5, ROW_WIDTH).refused(6, 0);
    cases.biweight(three, &ones[..3], 5, ROW_WIDTH).refused(4, 1);
    cases.biweight(&[1, 1, 0, 5, 4], &ones[..5], 5, ROW_WIDTH).refused(4, 2);
    cases.biweight(&ones[..1024], &ones[..1024], 1, ROW_WIDTH);
}

/// The lent row one short and long, alone and with other faults.
fn lengths(cases: &mut Cases) {
    for row in [ROW_WIDTH - 1, ROW_WIDTH + 1, 0, 8] {
        cases.biweight(&[1, 2], &[3, 4], 5, row).refused(8, 0);
        cases.biweight(&[2, 1], &[3, 4], 5, row).refused(8, 0);
        cases.biweight(&[1, 2], &[3], 5, row).refused(8, 0);
    }
}

/// A mark, often one with a reading on an edge of its window or beside it.
fn near_edge(random: &mut Random, minutes: &[u16]) -> u16 {
    if minutes.is_empty() || random.chance(40) {
        return some_point(random, minutes);
    }
    let away = random.pick(&[-721, -720, -719, -1, 0, 1, 719, 720, 721]);
    (i64::from(random.pick(minutes)) + away).clamp(0, 65_535) as u16
}

pub fn random_cases(cases: &mut Cases) {
    // Draws of their own, so that those of the other calls stay.
    let random = &mut Random(28);
    for _ in 0..120 {
        let count = sample_count(random);
        let mut minutes = LISTS.ordered_minutes(random, count);
        let mut values = LISTS.some_values(random, count);
        let mark = near_edge(random, &minutes);
        while random.chance(15) {
            LISTS.damage_samples(random, &mut minutes, &mut values);
        }
        cases.biweight(&minutes, &values, mark, length(random, ROW_WIDTH));
    }
}
