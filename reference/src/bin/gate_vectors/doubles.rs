//! Weights and sums as doubles, by their bit patterns.

use crate::calls::{length as lent, sized, MOST_NUMBERS};
use crate::draws::length;
use crate::files::{Answer, Cases};
use reference::exported::DOUBLES;
use reference::generators::random::Random;
use reference::{cell, one_mark, pattern, row_cells, ROW_WIDTH};

impl Cases {
    pub fn doubles(&mut self, weight: u64, number: u64, doubles: usize) -> Answer {
        let numbers = [weight, number, lent(doubles, MOST_NUMBERS)];
        self.case("doubles", &numbers, b"");
        let result = sized(doubles, DOUBLES).map(|()| cell(weight, number).patterns());
        let mut list = vec![pattern(7); doubles];
        let front = result.clone().unwrap_or_default();
        list[..front.len()].copy_from_slice(&front);
        let used = result.map(|patterns| patterns.len() as u64);
        self.answer("doubles", used, b"", vec![list])
    }

    pub fn row_cells(&mut self, row: [u64; ROW_WIDTH]) -> Answer {
        self.case("row cells", &row, b"");
        let lists = row_cells(&row).map(|cell| cell.patterns()).to_vec();
        self.answer("row cells", Ok(0), b"", lists)
    }
}

/// Where cells change, the greatest sums, and the greatest number.
const NUMBERS: [u64; 16] = [
    0,
    1,
    2,
    (1 << 32) - 1,
    1 << 32,
    (1 << 32) + 1,
    (1 << 53) - 1,
    1 << 53,
    (1 << 53) + 1,
    (1 << 53) + (1 << 32) - 1,
    (1 << 53) + (1 << 32),
    (1 << 58) - (1 << 42),
    18_034_464_286_310_400_000,
    (1 << 63) + 1,
    u64::MAX - (1 << 32) + 1,
    u64::MAX,
];

pub fn cases(cases: &mut Cases) {
    numbers(cases);
    rows(cases);
    lengths(cases);
}

/// Each number under weight 0 and above, and as weight and as sum of a row.
#[rustfmt::skip]
fn numbers(cases: &mut Cases) {
    let seven = pattern(7);
    for number in NUMBERS {
        cases.doubles(0, number, DOUBLES).accepted(0, &[seven; 2]);
        for weight in [1, 5, u64::MAX] {
            cases.doubles(weight, number, DOUBLES);
            cases.row_cells([0, 1, weight, number, 7]);
        }
        cases.doubles(number, number, DOUBLES);
        cases.row_cells([3, 4, number, 14000, 70]);
        cases.row_cells([3, 4, 0, number, 70]);
    }
    cases.doubles(5, 0, DOUBLES).accepted(1, &[0, seven]);
    cases.doubles(5, (1 << 53) - 1, DOUBLES).accepted(1, &[0x433f_ffff_ffff_ffff, seven]);
    cases.doubles(5, 1 << 53, DOUBLES).accepted(2, &[0x4340_0000_0000_0000, 0]);
    cases.doubles(5, (1 << 53) + 1, DOUBLES).accepted(2, &[0x4340_0000_0000_0000, 0x3ff0_0000_0000_0000]);
    cases.doubles(5, u64::MAX, DOUBLES).accepted(2, &[0x43ef_ffff_ffe0_0000, 0x41ef_ffff_ffe0_0000]);
}

/// Rows of the question at one mark, and rows made by a caller.
#[rustfmt::skip]
fn rows(cases: &mut Cases) {
    let full = [65535; 1024];
    let windows: [(&[u16], &[u16], u16, u32); 5] = [
        (&[10, 20, 20, 35], &[40, 60, 80, 20], 20, 10),
        (&[10, 20, 20, 35], &[40, 60, 80, 20], 60, 20),
        (&[10], &[40], 20, 10),
        (&[65535], &[65535], 65535, 65536),
        (&full, &full, 65535, 65536),
    ];
    for (minutes, values, mark, half) in windows {
        cases.row_cells(one_mark(minutes, values, mark, half).unwrap());
    }
    cases.row_cells([1, 2, 5, 0, 0]);
    cases.row_cells([1, 2, 0, 9, 65536]);
    cases.row_cells([1, 2, 1 << 53, 3, 0]);
    cases.row_cells([u64::MAX; 5]);
}

/// Lent lists one short, one long, empty and of other lengths.
fn lengths(cases: &mut Cases) {
    for doubles in [0, 1, 3, 4, 8] {
        for (weight, number) in [(0, 0), (5, 0), (5, 1 << 53), (0, 9)] {
            cases.doubles(weight, number, doubles).refused(8, 0);
        }
    }
}

/// A number of any size, often about a power of two.
fn some_number(random: &mut Random) -> u64 {
    match random.below(4) {
        0 => (1u64 << random.below(64))
            .wrapping_add(random.below(5) as u64)
            .wrapping_sub(2),
        1 => random.number() & !0xffff_ffff,
        _ => random.number() >> random.below(64),
    }
}

pub fn random_cases(random: &mut Random, cases: &mut Cases) {
    for _ in 0..120 {
        let weight = random.pick(&[0, 1, 5, 1 << 42, u64::MAX]);
        let number = some_number(random);
        let doubles = length(random, DOUBLES);
        cases.doubles(weight, number, doubles);
        let weight = if random.chance(20) {
            0
        } else {
            some_number(random)
        };
        let sum = some_number(random);
        cases.row_cells([
            random.number(),
            random.number(),
            weight,
            sum,
            random.number(),
        ]);
    }
}
