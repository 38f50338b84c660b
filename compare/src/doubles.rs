//! Weights and sums as doubles: each lent to the export and to the second implementation, every double
//! compared by its bit pattern, and the number had back in whole numbers.

use crate::calls::{code, same, typed, WRONG_LENGTH};
use crate::lists::{sample_count, LISTS};
use crate::tally::Tally;
use reference::exported::DOUBLES;
use reference::generators::random::Random;
use reference::ROW_WIDTH;
use tankcurve::{slices, Cell};

/// The first difference, with its case.
type Found = Result<(), String>;

/// How many doubles stand before a lent list and how many behind it.
const GUARD: usize = 8;

/// The call, with its tally.
pub struct Cells {
    patterns: Random,
    doubles: Tally,
}

/// A typed cell, its doubles as bit patterns.
fn by_patterns(cell: Cell) -> reference::Cell {
    match cell {
        Cell::Empty => reference::Cell::Empty,
        Cell::One(double) => reference::Cell::One(double.to_bits()),
        Cell::Pair { high, low } => reference::Cell::Pair(high.to_bits(), low.to_bits()),
    }
}

/// The number that a cell stands for, as a caller has it back.
fn had_back(cell: Cell) -> u128 {
    match cell {
        Cell::Empty => 0,
        Cell::One(double) => double as u128,
        Cell::Pair { high, low } => high as u128 + low as u128,
    }
}

impl Cells {
    pub fn new() -> Cells {
        Cells {
            patterns: Random(3),
            doubles: Tally::new("doubles", &[8]),
        }
    }

    pub fn tallies(&self) -> [&Tally; 1] {
        [&self.doubles]
    }

    /// One number, with a list of so many doubles that hold any bit patterns.
    pub fn doubles(&mut self, weight: u64, number: u64, length: usize) -> Found {
        let expected = reference::cell(weight, number);
        let used = if length == DOUBLES {
            expected.patterns()
        } else {
            vec![]
        };
        let answer = if length == DOUBLES {
            (0, used.len() as u64)
        } else {
            WRONG_LENGTH
        };
        let mut after: Vec<u64> = (0..length + 2 * GUARD)
            .map(|_| self.patterns.number())
            .collect();
        let mut lent: Vec<f64> = after.iter().map(|&bits| f64::from_bits(bits)).collect();
        after[GUARD..GUARD + used.len()].copy_from_slice(&used);
        self.doubles.count(answer.0);
        let compared = || -> Found {
            let got = slices::doubles(weight, number, &mut lent[GUARD..GUARD + length]);
            same("returned", code(answer), got)?;
            let bits: Vec<u64> = lent.iter().map(|double| double.to_bits()).collect();
            same("doubles, among others", after, bits)?;
            let got = typed(tankcurve::doubles(weight, number));
            same("typed", Ok(expected), got.map(by_patterns))?;
            if weight != 0 || number == 0 {
                same("had back", Ok(u128::from(number)), got.map(had_back))?;
            }
            let back = if weight == 0 { 0 } else { number.into() };
            same(
                "second implementation, had back",
                Some(back),
                expected.had_back(),
            )
        };
        compared().map_err(|difference| {
            format!(
                "doubles: {difference}\nthe case:\n    weight = {weight}\n    number = {number}\n    length = {length}"
            )
        })
    }

    /// Both numbers of a row.
    fn row(&mut self, row: [u64; ROW_WIDTH]) -> Found {
        let cells = [
            tankcurve::doubles(row[2], row[2]),
            tankcurve::doubles(row[2], row[3]),
        ];
        let cells = cells.map(|cell| typed(cell).map(by_patterns));
        same("row", reference::row_cells(&row).map(Ok), cells)?;
        self.doubles(row[2], row[2], DOUBLES)?;
        self.doubles(row[2], row[3], DOUBLES)
    }
}

pub fn doubles(cells: &mut Cells) -> Found {
    let random = &mut Random(13);
    // About each power of two, and the multiples of 2^32 about the greatest number.
    for place in 0..64 {
        for by in -2..=2 {
            for number in [1 << place, 3 << place, !0 << place] {
                let number = u64::wrapping_add_signed(number, by);
                for weight in [0, 1, 5, number, u64::MAX] {
                    cells.doubles(weight, number, DOUBLES)?;
                }
            }
        }
    }
    for (weight, number) in [(0, 0), (0, 9), (5, 0), (5, 1 << 53), (5, u64::MAX)] {
        for length in [0, 1, 2, 3, 8] {
            cells.doubles(weight, number, length)?;
        }
    }
    for _ in 0..40_000 {
        let weight = random.number() >> random.below(65).min(63);
        let number = match random.below(3) {
            0 => random.number() & (!0 << random.below(64)),
            _ => random.number() >> random.below(64),
        };
        let weight = if random.chance(10) { 0 } else { weight };
        let length = if random.chance(3) {
            random.below(5)
        } else {
            DOUBLES
        };
        cells.doubles(weight, number, length)?;
    }
    // Rows of the question at one mark: the number of each is had back.
    for _ in 0..10_000 {
        let count = sample_count(random);
        let minutes = LISTS.ordered_minutes(random, count);
        let values = LISTS.some_values(random, count);
        let (points, bandwidths) = LISTS.fit_points(random, &minutes, 1);
        let row = reference::one_mark(&minutes, &values, points[0], bandwidths[0]);
        let row = row.map_err(|refusal| format!("doubles: {refusal:?}"))?;
        same("no sum without weight", true, row[2] != 0 || row[3] == 0)?;
        cells.row(row)?;
    }
    Ok(())
}
