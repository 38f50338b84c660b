//! Weights and sums for a spreadsheet, whose cells are doubles.

use crate::ROW_WIDTH;

/// Numbers below this are one double [Sums for the spreadsheet].
pub const ONE_DOUBLE: u64 = 1 << 53;

/// The low part of a pair is the remainder by this [Sums for the spreadsheet].
pub const LOW_PART: u64 = 1 << 32;

/// A weight or a sum as doubles, by their bit patterns: none, one, or the high
/// part and the low part [Sums for the spreadsheet].
#[derive(Clone, Copy, Debug, PartialEq, Eq)]
pub enum Cell {
    Empty,
    One(u64),
    Pair(u64, u64),
}

/// The bit pattern of the double that is this number: the place of the leading
/// binary digit, with 1,023 added, in front of the 52 digits behind it. A number
/// with more digits than a double has none.
pub fn pattern(number: u64) -> u64 {
    if number == 0 {
        return 0;
    }
    let place = u64::BITS - 1 - number.leading_zeros();
    let behind = u128::from(number) - (1 << place);
    let digits = behind << 52 >> place;
    assert_eq!(digits << place, behind << 52, "{number} is no double");
    (1023 + u64::from(place)) << 52 | digits as u64
}

/// The whole number that a bit pattern stands for; none where it stands for a
/// fraction, for anything below 0, for -0, or for no number.
pub fn whole(pattern: u64) -> Option<u128> {
    if pattern == 0 {
        return Some(0);
    }
    let place = (pattern >> 52).checked_sub(1023)?;
    let digits = u128::from(pattern % (1 << 52)) + (1 << 52);
    // Below 2^64: a sign, an infinity or no number has a greater place.
    if place >= 64 || (digits << place) % (1 << 52) != 0 {
        return None;
    }
    Some((digits << place) >> 52)
}

impl Cell {
    /// The bit patterns in their order.
    pub fn patterns(self) -> Vec<u64> {
        match self {
            Cell::Empty => vec![],
            Cell::One(double) => vec![double],
            Cell::Pair(high, low) => vec![high, low],
        }
    }

    /// The number that was handed over, 0 for an empty cell: the parts are added
    /// as whole numbers.
    pub fn had_back(self) -> Option<u128> {
        self.patterns().into_iter().map(whole).sum()
    }
}

/// What a weight or sum of a row with this weight is handed over as
/// [Sums for the spreadsheet].
pub fn cell(weight: u64, number: u64) -> Cell {
    if weight == 0 {
        Cell::Empty
    } else if number < ONE_DOUBLE {
        Cell::One(pattern(number))
    } else {
        let low = number % LOW_PART;
        Cell::Pair(pattern(number - low), pattern(low))
    }
}

/// The weight and the sum of a row [Sums for the spreadsheet].
pub fn row_cells(row: &[u64; ROW_WIDTH]) -> [Cell; 2] {
    [cell(row[2], row[2]), cell(row[2], row[3])]
}
