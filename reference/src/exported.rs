//! What the exported calls have beside the calls' meaning: one number for an
//! answer, and lists of one length only.

use crate::{MOST_MARKS, MOST_READINGS};

/// An answer is so many times its detail, plus its number.
pub const DETAIL_UNIT: u64 = 256;

/// The numbers of a run's bounds, left and right.
pub const BOUNDS: usize = 2;

/// The numbers of a record: left, right, the six sums and the passes.
pub const RECORD: usize = 9;

/// The numbers of the reader's counts: kept readings and marks.
pub const COUNTS: usize = 2;

/// The lengths of the reader's lists: minutes, values, marks, half widths,
/// counts.
pub const READER: [usize; 5] = [MOST_READINGS, MOST_READINGS, MOST_MARKS, MOST_MARKS, COUNTS];

/// The numbers of the counts of a sheet of either kind: kept readings, marks
/// and the kind, 0 plain and 1 with ranges.
pub const RANGE_COUNTS: usize = 3;

/// The lengths of that reader's lists: minutes, lows, highs, marks, half
/// widths, counts.
pub const RANGE_READER: [usize; 6] = [
    MOST_READINGS,
    MOST_READINGS,
    MOST_READINGS,
    MOST_MARKS,
    MOST_MARKS,
    RANGE_COUNTS,
];

/// The numbers of an answer that is a position or none.
pub const ANSWER: usize = 1;

/// The number that stands for no position.
pub const NO_POSITION: u64 = u64::MAX;

/// The numbers of a parting: the mark's position, left and right.
pub const PARTING: usize = 3;

/// The doubles that a weight or a sum is stored in.
pub const DOUBLES: usize = 2;
