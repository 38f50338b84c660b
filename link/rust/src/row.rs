//! Rows: of readings, whose value has 16 bits or is missing, and of a record, whose value may be any.

use crate::{MAX_SUM, MAX_WEIGHT, ROW_WIDTH};
use core::fmt;
use core::iter::FusedIterator;

/// The estimate at a point ("row") of readings.
///
/// Its value is `None` exactly if its weight is 0. It can be made only of numbers that are within what a
/// row of readings has: a weight up to [`MAX_WEIGHT`], a sum up to [`MAX_SUM`], and a value of 16 bits or
/// no weight. That is all that is looked at: [`RecordRow`] says what a row must have come by. The rows of
/// [`crate::biweight`] have greater numbers and come from that call alone.
///
/// ```
/// use tankcurve::{Estimate, MAX_SUM, MAX_WEIGHT};
/// let row = Estimate::try_from([0, 3, 200, 14_000, 70]).unwrap();
/// assert_eq!((row.value(), row.raw_value()), (Some(70), 70));
/// let missing = Estimate::try_from([4, 4, 0, 0, tankcurve::MISSING]).unwrap();
/// assert_eq!((missing.value(), missing.raw_value()), (None, 65_536));
/// assert!(Estimate::try_from([0, 3, 200, 14_000, 65_536]).is_err());
/// assert!(Estimate::try_from([0, 3, MAX_WEIGHT + 1, 14_000, 0]).is_err());
/// assert!(Estimate::try_from([0, 3, MAX_WEIGHT, MAX_SUM + 1, 65_535]).is_err());
/// ```
#[derive(Clone, Copy, Debug, PartialEq, Eq)]
#[must_use]
pub struct Estimate {
    row: RecordRow,
    value: Option<u16>,
}

impl Estimate {
    /// The row, if weight and sum are at most these and a value that is present has 16 bits.
    pub(crate) fn within(
        row: RecordRow,
        most_weight: u64,
        most_sum: u64,
    ) -> Result<Estimate, NoEstimate> {
        if row.weight > most_weight || row.sum > most_sum {
            return Err(NoEstimate);
        }
        let value = match row.value() {
            Some(value) => Some(u16::try_from(value).map_err(|_| NoEstimate)?),
            None => None,
        };
        Ok(Estimate { row, value })
    }

    /// How many samples lie before the window.
    ///
    /// ```
    /// let row = tankcurve::evaluate(&[5, 9], &[2, 3], 9, 1).unwrap();
    /// assert_eq!(row.left(), 1);
    /// ```
    #[must_use]
    pub fn left(&self) -> u64 {
        self.row.left
    }

    /// How many samples lie before the window's right edge or on it.
    ///
    /// ```
    /// let row = tankcurve::evaluate(&[5, 9], &[2, 3], 9, 1).unwrap();
    /// assert_eq!(row.right(), 2);
    /// ```
    #[must_use]
    pub fn right(&self) -> u64 {
        self.row.right
    }

    /// The sum of the weights.
    ///
    /// ```
    /// let row = tankcurve::evaluate(&[5, 9], &[2, 3], 9, 5).unwrap();
    /// // 25 − 16 of the first reading and 25 of the second
    /// assert_eq!(row.weight(), 34);
    /// ```
    #[must_use]
    pub fn weight(&self) -> u64 {
        self.row.weight
    }

    /// The sum of the weights, each times its sample's value.
    ///
    /// ```
    /// let row = tankcurve::evaluate(&[5, 9], &[2, 3], 9, 5).unwrap();
    /// assert_eq!(row.sum(), 9 * 2 + 25 * 3);
    /// ```
    #[must_use]
    pub fn sum(&self) -> u64 {
        self.row.sum
    }

    /// The sum divided by the weight to the nearest whole number, a half to the even neighbour; `None`, missing,
    /// if the weight is 0.
    ///
    /// ```
    /// let (minutes, values) = ([0, 0], [2, 3]);
    /// assert_eq!(tankcurve::evaluate(&minutes, &values, 0, 1).unwrap().value(), Some(2));
    /// assert_eq!(tankcurve::evaluate(&minutes, &values, 9, 1).unwrap().value(), None);
    /// ```
    #[must_use]
    pub fn value(&self) -> Option<u16> {
        self.value
    }

    /// The value as the call gave it, with [`crate::MISSING`] for a missing one.
    ///
    /// ```
    /// let missing = tankcurve::evaluate(&[], &[], 9, 1).unwrap();
    /// assert_eq!(missing.raw_value(), tankcurve::MISSING);
    /// ```
    #[must_use]
    pub fn raw_value(&self) -> u64 {
        self.row.value
    }
}

impl TryFrom<[u64; ROW_WIDTH]> for Estimate {
    type Error = NoEstimate;

    fn try_from(numbers: [u64; ROW_WIDTH]) -> Result<Estimate, NoEstimate> {
        Estimate::try_from(RecordRow::from(numbers))
    }
}

impl TryFrom<RecordRow> for Estimate {
    type Error = NoEstimate;

    fn try_from(row: RecordRow) -> Result<Estimate, NoEstimate> {
        Estimate::within(row, MAX_WEIGHT, MAX_SUM)
    }
}

impl From<Estimate> for [u64; ROW_WIDTH] {
    fn from(estimate: Estimate) -> [u64; ROW_WIDTH] {
        estimate.row.into()
    }
}

/// That numbers are no rows of readings: a weight or a sum is over what readings give, or a value with a
/// weight is over 65,535, or the list ends in the midst of a row.
///
/// ```
/// use tankcurve::{Estimate, NoEstimate};
/// assert_eq!(Estimate::try_from([0, 1, u64::MAX, u64::MAX, 1]), Err(NoEstimate));
/// assert_eq!(NoEstimate.to_string(), "no row of readings");
/// ```
#[derive(Clone, Copy, Debug, PartialEq, Eq)]
pub struct NoEstimate;

impl fmt::Display for NoEstimate {
    fn fmt(&self, f: &mut fmt::Formatter<'_>) -> fmt::Result {
        f.write_str("no row of readings")
    }
}

impl core::error::Error for NoEstimate {}

/// The row of a running record of any origin; its value has 64 bits.
///
/// It is the row of readings if the record is one of steps and turns from a fresh record, over the same
/// ordered minutes and with no accepted step whose edges lie back, and if point and bandwidth are those of
/// the last accepted step or turn; the conversion to [`Estimate`] then succeeds. Of any other row it tells only some: those
/// whose weight or sum has wrapped around, whose value often is 0 or 1 and reads as clean beer.
///
/// ```
/// # fn main() -> Result<(), tankcurve::Error> {
/// use tankcurve::{Estimate, RunningSums};
/// // No readings give these sums.
/// let foreign = RunningSums { s00: 1, s01: 70_000, ..RunningSums::default() };
/// let row = foreign.row(0, 1)?;
/// assert_eq!(row.value(), Some(70_000));
/// assert!(Estimate::try_from(row).is_err());
/// // The record of point 20 and bandwidth 10, asked at another point.
/// let mut record = RunningSums::default();
/// tankcurve::advance(&mut record, &[10, 20, 20, 35], &[40, 60, 80, 20], 20, 10)?;
/// let elsewhere = record.row(60, 20)?;
/// assert_eq!(elsewhere.value(), Some(1));
/// assert!(Estimate::try_from(elsewhere).is_err());
/// # Ok(())
/// # }
/// ```
#[derive(Clone, Copy, Debug, PartialEq, Eq)]
#[must_use]
pub struct RecordRow {
    left: u64,
    right: u64,
    weight: u64,
    sum: u64,
    value: u64,
}

impl RecordRow {
    /// The record's left.
    ///
    /// ```
    /// assert_eq!(tankcurve::RecordRow::from([3, 7, 200, 14_000, 70]).left(), 3);
    /// ```
    #[must_use]
    pub fn left(&self) -> u64 {
        self.left
    }

    /// The record's right.
    ///
    /// ```
    /// assert_eq!(tankcurve::RecordRow::from([3, 7, 200, 14_000, 70]).right(), 7);
    /// ```
    #[must_use]
    pub fn right(&self) -> u64 {
        self.right
    }

    /// The sum of the weights, modulo 2^64.
    ///
    /// ```
    /// assert_eq!(tankcurve::RecordRow::from([3, 7, 200, 14_000, 70]).weight(), 200);
    /// ```
    #[must_use]
    pub fn weight(&self) -> u64 {
        self.weight
    }

    /// The sum of the weights, each times its sample's value, modulo 2^64.
    ///
    /// ```
    /// assert_eq!(tankcurve::RecordRow::from([3, 7, 200, 14_000, 70]).sum(), 14_000);
    /// ```
    #[must_use]
    pub fn sum(&self) -> u64 {
        self.sum
    }

    /// Whether the row has a value: its weight is not 0.
    ///
    /// ```
    /// use tankcurve::RecordRow;
    /// assert!(RecordRow::from([0, 1, 1, 65_536, 65_536]).present());
    /// assert!(!RecordRow::from([0, 1, 0, 0, 65_536]).present());
    /// ```
    #[must_use]
    pub fn present(&self) -> bool {
        self.weight != 0
    }

    /// The sum divided by the weight to the nearest whole number, a half to the even neighbour; `None`, missing,
    /// if the weight is 0. Convert the row to [`Estimate`] for a value of 16 bits.
    ///
    /// ```
    /// use tankcurve::RecordRow;
    /// assert_eq!(RecordRow::from([0, 1, 1, 65_536, 65_536]).value(), Some(65_536));
    /// assert_eq!(RecordRow::from([0, 1, 0, 0, 65_536]).value(), None);
    /// ```
    #[must_use]
    pub fn value(&self) -> Option<u64> {
        self.present().then_some(self.value)
    }

    /// The value as the call gave it: [`crate::MISSING`] if the weight is 0, which [`RecordRow::present`]
    /// tells and this number does not.
    ///
    /// ```
    /// use tankcurve::RecordRow;
    /// assert_eq!(RecordRow::from([0, 1, 0, 0, 65_536]).raw_value(), 65_536);
    /// ```
    #[must_use]
    pub fn raw_value(&self) -> u64 {
        self.value
    }
}

impl From<[u64; ROW_WIDTH]> for RecordRow {
    fn from([left, right, weight, sum, value]: [u64; ROW_WIDTH]) -> RecordRow {
        RecordRow {
            left,
            right,
            weight,
            sum,
            value,
        }
    }
}

impl From<RecordRow> for [u64; ROW_WIDTH] {
    fn from(row: RecordRow) -> [u64; ROW_WIDTH] {
        [row.left, row.right, row.weight, row.sum, row.value]
    }
}

/// The rows of readings in a list of numbers, one after the other.
///
/// ```
/// use tankcurve::Rows;
/// let numbers = [0, 3, 200, 14_000, 70, 4, 4, 0, 0, 65_536];
/// let rows = Rows::try_from(&numbers[..]).unwrap();
/// assert_eq!(rows.len(), 2);
/// assert_eq!(rows.map(|row| row.value()).last(), Some(None));
/// // A list that ends in the midst of a row.
/// assert!(Rows::try_from(&numbers[..9]).is_err());
/// ```
#[derive(Clone, Debug)]
#[must_use]
pub struct Rows<'a> {
    /// Whole rows, of which each is an estimate.
    rest: &'a [u64],
}

impl<'a> TryFrom<&'a [u64]> for Rows<'a> {
    type Error = NoEstimate;

    fn try_from(numbers: &'a [u64]) -> Result<Rows<'a>, NoEstimate> {
        let mut rest = numbers;
        while let Some((row, behind)) = rest.split_first_chunk() {
            let _ = Estimate::try_from(*row)?;
            rest = behind;
        }
        if rest.is_empty() {
            Ok(Rows { rest: numbers })
        } else {
            Err(NoEstimate)
        }
    }
}

impl Iterator for Rows<'_> {
    type Item = Estimate;

    fn next(&mut self) -> Option<Estimate> {
        let (row, behind) = self.rest.split_first_chunk()?;
        self.rest = behind;
        Estimate::try_from(*row).ok()
    }

    fn size_hint(&self) -> (usize, Option<usize>) {
        let count = self.rest.len() / ROW_WIDTH;
        (count, Some(count))
    }
}

impl ExactSizeIterator for Rows<'_> {}

impl FusedIterator for Rows<'_> {}
