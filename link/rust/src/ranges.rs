//! Readings known as ranges: each value lies between a low and a high.

use crate::row::{Estimate, NoEstimate};
use crate::{report, slices, Error, MAX_POINTS, MAX_SAMPLES, ROW_WIDTH};
use core::iter::FusedIterator;

/// How many numbers a row over ranges has: left, right, weight, low sum, high sum, low value, high value.
///
/// ```
/// let row = [0; tankcurve::RANGE_ROW_WIDTH];
/// assert!(tankcurve::RangeEstimate::try_from(row).is_ok());
/// ```
pub const RANGE_ROW_WIDTH: usize = 7;

/// The kind of a sheet, which its second names line alone tells.
///
/// ```
/// use tankcurve::{Kind, MAX_POINTS, MAX_SAMPLES};
/// let (mut minutes, mut lows, mut highs) = ([0; MAX_SAMPLES], [0; MAX_SAMPLES], [0; MAX_SAMPLES]);
/// let (mut points, mut bandwidths) = ([0; MAX_POINTS], [0; MAX_POINTS]);
/// let mut kind = |sheet: &str| {
///     tankcurve::read_ranges(
///         sheet.as_bytes(), &mut minutes, &mut lows, &mut highs, &mut points, &mut bandwidths,
///     )
///     .map(|counts| counts.kind)
/// };
/// assert_eq!(kind("mark,half\n5,2\n\nminute,inj,vdk\n"), Ok(Kind::Plain));
/// assert_eq!(kind("mark,half\n5,2\n\nminute,inj,low,high\n"), Ok(Kind::Ranges));
/// ```
#[derive(Clone, Copy, Debug, PartialEq, Eq)]
pub enum Kind {
    /// `minute,inj,vdk`: each reading has a value, which stands as low and high.
    Plain,
    /// `minute,inj,low,high`: each reading has a range.
    Ranges,
}

/// How many samples and points a sheet has, and its kind.
///
/// ```
/// use tankcurve::{Kind, RangeCounts, MAX_POINTS, MAX_SAMPLES};
/// let used = tankcurve::read_ranges(
///     b"mark,half\n20,10\n\nminute,inj,low,high\n10,3,40,40\n11,3,0,41\n",
///     &mut [0; MAX_SAMPLES],
///     &mut [0; MAX_SAMPLES],
///     &mut [0; MAX_SAMPLES],
///     &mut [0; MAX_POINTS],
///     &mut [0; MAX_POINTS],
/// );
/// assert_eq!(used, Ok(RangeCounts { samples: 2, points: 1, kind: Kind::Ranges }));
/// ```
#[derive(Clone, Copy, Debug, PartialEq, Eq)]
pub struct RangeCounts {
    /// The kept samples.
    pub samples: u64,
    /// The points.
    pub points: u64,
    /// The kind.
    pub kind: Kind,
}

/// The estimate at a point ("row") over ranges: two rows of readings with the same left, right and weight, one of
/// all lows and one of all highs. However the true values lie in their ranges, sum and value of their row lie
/// between. Both values are missing exactly if the weight is 0.
///
/// It can be made only of numbers of which each row is an [`Estimate`] and neither the low sum nor the low value
/// is above the high one.
///
/// ```
/// use tankcurve::RangeEstimate;
/// let row = RangeEstimate::try_from([0, 3, 200, 8_000, 14_000, 40, 70]).unwrap();
/// assert_eq!((row.sums(), row.values()), ((8_000, 14_000), Some((40, 70))));
/// let missing = RangeEstimate::try_from([4, 4, 0, 0, 0, 65_536, 65_536]).unwrap();
/// assert_eq!(missing.values(), None);
/// assert!(RangeEstimate::try_from([0, 3, 200, 14_000, 8_000, 40, 70]).is_err());
/// assert!(RangeEstimate::try_from([0, 3, 200, 8_000, 14_000, 70, 40]).is_err());
/// assert!(RangeEstimate::try_from([0, 3, 200, 8_000, 14_000, 40, 65_536]).is_err());
/// ```
#[derive(Clone, Copy, Debug, PartialEq, Eq)]
#[must_use]
pub struct RangeEstimate {
    low: Estimate,
    high: Estimate,
}

impl RangeEstimate {
    /// How many samples lie before the window.
    ///
    /// ```
    /// let row = tankcurve::RangeEstimate::try_from([1, 3, 200, 8_000, 14_000, 40, 70]).unwrap();
    /// assert_eq!(row.left(), 1);
    /// ```
    #[must_use]
    pub fn left(&self) -> u64 {
        self.low.left()
    }

    /// How many samples lie before the window's right edge or on it.
    ///
    /// ```
    /// let row = tankcurve::RangeEstimate::try_from([1, 3, 200, 8_000, 14_000, 40, 70]).unwrap();
    /// assert_eq!(row.right(), 3);
    /// ```
    #[must_use]
    pub fn right(&self) -> u64 {
        self.low.right()
    }

    /// The sum of the weights.
    ///
    /// ```
    /// let row = tankcurve::RangeEstimate::try_from([1, 3, 200, 8_000, 14_000, 40, 70]).unwrap();
    /// assert_eq!(row.weight(), 200);
    /// ```
    #[must_use]
    pub fn weight(&self) -> u64 {
        self.low.weight()
    }

    /// The sums of all lows and of all highs, each times its weight.
    ///
    /// ```
    /// let row = tankcurve::RangeEstimate::try_from([1, 3, 200, 8_000, 14_000, 40, 70]).unwrap();
    /// assert_eq!(row.sums(), (8_000, 14_000));
    /// ```
    #[must_use]
    pub fn sums(&self) -> (u64, u64) {
        (self.low.sum(), self.high.sum())
    }

    /// The lowest and the highest value, each its sum divided by the weight to the nearest whole number, a half to
    /// the even neighbour; `None`, missing, if the weight is 0.
    ///
    /// ```
    /// let row = tankcurve::RangeEstimate::try_from([1, 3, 200, 8_000, 14_000, 40, 70]).unwrap();
    /// assert_eq!(row.values(), Some((40, 70)));
    /// ```
    #[must_use]
    pub fn values(&self) -> Option<(u16, u16)> {
        self.low.value().zip(self.high.value())
    }

    /// The row of all lows.
    ///
    /// ```
    /// let row = tankcurve::RangeEstimate::try_from([1, 3, 200, 8_000, 14_000, 40, 70]).unwrap();
    /// assert_eq!(Ok(row.low()), tankcurve::Estimate::try_from([1, 3, 200, 8_000, 40]));
    /// ```
    pub fn low(&self) -> Estimate {
        self.low
    }

    /// The row of all highs.
    ///
    /// ```
    /// let row = tankcurve::RangeEstimate::try_from([1, 3, 200, 8_000, 14_000, 40, 70]).unwrap();
    /// assert_eq!(Ok(row.high()), tankcurve::Estimate::try_from([1, 3, 200, 14_000, 70]));
    /// ```
    pub fn high(&self) -> Estimate {
        self.high
    }
}

impl TryFrom<[u64; RANGE_ROW_WIDTH]> for RangeEstimate {
    type Error = NoEstimate;

    fn try_from(
        [left, right, weight, low_sum, high_sum, low_value, high_value]: [u64; RANGE_ROW_WIDTH],
    ) -> Result<RangeEstimate, NoEstimate> {
        let row = |sum, value| Estimate::try_from([left, right, weight, sum, value]);
        let (low, high) = (row(low_sum, low_value)?, row(high_sum, high_value)?);
        if low_sum > high_sum || low_value > high_value {
            return Err(NoEstimate);
        }
        Ok(RangeEstimate { low, high })
    }
}

impl From<RangeEstimate> for [u64; RANGE_ROW_WIDTH] {
    fn from(estimate: RangeEstimate) -> [u64; RANGE_ROW_WIDTH] {
        let [left, right, weight, low_sum, low_value] = <[u64; ROW_WIDTH]>::from(estimate.low);
        let high = estimate.high;
        let (high_sum, high_value) = (high.sum(), high.raw_value());
        [
            left, right, weight, low_sum, high_sum, low_value, high_value,
        ]
    }
}

/// The rows over ranges in a list of numbers, one after the other.
///
/// ```
/// use tankcurve::RangeRows;
/// let numbers = [0, 3, 200, 8_000, 14_000, 40, 70, 4, 4, 0, 0, 0, 65_536, 65_536];
/// let rows = RangeRows::try_from(&numbers[..]).unwrap();
/// assert_eq!(rows.len(), 2);
/// assert_eq!(rows.map(|row| row.values()).last(), Some(None));
/// // A list that ends in the midst of a row.
/// assert!(RangeRows::try_from(&numbers[..13]).is_err());
/// ```
#[derive(Clone, Debug)]
#[must_use]
pub struct RangeRows<'a> {
    /// Whole rows, of which each is an estimate.
    rest: &'a [u64],
}

impl<'a> TryFrom<&'a [u64]> for RangeRows<'a> {
    type Error = NoEstimate;

    fn try_from(numbers: &'a [u64]) -> Result<RangeRows<'a>, NoEstimate> {
        let mut rest = numbers;
        while let Some((row, behind)) = rest.split_first_chunk() {
            let _ = RangeEstimate::try_from(*row)?;
            rest = behind;
        }
        if rest.is_empty() {
            Ok(RangeRows { rest: numbers })
        } else {
            Err(NoEstimate)
        }
    }
}

impl Iterator for RangeRows<'_> {
    type Item = RangeEstimate;

    fn next(&mut self) -> Option<RangeEstimate> {
        let (row, behind) = self.rest.split_first_chunk()?;
        self.rest = behind;
        RangeEstimate::try_from(*row).ok()
    }

    fn size_hint(&self) -> (usize, Option<usize>) {
        let count = self.rest.len() / RANGE_ROW_WIDTH;
        (count, Some(count))
    }
}

impl ExactSizeIterator for RangeRows<'_> {}

impl FusedIterator for RangeRows<'_> {}

/// What a sweep over ranges gives: the passes, and the rows as they stand in the lent list.
///
/// ```
/// # fn main() -> Result<(), tankcurve::Error> {
/// let mut rows = [0; tankcurve::RANGE_ROW_WIDTH];
/// let mut curve = tankcurve::smooth_ranges(&[5, 9], &[2, 0], &[2, 3], &[9], &[1], &mut rows)?;
/// assert_eq!((curve.passes, curve.rows.len()), (3, 1));
/// assert_eq!(curve.rows.next().and_then(|row| row.values()), Some((0, 3)));
/// # Ok(())
/// # }
/// ```
#[derive(Clone, Debug)]
#[must_use]
pub struct RangesSmoothed<'a> {
    /// The passes: the last row's left plus its right.
    pub passes: u64,
    /// The rows, one a point.
    pub rows: RangeRows<'a>,
}

/// The sweep over readings known as ranges: exactly [`RANGE_ROW_WIDTH`] numbers a point in `rows`, and the passes.
/// However the true values lie in their ranges, the rows of [`crate::smooth`] lie between, and both ends are
/// reached. Reports 8, 6, 7, 4, 15, 5, 9, 10.
///
/// ```
/// # fn main() -> Result<(), tankcurve::Error> {
/// // Two readings are below the detector's floor.
/// let (minutes, lows, highs) = ([10, 20, 20, 35], [40, 0, 80, 0], [40, 60, 80, 20]);
/// let (points, bandwidths) = ([20, 25, 60], [10, 15, 20]);
/// let mut rows = [0; 3 * tankcurve::RANGE_ROW_WIDTH];
/// let curve = tankcurve::smooth_ranges(&minutes, &lows, &highs, &points, &bandwidths, &mut rows)?;
/// let values: Vec<Option<(u16, u16)>> = curve.rows.map(|row| row.values()).collect();
/// assert_eq!(values, [Some((40, 70)), Some((30, 58)), None]);
/// # Ok(())
/// # }
/// ```
pub fn smooth_ranges<'a>(
    minutes: &[u16],
    lows: &[u16],
    highs: &[u16],
    points: &[u16],
    bandwidths: &[u32],
    rows: &'a mut [u64],
) -> Result<RangesSmoothed<'a>, Error> {
    let answer = slices::smooth_ranges(minutes, lows, highs, points, bandwidths, rows);
    let passes = report::outcome(answer)?;
    let rows = RangeRows::try_from(&*rows).map_err(|_| Error::Unknown(answer))?;
    Ok(RangesSmoothed { passes, rows })
}

/// Reads a sheet of either kind: its kept samples as ranges and its points at the front of the lists, whose rest is
/// untouched. A value of a plain sheet stands as low and high. Reports 1, then line by line 2, 7, or 3, 4 or 5, 15,
/// 9, 10, 6. What is accepted [`smooth_ranges`] accepts.
///
/// ```
/// # fn main() -> Result<(), tankcurve::Error> {
/// use tankcurve::{Kind, MAX_POINTS, MAX_SAMPLES};
/// let (mut minutes, mut lows, mut highs) = ([0; MAX_SAMPLES], [0; MAX_SAMPLES], [0; MAX_SAMPLES]);
/// let (mut points, mut bandwidths) = ([0; MAX_POINTS], [0; MAX_POINTS]);
/// let mut read = |sheet: &[u8]| {
///     tankcurve::read_ranges(sheet, &mut minutes, &mut lows, &mut highs, &mut points, &mut bandwidths)
/// };
/// let used = read(b"mark,half\n20,10\n\nminute,inj,low,high\n10,3,0,40\n12,1,900,900\n")?;
/// assert_eq!((used.samples, used.points, used.kind), (1, 1, Kind::Ranges));
/// assert!(read(b"mark,half\n20,10\n\nminute,inj,low,high\n10,3,41,40\n").is_err());
/// assert_eq!((minutes[0], lows[0], highs[0]), (10, 0, 40));
/// # Ok(())
/// # }
/// ```
pub fn read_ranges(
    sheet: &[u8],
    minutes: &mut [u16; MAX_SAMPLES],
    lows: &mut [u16; MAX_SAMPLES],
    highs: &mut [u16; MAX_SAMPLES],
    points: &mut [u16; MAX_POINTS],
    bandwidths: &mut [u32; MAX_POINTS],
) -> Result<RangeCounts, Error> {
    let mut counts = [0; 3];
    let answer = slices::read_ranges(sheet, minutes, lows, highs, points, bandwidths, &mut counts);
    report::outcome(answer)?;
    let [samples, points, kind] = counts;
    let kind = match kind {
        slices::KIND_PLAIN => Kind::Plain,
        slices::KIND_RANGES => Kind::Ranges,
        _ => return Err(Error::Unknown(answer)),
    };
    Ok(RangeCounts {
        samples,
        points,
        kind,
    })
}
