//! Minute and temperature together.

use crate::{report, slices, Error, BOX_WIDTH, CELLS};

/// The box of a pair of points.
///
/// ```
/// let (mut counts, mut sums) = ([0; tankcurve::CELLS], [0; tankcurve::CELLS]);
/// let mut lent = [0; 2];
/// let boxes = tankcurve::boxes(
///     &[5], &[40], &[9], &[5], &[1], &[40], &[1], &mut lent, &mut counts, &mut sums,
/// );
/// let found = boxes.unwrap().get(0, 0).unwrap();
/// assert_eq!((found.count, found.sum), (1, 9));
/// ```
#[derive(Clone, Copy, Debug, PartialEq, Eq)]
#[must_use]
pub struct BoxTotals {
    /// How many samples lie in it.
    pub count: u64,
    /// The sum of their values.
    pub sum: u64,
}

/// The boxes of all pairs of points, as they stand in the lent list.
///
/// ```
/// let (mut counts, mut sums) = ([0; tankcurve::CELLS], [0; tankcurve::CELLS]);
/// let mut lent = [0; 4];
/// let boxes = tankcurve::boxes(
///     &[5], &[40], &[9], &[5], &[1], &[40, 50], &[1, 1], &mut lent, &mut counts, &mut sums,
/// );
/// let counted: Vec<u64> = boxes.unwrap().iter().map(|found| found.count).collect();
/// assert_eq!(counted, [1, 0]);
/// ```
#[derive(Clone, Copy, Debug, PartialEq, Eq)]
#[must_use]
pub struct Boxes<'a> {
    numbers: &'a [u64],
    temperature_points: usize,
}

impl<'a> Boxes<'a> {
    /// The box of a point of the minutes and one of the temperatures, each by its position, if they are there.
    ///
    /// ```
    /// let (mut counts, mut sums) = ([0; tankcurve::CELLS], [0; tankcurve::CELLS]);
    /// let mut lent = [0; 2];
    /// let boxes = tankcurve::boxes(
    ///     &[5], &[40], &[9], &[5], &[1], &[40], &[1], &mut lent, &mut counts, &mut sums,
    /// )
    /// .unwrap();
    /// assert_eq!((boxes.get(0, 1), boxes.get(1, 0)), (None, None));
    /// ```
    #[must_use]
    pub fn get(&self, point: usize, temperature_point: usize) -> Option<BoxTotals> {
        if temperature_point >= self.temperature_points {
            return None;
        }
        let pair = point
            .checked_mul(self.temperature_points)?
            .checked_add(temperature_point)?;
        self.iter().nth(pair)
    }

    /// All boxes, those of the first point of the minutes first.
    ///
    /// ```
    /// let (mut counts, mut sums) = ([0; tankcurve::CELLS], [0; tankcurve::CELLS]);
    /// let mut lent = [0; 2];
    /// let boxes = tankcurve::boxes(
    ///     &[], &[], &[], &[5], &[1], &[40], &[1], &mut lent, &mut counts, &mut sums,
    /// );
    /// assert_eq!(boxes.unwrap().iter().len(), 1);
    /// ```
    pub fn iter(&self) -> impl ExactSizeIterator<Item = BoxTotals> + 'a {
        self.numbers
            .chunks_exact(BOX_WIDTH)
            .map(|numbers| BoxTotals {
                count: numbers[0],
                sum: numbers[1],
            })
    }
}

/// Minute and temperature together: how many samples lie in the closed box of each pair of points, and the sum
/// of their values. `points` and `bandwidths` are those of the minutes, the other two those of the
/// temperatures, in tenths of a degree; up to 32 points of each, in order. Samples stand in any order.
/// `boxes` receives [`BOX_WIDTH`] numbers a pair. `counts` and `sums` receive the cells: a sample's strip
/// along a direction is how many of its distinct cuts, point − bandwidth, which may be negative, and
/// point + bandwidth + 1 of every point, lie at or below the sample, and its cell
/// [`STRIPS`](crate::STRIPS) × strip of the minute + strip of the temperature; the others are 0.
/// Reports 8, 6, 7, 5, 17, 9.
///
/// ```
/// # fn main() -> Result<(), tankcurve::Error> {
/// use tankcurve::{CELLS, STRIPS};
/// let (minutes, temperatures, values) = ([10, 20, 20, 35], [50, 60, 200, 50], [40, 60, 80, 20]);
/// let (mut lent, mut counts, mut sums) = ([0; 8], [0; CELLS], [0; CELLS]);
/// let boxes = tankcurve::boxes(
///     &minutes, &temperatures, &values,
///     &[10, 35], &[10, 5],
///     &[55, 200], &[5, 1],
///     &mut lent, &mut counts, &mut sums,
/// )?;
/// let warm = boxes.get(0, 1).expect("two points of each direction");
/// assert_eq!((warm.count, warm.sum), (1, 80));
/// // The first two samples share a cell.
/// assert_eq!((counts[STRIPS + 1], sums[STRIPS + 1]), (2, 100));
/// # Ok(())
/// # }
/// ```
#[allow(clippy::too_many_arguments)]
pub fn boxes<'a>(
    minutes: &[u16],
    temperatures: &[u8],
    values: &[u16],
    points: &[u16],
    bandwidths: &[u32],
    temperature_points: &[u8],
    temperature_bandwidths: &[u32],
    boxes: &'a mut [u64],
    counts: &mut [u32; CELLS],
    sums: &mut [u32; CELLS],
) -> Result<Boxes<'a>, Error> {
    report::outcome(slices::boxes(
        minutes,
        temperatures,
        values,
        points,
        bandwidths,
        temperature_points,
        temperature_bandwidths,
        boxes,
        counts,
        sums,
    ))?;
    Ok(Boxes {
        numbers: boxes,
        temperature_points: temperature_points.len(),
    })
}
