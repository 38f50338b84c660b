//! Two tanks set against each other.

use crate::{part, report, slices, Error, PARTING_WIDTH};

/// One of two tanks.
///
/// ```
/// use tankcurve::Tank;
/// let higher = tankcurve::compare(&[5], &[9], &[5], &[8], &[5], &[1]).unwrap().unwrap().higher;
/// assert_eq!(higher, Tank::First);
/// ```
#[derive(Clone, Copy, Debug, PartialEq, Eq)]
pub enum Tank {
    /// The one whose lists come first.
    First,
    /// The other.
    Second,
}

/// Where two tanks part.
///
/// ```
/// let parting = tankcurve::compare(&[5], &[9], &[5], &[8], &[5], &[1]).unwrap().unwrap();
/// assert_eq!((parting.point, parting.run), (0, &[9][..]));
/// ```
#[derive(Clone, Copy, Debug, PartialEq, Eq)]
#[must_use]
pub struct Parting<'a> {
    /// The position of the first point at which the values differ.
    pub point: usize,
    /// The tank that is higher there.
    pub higher: Tank,
    /// The values inside that tank's window there, as that part of its own list.
    pub run: &'a [u16],
}

/// Two tanks set against each other over the same points: where they part, or `None` where their values
/// agree at every point. A missing value is higher than every other. Reports 8, 6, 7, 4, 5, 9, 10 as of a
/// sweep with the first tank, then 16, at the place that the second tank's lists get with 8, 6 or 4.
///
/// ```
/// # fn main() -> Result<(), tankcurve::Error> {
/// use tankcurve::Tank;
/// let (points, bandwidths) = ([20, 50], [10, 10]);
/// let (minutes, first, second) = ([20, 45, 50], [60, 40, 30], [60, 45, 33]);
/// let parting = tankcurve::compare(&minutes, &first, &minutes, &second, &points, &bandwidths)?;
/// let parting = parting.expect("they differ at minute 50");
/// assert_eq!((parting.point, parting.higher), (1, Tank::Second));
/// // The run is a part of the second tank's own list.
/// assert_eq!(parting.run.as_ptr_range(), second[1..].as_ptr_range());
/// # Ok(())
/// # }
/// ```
pub fn compare<'a>(
    minutes1: &[u16],
    values1: &'a [u16],
    minutes2: &[u16],
    values2: &'a [u16],
    points: &[u16],
    bandwidths: &[u32],
) -> Result<Option<Parting<'a>>, Error> {
    let mut out = [0; PARTING_WIDTH];
    let answer = slices::compare(
        minutes1, values1, minutes2, values2, points, bandwidths, &mut out,
    );
    let (higher, values) = match report::outcome(answer)? {
        0 => return Ok(None),
        1 => (Tank::First, values1),
        2 => (Tank::Second, values2),
        _ => return Err(Error::Unknown(answer)),
    };
    let [point, left, right] = out;
    let parting = || {
        Some(Parting {
            point: usize::try_from(point).ok()?,
            higher,
            run: part(values, [left, right])?,
        })
    };
    parting().map(Some).ok_or(Error::Unknown(answer))
}
