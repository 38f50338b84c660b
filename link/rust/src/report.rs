//! What a call reports.

use crate::slices;
use core::fmt;

/// Why a call refused, under the numbers of the instrument's reports.
///
/// ```
/// use tankcurve::Report;
/// assert_eq!(Report::SampleOutOfOrder.to_string(), "early reading");
/// ```
#[derive(Clone, Copy, Debug, PartialEq, Eq)]
pub enum Report {
    /// "overlong": a sheet has more than 32,768 bytes.
    TooLong = 1,
    /// "heading": where a names line of a sheet belongs, the sheet ends, or another text stands, or no
    /// line feed follows it.
    BadHeader = 2,
    /// "torn line": a line of a point or of a sample has another form, or a number that is out of range (a
    /// bandwidth's range is report 9), or no line feed; or a sheet ends without an empty line behind its
    /// points.
    MalformedLine = 3,
    /// "early reading": a minute is below the one before.
    SampleOutOfOrder = 4,
    /// "early mark": a point is below the one before.
    PointOutOfOrder = 5,
    /// "crowded": more than 1,024 samples, on a sheet kept ones, or more than 512 points; in
    /// [`crate::boxes()`] more than 32 points of a direction.
    TooMany = 6,
    /// "no marks": there is no point.
    NoPoints = 7,
    /// "uneven": lists that belong together, or a list for the answer, have other lengths.
    LengthMismatch = 8,
    /// "half width": a bandwidth is 0 or over 65,536, that of a temperature over 256.
    BandwidthOutOfRange = 9,
    /// "edge back": point − bandwidth or point + bandwidth is below that of the point before.
    EdgeDecreases = 10,
    /// "foreign record": left is over right, or right over the number of samples.
    InvalidRecord = 11,
    /// "knob": the preset is over 11.
    UnknownPreset = 12,
    /// "past the clock": the last point would be over 65,535.
    GridOverflow = 13,
    /// "too few": k is 0 or over the number of samples.
    TooFewSamples = 14,
    /// "crossed range": a low is above its high.
    CrossedRange = 15,
    /// "second tank": the second tank's lists have the condition of 8, 6 or 4.
    SecondSeries = 16,
    /// "early temperature mark": a point of the temperatures is below the one before.
    TemperatureOutOfOrder = 17,
}

impl Report {
    /// The report with this number, if there is one.
    ///
    /// ```
    /// use tankcurve::Report;
    /// assert_eq!(Report::from_number(4), Some(Report::SampleOutOfOrder));
    /// assert_eq!(Report::from_number(18), None);
    /// ```
    #[must_use]
    pub fn from_number(number: u64) -> Option<Report> {
        Some(match number {
            1 => Report::TooLong,
            2 => Report::BadHeader,
            3 => Report::MalformedLine,
            4 => Report::SampleOutOfOrder,
            5 => Report::PointOutOfOrder,
            6 => Report::TooMany,
            7 => Report::NoPoints,
            8 => Report::LengthMismatch,
            9 => Report::BandwidthOutOfRange,
            10 => Report::EdgeDecreases,
            11 => Report::InvalidRecord,
            12 => Report::UnknownPreset,
            13 => Report::GridOverflow,
            14 => Report::TooFewSamples,
            15 => Report::CrossedRange,
            16 => Report::SecondSeries,
            17 => Report::TemperatureOutOfOrder,
            _ => return None,
        })
    }

    /// The report's number.
    ///
    /// ```
    /// assert_eq!(tankcurve::Report::GridOverflow.number(), 13);
    /// ```
    #[must_use]
    pub fn number(self) -> u64 {
        self as u64
    }

    /// The trade's word for the report.
    ///
    /// ```
    /// assert_eq!(tankcurve::Report::TooMany.word(), "crowded");
    /// ```
    #[must_use]
    pub fn word(self) -> &'static str {
        match self {
            Report::TooLong => "overlong",
            Report::BadHeader => "heading",
            Report::MalformedLine => "torn line",
            Report::SampleOutOfOrder => "early reading",
            Report::PointOutOfOrder => "early mark",
            Report::TooMany => "crowded",
            Report::NoPoints => "no marks",
            Report::LengthMismatch => "uneven",
            Report::BandwidthOutOfRange => "half width",
            Report::EdgeDecreases => "edge back",
            Report::InvalidRecord => "foreign record",
            Report::UnknownPreset => "knob",
            Report::GridOverflow => "past the clock",
            Report::TooFewSamples => "too few",
            Report::CrossedRange => "crossed range",
            Report::SecondSeries => "second tank",
            Report::TemperatureOutOfOrder => "early temperature mark",
        }
    }
}

impl fmt::Display for Report {
    fn fmt(&self, f: &mut fmt::Formatter<'_>) -> fmt::Result {
        f.write_str(self.word())
    }
}

/// A report with its place: a byte of the sheet, a position in a list, or 0.
///
/// ```
/// use tankcurve::{Refusal, Report};
/// let refusal = Refusal { report: Report::SampleOutOfOrder, place: 52 };
/// assert_eq!(refusal.to_string(), "report 4, early reading, at 52");
/// let error: Box<dyn std::error::Error> = refusal.into();
/// assert!(error.is::<Refusal>());
/// ```
#[derive(Clone, Copy, Debug, PartialEq, Eq)]
#[must_use]
pub struct Refusal {
    /// Which report it is.
    pub report: Report,
    /// Where its condition holds.
    pub place: u64,
}

impl fmt::Display for Refusal {
    fn fmt(&self, f: &mut fmt::Formatter<'_>) -> fmt::Result {
        let Refusal { report, place } = self;
        write!(f, "report {}, {report}, at {place}", report.number())
    }
}

impl core::error::Error for Refusal {}

/// Why a call gave nothing.
///
/// ```
/// fn value() -> Result<Option<u16>, Box<dyn std::error::Error>> {
///     Ok(tankcurve::evaluate(&[20, 10], &[40, 60], 20, 10)?.value())
/// }
/// assert_eq!(value().unwrap_err().to_string(), "report 4, early reading, at 1");
/// ```
#[derive(Clone, Copy, Debug, PartialEq, Eq)]
#[must_use]
pub enum Error {
    /// The call refused.
    Refused(Refusal),
    /// The linked archive returned this, and its number is none of [`Report`] or what it wrote is none of
    /// what this crate knows: it is of another version.
    Unknown(u64),
}

impl fmt::Display for Error {
    fn fmt(&self, f: &mut fmt::Formatter<'_>) -> fmt::Result {
        match self {
            Error::Refused(refusal) => refusal.fmt(f),
            Error::Unknown(answer) => {
                write!(
                    f,
                    "unknown answer {answer}: the archive is of another version"
                )
            }
        }
    }
}

impl core::error::Error for Error {}

impl From<Refusal> for Error {
    fn from(refusal: Refusal) -> Error {
        Error::Refused(refusal)
    }
}

/// What a call returned, as its detail or its refusal.
pub(crate) fn outcome(answer: u64) -> Result<u64, Error> {
    let place = slices::detail(answer);
    match slices::number(answer) {
        0 => Ok(place),
        number => Err(match Report::from_number(number) {
            Some(report) => Error::Refused(Refusal { report, place }),
            None => Error::Unknown(answer),
        }),
    }
}

#[cfg(test)]
mod tests {
    use super::*;
    use crate::MAX_SHEET;
    use slices::DETAIL_UNIT;

    /// Every number that an answer can have, with places at both ends of what fits.
    #[test]
    fn every_number_of_an_answer() {
        for place in [0, 1, MAX_SHEET as u64, u64::MAX / DETAIL_UNIT] {
            assert_eq!(outcome(DETAIL_UNIT * place), Ok(place));
            for number in 1..DETAIL_UNIT {
                let answer = DETAIL_UNIT * place + number;
                match outcome(answer) {
                    Err(Error::Refused(refusal)) => {
                        assert!(number <= 17);
                        assert_eq!((refusal.report.number(), refusal.place), (number, place));
                    }
                    Err(Error::Unknown(whole)) => {
                        assert!(number > 17);
                        assert_eq!(whole, answer);
                    }
                    Ok(_) => panic!("number {number} was accepted"),
                }
            }
        }
    }

    #[test]
    fn numbers_of_no_report() {
        for number in [0, 18, 255, DETAIL_UNIT, DETAIL_UNIT + 1, u64::MAX] {
            assert_eq!(Report::from_number(number), None);
        }
    }
}
