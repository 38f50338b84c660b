//! The proved calls' algorithms in safe Rust: the same steps and checks in the same order, over slices.

pub mod boxes;
mod checks;
mod feed;
mod lines;
mod read;
mod smooth;
mod text;
pub mod with_memchr;

pub use boxes::boxes;
pub use read::read;
pub use smooth::smooth;
pub use text::{refusal_text, text};

pub(crate) use checks::smooth_fault;
pub(crate) use smooth::value;

pub const MAX_SAMPLES: usize = 1024;
pub const MAX_POINTS: usize = 512;
pub const MAX_SHEET: usize = 32_768;
pub const MAX_OUTPUT: usize = 44_113;
pub const ROW_WIDTH: usize = 5;
pub const MISSING: u64 = 65_536;
/// What one of a detail counts for in what the proved calls return.
pub const DETAIL_UNIT: u64 = 256;

/// Why a call refused, under the numbers of the instrument's reports.
#[derive(Clone, Copy, Debug, PartialEq, Eq)]
pub enum Report {
    TooLong = 1,
    BadHeader = 2,
    MalformedLine = 3,
    SampleOutOfOrder = 4,
    PointOutOfOrder = 5,
    TooMany = 6,
    NoPoints = 7,
    LengthMismatch = 8,
    BandwidthOutOfRange = 9,
    EdgeDecreases = 10,
    TemperatureOutOfOrder = 17,
}

/// A report with its place.
#[derive(Clone, Copy, Debug, PartialEq, Eq)]
pub struct Refusal {
    pub report: Report,
    pub place: usize,
}

impl Refusal {
    /// Place and number as the proved calls return them.
    pub fn code(self) -> u64 {
        DETAIL_UNIT * self.place as u64 + self.report as u64
    }
}

fn refuse<T>(report: Report, place: usize) -> Result<T, Refusal> {
    Err(Refusal { report, place })
}
