//! The two kinds of sheet, which their second names line tells apart.

/// What a sheet says of a reading's value.
#[derive(Clone, Copy, Debug, PartialEq, Eq)]
pub enum Kind {
    /// One value.
    Plain,
    /// A lowest and a highest one.
    Ranges,
}

/// The names line in front of the marks.
pub const POINT_HEADER: &str = "mark,half";

impl From<tankcurve::Kind> for Kind {
    fn from(kind: tankcurve::Kind) -> Kind {
        match kind {
            tankcurve::Kind::Plain => Kind::Plain,
            tankcurve::Kind::Ranges => Kind::Ranges,
        }
    }
}

impl Kind {
    pub const ALL: [Kind; 2] = [Kind::Plain, Kind::Ranges];

    /// The names line in front of the readings.
    pub fn header(self) -> &'static str {
        match self {
            Kind::Plain => "minute,inj,vdk",
            Kind::Ranges => "minute,inj,low,high",
        }
    }

    /// How many numbers a reading line has.
    pub fn fields(self) -> usize {
        match self {
            Kind::Plain => 3,
            Kind::Ranges => 4,
        }
    }

    pub fn of_header(text: &[u8]) -> Option<Kind> {
        Kind::ALL
            .into_iter()
            .find(|kind| kind.header().as_bytes() == text)
    }
}
