//! Which part of a sheet a line belongs to, and what is expected there.

use crate::kind::{Kind, POINT_HEADER};
use crate::lines::Line;

/// The parts of a sheet, in order.
#[derive(Clone, Copy, Debug, PartialEq, Eq)]
pub enum Section {
    PointHeader,
    Points,
    EmptyLine,
    SampleHeader,
    Samples(Kind),
}

impl Section {
    /// The part of the line at this position, from 0; the one behind the last line counts too. Readings
    /// behind a wrong names line are taken as plain: no report is about them.
    pub fn of(lines: &[Line], position: usize) -> Section {
        if position == 0 {
            return Section::PointHeader;
        }
        let empty = |line: &Line| line.text.is_empty() && line.ended;
        let Some(behind) = lines.iter().skip(1).position(empty) else {
            return Section::Points;
        };
        let gap = behind + 1;
        if position < gap {
            Section::Points
        } else if position == gap {
            Section::EmptyLine
        } else if position == gap + 1 {
            Section::SampleHeader
        } else {
            let header = lines
                .get(gap + 1)
                .and_then(|line| Kind::of_header(line.text));
            Section::Samples(header.unwrap_or(Kind::Plain))
        }
    }

    /// How many numbers a line has here; 0 where it has none.
    pub fn fields(self) -> usize {
        match self {
            Section::Points => 2,
            Section::Samples(kind) => kind.fields(),
            _ => 0,
        }
    }

    /// What has to stand here.
    pub fn expected(self) -> String {
        match self {
            Section::PointHeader => format!("the names line {POINT_HEADER}, and a line feed"),
            Section::Points => format!(
                "a mark line {POINT_HEADER}: two whole numbers with a comma between them, and a line feed; behind the last one an empty line"
            ),
            Section::EmptyLine => "a mark line in front of this empty line".to_string(),
            Section::SampleHeader => format!(
                "the names line {}, or {} for ranges, and a line feed",
                Kind::Plain.header(),
                Kind::Ranges.header()
            ),
            Section::Samples(kind) => {
                let (count, commas) = match kind {
                    Kind::Plain => ("three", "two commas"),
                    Kind::Ranges => ("four", "three commas"),
                };
                let header = kind.header();
                format!("a reading line {header}: {count} whole numbers with {commas} between them, and a line feed")
            }
        }
    }
}

#[cfg(test)]
mod tests {
    use super::*;
    use crate::lines::split;

    #[test]
    fn the_parts_in_order() {
        let lines = split(b"mark,half\n20,10\n\nminute,inj,low,high\n10,3,0,40\n");
        let seen: Vec<_> = (0..6)
            .map(|position| Section::of(&lines, position))
            .collect();
        let ranges = Section::Samples(Kind::Ranges);
        let front = [Section::PointHeader, Section::Points, Section::EmptyLine];
        assert_eq!(seen[..3], front);
        assert_eq!(seen[3..], [Section::SampleHeader, ranges, ranges]);
        assert_eq!(Section::of(&split(b"mark,half\n20,10"), 1), Section::Points);
    }
}
