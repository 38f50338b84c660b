//! What every contestant gets: the same lists or sheet, and the same buffers.

use crate::plain::boxes::{Question, BOX_MAX_POINTS, BOX_WIDTH, CELLS};
use crate::plain::{MAX_OUTPUT, MAX_POINTS, MAX_SAMPLES, MAX_SHEET, ROW_WIDTH};

/// The numbers of a row over ranges.
pub const RANGE_ROW_WIDTH: usize = 7;

/// The lists of a grid and its samples, and the sheet that has them.
pub struct Input {
    pub minutes: Vec<u16>,
    pub values: Vec<u16>,
    pub points: Vec<u16>,
    pub bandwidths: Vec<u32>,
    pub sheet: Vec<u8>,
}

/// Lent lists, all contestants' alike.
#[derive(Clone, PartialEq)]
#[repr(align(64))]
pub struct Buffers {
    pub minutes: [u16; MAX_SAMPLES],
    pub values: [u16; MAX_SAMPLES],
    pub points: [u16; MAX_POINTS],
    pub bandwidths: [u32; MAX_POINTS],
    pub rows: [u64; ROW_WIDTH * MAX_POINTS],
    pub range_rows: [u64; RANGE_ROW_WIDTH * MAX_POINTS],
    pub counts: [u64; 2],
    pub out: [u8; MAX_OUTPUT],
    pub boxes: [u64; BOX_WIDTH * BOX_MAX_POINTS * BOX_MAX_POINTS],
    pub cell_counts: [u32; CELLS],
    pub cell_sums: [u32; CELLS],
}

impl Buffers {
    /// Buffers with a content that no answer leaves by chance.
    pub fn marked() -> Box<Buffers> {
        Box::new(Buffers {
            minutes: [0xa5a5; MAX_SAMPLES],
            values: [0xa5a5; MAX_SAMPLES],
            points: [0xa5a5; MAX_POINTS],
            bandwidths: [0xa5a5_a5a5; MAX_POINTS],
            rows: [0xa5a5_a5a5_a5a5_a5a5; ROW_WIDTH * MAX_POINTS],
            range_rows: [0xa5a5_a5a5_a5a5_a5a5; RANGE_ROW_WIDTH * MAX_POINTS],
            counts: [0xa5a5_a5a5_a5a5_a5a5; 2],
            out: [0xa5; MAX_OUTPUT],
            boxes: [0xa5a5_a5a5_a5a5_a5a5; BOX_WIDTH * BOX_MAX_POINTS * BOX_MAX_POINTS],
            cell_counts: [0xa5a5_a5a5; CELLS],
            cell_sums: [0xa5a5_a5a5; CELLS],
        })
    }
}

/// 1,024 readings and 512 marks, each number divided by `part`, spread over the same minutes, 10,000 to
/// 65,242. Every number of the sheet has five digits if the bandwidth has.
pub fn input(part: usize, bandwidth: u32) -> Input {
    let samples = 0..MAX_SAMPLES / part;
    let marks = 0..MAX_POINTS / part;
    let minutes: Vec<u16> = samples
        .clone()
        .map(|i| (10_000 + 54 * part * i) as u16)
        .collect();
    let values: Vec<u16> = samples
        .map(|i| (10_000 + i * 40_503 % 55_536) as u16)
        .collect();
    let points: Vec<u16> = marks
        .clone()
        .map(|k| (10_000 + 108 * part * k) as u16)
        .collect();
    let bandwidths: Vec<u32> = marks.map(|_| bandwidth).collect();
    let mut sheet = b"mark,half\n".to_vec();
    for (z, h) in points.iter().zip(&bandwidths) {
        sheet.extend(format!("{z},{h}\n").bytes());
    }
    sheet.extend(b"\nminute,inj,vdk\n");
    for (i, (t, v)) in minutes.iter().zip(&values).enumerate() {
        sheet.extend(format!("{t},{},{v}\n", 10_000 + i).bytes());
    }
    Input {
        minutes,
        values,
        points,
        bandwidths,
        sheet,
    }
}

/// So many readings in no order, over all minutes and temperatures, and so many marks of each direction, which with 32
/// cut each in 65 strips.
pub fn in_boxes(readings: usize, marks: usize) -> Question {
    let spread = |i: usize, step: usize, end: usize| i * step % end;
    Question {
        minutes: (0..readings)
            .map(|i| spread(i, 40_503, 65_536) as u16)
            .collect(),
        temperatures: (0..readings).map(|i| spread(i, 167, 256) as u8).collect(),
        values: (0..readings)
            .map(|i| spread(i, 30_011, 65_536) as u16)
            .collect(),
        points: (0..marks).map(|k| (1_000 + 2_048 * k) as u16).collect(),
        bandwidths: (0..marks).map(|k| 5_000 + 3 * k as u32).collect(),
        temperature_points: (0..marks).map(|k| (3 + 8 * k) as u8).collect(),
        temperature_bandwidths: vec![18; marks],
    }
}

/// A sheet that the search for line feeds is measured on.
pub struct NamedSheet {
    pub name: &'static str,
    pub what: &'static str,
    pub sheet: Vec<u8>,
}

/// The full sheet, one of as many of the shortest lines, one line that does not end, and the full sheet with
/// a carriage return before each line feed.
pub fn sheets() -> [NamedSheet; 4] {
    let full = input(1, 20_000).sheet;
    let mut shortest = b"mark,half\n".to_vec();
    shortest.extend(b"0,1\n".repeat(MAX_POINTS));
    shortest.extend(b"\nminute,inj,vdk\n");
    shortest.extend(b"0,3,0\n".repeat(MAX_SAMPLES));
    let lines: Vec<&[u8]> = full.split_inclusive(|&b| b == b'\n').collect();
    let returns = lines
        .iter()
        .flat_map(|line| [&line[..line.len() - 1], b"\r\n"].concat())
        .collect();
    [
        ("full", "the full sheet", full),
        ("shortest", "as many of the shortest lines", shortest),
        (
            "no-feed",
            "one line without its line feed",
            vec![b'7'; MAX_SHEET],
        ),
        (
            "returns",
            "the full sheet, carriage returns before line feeds",
            returns,
        ),
    ]
    .map(|(name, what, sheet)| NamedSheet { name, what, sheet })
}

impl Input {
    /// An input with another sheet and the same lists.
    pub fn with_sheet(&self, sheet: Vec<u8>) -> Input {
        Input {
            minutes: self.minutes.clone(),
            values: self.values.clone(),
            points: self.points.clone(),
            bandwidths: self.bandwidths.clone(),
            sheet,
        }
    }

    /// Inputs with one fault or none: a byte of the sheet replaced, a carriage return put before it, the sheet cut short,
    /// and a list's number replaced.
    pub fn edits(&self) -> Vec<Input> {
        let mut edits = Vec::new();
        for at in 0..self.sheet.len() {
            edits.push(self.with_sheet(self.sheet[..at].to_vec()));
            let mut longer = self.sheet.clone();
            longer.insert(at, b'\r');
            edits.push(self.with_sheet(longer));
            for byte in [b'\n', b',', b'0', b'2', b'9', b'/', b':'] {
                let mut sheet = self.sheet.clone();
                sheet[at] = byte;
                edits.push(self.with_sheet(sheet));
            }
        }
        edits.push(self.with_sheet(vec![b'\n'; 40_000]));
        for at in 0..self.minutes.len() {
            let mut edit = self.with_sheet(Vec::new());
            edit.minutes[at] /= 2;
            edits.push(edit);
        }
        for at in 0..self.points.len() {
            let mut edit = self.with_sheet(Vec::new());
            edit.points[at] /= 2;
            edits.push(edit);
            for bandwidth in [0, 1, 60_000, 65_537] {
                let mut edit = self.with_sheet(Vec::new());
                edit.bandwidths[at] = bandwidth;
                edits.push(edit);
            }
        }
        let mut longer = self.with_sheet(Vec::new());
        longer.minutes.push(65_535);
        edits.push(longer);
        edits
    }
}
