//! The calls that are measured, over one input and one set of buffers.

use figures::inputs::{in_boxes, Buffers, Input, RANGE_ROW_WIDTH};
use figures::plain::boxes::{Question, BOX_WIDTH};
use figures::plain::{DETAIL_UNIT, ROW_WIDTH};
use figures::{direct, plain};
use std::sync::OnceLock;
use tankcurve::{slices, BIWEIGHT_BANDWIDTH, MAX_SAMPLES, PARTING_WIDTH};

pub struct Contestant {
    pub name: &'static str,
    pub call: fn(&Input, &mut Buffers) -> u64,
}

type Reader = fn(
    &[u8],
    &mut [u16],
    &mut [u16],
    &mut [u16],
    &mut [u32],
) -> Result<(usize, usize), plain::Refusal>;

fn plain_read(read: Reader, input: &Input, lent: &mut Buffers) -> u64 {
    let counts = read(
        &input.sheet,
        &mut lent.minutes,
        &mut lent.values,
        &mut lent.points,
        &mut lent.bandwidths,
    );
    match counts {
        Err(refusal) => refusal.code(),
        Ok((samples, points)) => {
            lent.counts = [samples as u64, points as u64];
            0
        }
    }
}

/// Every contestant answers what the proved call returns: detail and number as one number.
pub static CALLS: [Contestant; 41] = [
    Contestant {
        name: "tankcurve_smooth",
        call: |input, lent| {
            let rows = &mut lent.rows[..ROW_WIDTH * input.points.len()];
            let (minutes, values) = (&input.minutes, &input.values);
            slices::smooth(minutes, values, &input.points, &input.bandwidths, rows)
        },
    },
    Contestant {
        name: "plain::smooth",
        call: |input, lent| {
            let rows = &mut lent.rows[..ROW_WIDTH * input.points.len()];
            let (minutes, values) = (&input.minutes, &input.values);
            let passes = plain::smooth(minutes, values, &input.points, &input.bandwidths, rows);
            passes.map_or_else(|refusal| refusal.code(), |n| DETAIL_UNIT * n)
        },
    },
    Contestant {
        name: "direct::smooth",
        call: |input, lent| {
            let rows = &mut lent.rows[..ROW_WIDTH * input.points.len()];
            let (minutes, values) = (&input.minutes, &input.values);
            let passes = direct::smooth(minutes, values, &input.points, &input.bandwidths, rows);
            passes.map_or_else(|refusal| refusal.code(), |n| DETAIL_UNIT * n)
        },
    },
    Contestant {
        name: "reference::sweep",
        call: |input, lent| {
            let rows = &mut lent.rows[..ROW_WIDTH * input.points.len()];
            let (minutes, values) = (&input.minutes, &input.values);
            let passes = reference::sweep(minutes, values, &input.points, &input.bandwidths, rows);
            passes.map_or_else(
                |r| DETAIL_UNIT * r.place + u64::from(r.number),
                |n| DETAIL_UNIT * n,
            )
        },
    },
    Contestant {
        name: "tankcurve_read",
        call: |input, lent| {
            slices::read(
                &input.sheet,
                &mut lent.minutes,
                &mut lent.values,
                &mut lent.points,
                &mut lent.bandwidths,
                &mut lent.counts,
            )
        },
    },
    Contestant {
        name: "plain::read",
        call: |input, lent| plain_read(plain::read, input, lent),
    },
    Contestant {
        name: "plain::with_memchr::read",
        call: |input, lent| plain_read(plain::with_memchr::read, input, lent),
    },
    Contestant {
        name: "tankcurve_text",
        call: |input, lent| slices::text(&input.sheet, &mut lent.out),
    },
    Contestant {
        name: "plain::text",
        call: |input, lent| {
            let length = plain::text(&input.sheet, &mut lent.out);
            length.map_or_else(|refusal| refusal.code(), |n| DETAIL_UNIT * n as u64)
        },
    },
    Contestant {
        name: "tankcurve_turn",
        call: |input, _| turned(input, 27_189),
    },
    Contestant {
        name: "tankcurve_turn, refused with 9",
        call: |input, _| turned(input, 0),
    },
    Contestant {
        name: "tankcurve_smooth, falling values",
        call: |input, lent| {
            let rows = &mut lent.rows[..ROW_WIDTH * input.points.len()];
            slices::smooth(
                &input.minutes,
                &FALLING,
                &input.points,
                &input.bandwidths,
                rows,
            )
        },
    },
    Contestant {
        name: "tankcurve_first_at_most, mark 0",
        call: |input, _| first_at_most(input, u16::MAX, 0),
    },
    Contestant {
        name: "tankcurve_first_at_most, mark 255",
        call: |input, _| first_at_most(input, LIMIT_OF_MARK_255, 255),
    },
    Contestant {
        name: "tankcurve_first_at_most, none",
        call: |input, _| first_at_most(input, 0, slices::NO_POSITION),
    },
    Contestant {
        name: "tankcurve_evaluate",
        call: |input, lent| {
            let row = &mut lent.rows[..ROW_WIDTH];
            slices::evaluate(
                &input.minutes,
                &input.values,
                MIDDLE,
                input.bandwidths[0],
                row,
            )
        },
    },
    Contestant {
        name: "tankcurve_decisive, none",
        call: |input, _| decisive(input, 0, slices::NO_POSITION),
    },
    Contestant {
        name: "tankcurve_decisive, reading 0",
        call: |input, _| decisive(input, LIMIT_OF_READING_0, 0),
    },
    Contestant {
        name: "two sweeps, falling values",
        call: |input, lent| {
            let rows = &mut lent.rows[..ROW_WIDTH * input.points.len()];
            let (points, bandwidths) = (&input.points, &input.bandwidths);
            let first = slices::smooth(&input.minutes, &FALLING, points, bandwidths, rows);
            first + slices::smooth(&input.minutes, &FALLING, points, bandwidths, rows)
        },
    },
    Contestant {
        name: "tankcurve_compare, apart at mark 0",
        call: |input, _| compared(input, &HIGH_FROM_THE_START, Some(0)),
    },
    Contestant {
        name: "tankcurve_compare, apart at mark 255",
        call: |input, _| compared(input, &HIGH_FROM_MARK_255, Some(255)),
    },
    Contestant {
        name: "tankcurve_compare, alike",
        call: |input, _| compared(input, &FALLING, None),
    },
    Contestant {
        name: "tankcurve_smooth, half widths of 16 neighbours",
        call: |input, lent| smooth_with(&WIDTHS_OF_16, 16, input, lent),
    },
    Contestant {
        name: "tankcurve_neighbours, 16",
        call: |input, lent| by_neighbours(input, 16, lent),
    },
    Contestant {
        name: "tankcurve_smooth, half widths of 608 neighbours",
        call: |input, lent| smooth_with(&WIDTHS_OF_608, 608, input, lent),
    },
    Contestant {
        name: "tankcurve_neighbours, 608",
        call: |input, lent| by_neighbours(input, 608, lent),
    },
    Contestant {
        name: "tankcurve_smooth, highs",
        call: |input, lent| {
            let rows = &mut lent.rows[..ROW_WIDTH * input.points.len()];
            let highs = &FALLING[..input.minutes.len()];
            slices::smooth(
                &input.minutes,
                highs,
                &input.points,
                &input.bandwidths,
                rows,
            )
        },
    },
    Contestant {
        name: "tankcurve_smooth_ranges",
        call: |input, lent| {
            let samples = input.minutes.len();
            slices::smooth_ranges(
                &input.minutes,
                &LOW_ENDS[..samples],
                &FALLING[..samples],
                &input.points,
                &input.bandwidths,
                &mut lent.range_rows[..RANGE_ROW_WIDTH * input.points.len()],
            )
        },
    },
    Contestant {
        name: "tankcurve_biweight, none",
        call: |_, lent| biweight(lent, 0, 0),
    },
    Contestant {
        name: "tankcurve_biweight, 512",
        call: |_, lent| biweight(lent, 19_791, 512),
    },
    Contestant {
        name: "tankcurve_biweight, 1024",
        call: |_, lent| biweight(lent, 20_511, 1024),
    },
    Contestant {
        name: "tankcurve_evaluate, none",
        call: |_, lent| evaluate(lent, 0, 0),
    },
    Contestant {
        name: "tankcurve_evaluate, 512",
        call: |_, lent| evaluate(lent, 19_791, 512),
    },
    Contestant {
        name: "tankcurve_evaluate, 1024",
        call: |_, lent| evaluate(lent, 20_511, 1024),
    },
    Contestant {
        name: "tankcurve_boxes",
        call: |_, lent| boxes(&FULL_BOXES, 1024, 32, lent),
    },
    Contestant {
        name: "plain::boxes",
        call: |_, lent| rust_boxes(plain::boxes, lent),
    },
    Contestant {
        name: "direct::boxes",
        call: |_, lent| rust_boxes(direct::boxes, lent),
    },
    Contestant {
        name: "tankcurve_boxes, 512 readings",
        call: |_, lent| boxes(&BOXES_OF_512, 512, 32, lent),
    },
    Contestant {
        name: "tankcurve_boxes, no readings",
        call: |_, lent| boxes(&BOXES_OF_NONE, 0, 32, lent),
    },
    Contestant {
        name: "tankcurve_boxes, 16 marks",
        call: |_, lent| boxes(&BOXES_OF_16_MARKS, 1024, 16, lent),
    },
    Contestant {
        name: "tankcurve_boxes, 1 mark",
        call: |_, lent| boxes(&BOXES_OF_1_MARK, 1024, 1, lent),
    },
];

static FULL_BOXES: OnceLock<Question> = OnceLock::new();
static BOXES_OF_512: OnceLock<Question> = OnceLock::new();
static BOXES_OF_NONE: OnceLock<Question> = OnceLock::new();
static BOXES_OF_16_MARKS: OnceLock<Question> = OnceLock::new();
static BOXES_OF_1_MARK: OnceLock<Question> = OnceLock::new();

/// Minute and temperature together, of so many readings and so many marks of each direction, which are drawn once.
fn boxes(asked: &OnceLock<Question>, readings: usize, marks: usize, lent: &mut Buffers) -> u64 {
    let asked = asked.get_or_init(|| in_boxes(readings, marks));
    slices::boxes(
        &asked.minutes,
        &asked.temperatures,
        &asked.values,
        &asked.points,
        &asked.bandwidths,
        &asked.temperature_points,
        &asked.temperature_bandwidths,
        &mut lent.boxes[..BOX_WIDTH * marks * marks],
        &mut lent.cell_counts,
        &mut lent.cell_sums,
    )
}

/// A call of minute and temperature together in Rust: boxes and both lists of cells are lent.
type RustBoxes = fn(&Question, &mut [u64], &mut [u32], &mut [u32]) -> Result<(), plain::Refusal>;

/// The same of all readings and marks in Rust.
fn rust_boxes(call: RustBoxes, lent: &mut Buffers) -> u64 {
    let asked = FULL_BOXES.get_or_init(|| in_boxes(1024, 32));
    let answer = call(
        asked,
        &mut lent.boxes,
        &mut lent.cell_counts,
        &mut lent.cell_sums,
    );
    answer.map_or_else(|refusal| refusal.code(), |()| 0)
}

/// A reading each minute, as many as there may be, from 20,000 on.
static EACH_MINUTE: [u16; MAX_SAMPLES] = {
    let mut minutes = [0; MAX_SAMPLES];
    let mut i = 0;
    while i < MAX_SAMPLES {
        minutes[i] = 20_000 + i as u16;
        i += 1;
    }
    minutes
};

/// The biweight row of these at a mark with so many of them in its window, all from the first on.
fn biweight(lent: &mut Buffers, point: u16, inside: u64) -> u64 {
    let row = &mut lent.rows[..ROW_WIDTH];
    let answer = slices::biweight(&EACH_MINUTE, &FALLING, point, row);
    assert_eq!(row[..2], [0, inside], "the run");
    answer
}

/// The row of the same window.
fn evaluate(lent: &mut Buffers, point: u16, inside: u64) -> u64 {
    let row = &mut lent.rows[..ROW_WIDTH];
    let answer = slices::evaluate(&EACH_MINUTE, &FALLING, point, BIWEIGHT_BANDWIDTH, row);
    assert_eq!(row[..2], [0, inside], "the run");
    answer
}

/// The half widths of the first input that is met, which is the only one in a process that counts.
static WIDTHS_OF_16: OnceLock<Vec<u32>> = OnceLock::new();
static WIDTHS_OF_608: OnceLock<Vec<u32>> = OnceLock::new();

/// Of a half or a quarter of the readings the same share.
fn share(of: usize, input: &Input) -> usize {
    of * input.minutes.len() / MAX_SAMPLES
}

fn by_neighbours(input: &Input, of: usize, lent: &mut Buffers) -> u64 {
    let marks = input.points.len();
    slices::neighbours(
        &input.minutes,
        &input.values,
        &input.points,
        share(of, input),
        &mut lent.bandwidths[..marks],
        &mut lent.rows[..ROW_WIDTH * marks],
    )
}

/// The sweep with the half widths that neighbours give, which are not found anew at each call.
fn smooth_with(widths: &OnceLock<Vec<u32>>, of: usize, input: &Input, lent: &mut Buffers) -> u64 {
    let marks = input.points.len();
    let widths = widths.get_or_init(|| {
        assert_eq!(by_neighbours(input, of, lent), 0, "half widths");
        lent.bandwidths[..marks].to_vec()
    });
    let rows = &mut lent.rows[..ROW_WIDTH * marks];
    slices::smooth(&input.minutes, &input.values, &input.points, widths, rows)
}

/// Values that fall from reading to reading of the full input, so that each of its rows has a lower value than the one before.
static FALLING: [u16; MAX_SAMPLES] = {
    let mut values = [0; MAX_SAMPLES];
    let mut i = 0;
    while i < MAX_SAMPLES {
        values[i] = 60_000 - 50 * i as u16;
        i += 1;
    }
    values
};

/// The same from 0 up for each third reading.
static LOW_ENDS: [u16; MAX_SAMPLES] = {
    let mut lows = FALLING;
    let mut i = 0;
    while i < MAX_SAMPLES {
        lows[i] = 0;
        i += 3;
    }
    lows
};

/// The value of mark 255 with these and the half width of the figures.
const LIMIT_OF_MARK_255: u16 = 34_500;

/// The first mark of the full input at or below the limit, which is the one named.
fn first_at_most(input: &Input, limit: u16, named: u64) -> u64 {
    let mut position = [0];
    let (points, bandwidths) = (&input.points, &input.bandwidths);
    let answer = slices::first_at_most(
        &input.minutes,
        &FALLING,
        points,
        bandwidths,
        limit,
        &mut position,
    );
    assert_eq!(position[0], named, "the mark that answers");
    answer
}

/// The mark in the middle of the readings.
const MIDDLE: u16 = 37_621;

/// The value there at half width 65,536; without reading 0 it is higher.
const LIMIT_OF_READING_0: u16 = 37_739;

/// The reading that decides in the middle, which is the one named.
fn decisive(input: &Input, limit: u16, named: u64) -> u64 {
    let mut position = [0];
    let (minutes, values) = (&input.minutes, &input.values);
    let bandwidth = input.bandwidths[0];
    let answer = slices::decisive(minutes, values, MIDDLE, bandwidth, limit, &mut position);
    assert_eq!(position[0], named, "the reading that decides");
    answer
}

/// The same values, the greatest there is from a reading on.
const fn high_from(reading: usize) -> [u16; MAX_SAMPLES] {
    let mut values = FALLING;
    let mut i = reading;
    while i < MAX_SAMPLES {
        values[i] = u16::MAX;
        i += 1;
    }
    values
}

static HIGH_FROM_THE_START: [u16; MAX_SAMPLES] = high_from(0);

/// Reading 879 is the first that stands in the window of mark 255 and in none before.
static HIGH_FROM_MARK_255: [u16; MAX_SAMPLES] = high_from(879);

/// The full input with falling values set against the same minutes with others; they part at the mark named, or are alike.
fn compared(input: &Input, other: &[u16], named: Option<u64>) -> u64 {
    let mut out = [u64::MAX; PARTING_WIDTH];
    let minutes = &input.minutes;
    let (points, bandwidths) = (&input.points, &input.bandwidths);
    let answer = slices::compare(
        minutes, &FALLING, minutes, other, points, bandwidths, &mut out,
    );
    assert_eq!(out[0], named.unwrap_or(u64::MAX), "the mark that decides");
    answer
}

/// A record of positions 12 up to 1,012 of the full input, turned to the mark in the middle: with half width 27,189
/// both edges go out by four positions, and 1,008 readings are in the window.
fn turned(input: &Input, bandwidth: u32) -> u64 {
    let mut record = [12, 1012, 0, 0, 0, 0, 0, 0, 0];
    let answer = slices::turn(
        &mut record,
        &input.minutes,
        &input.values,
        MIDDLE,
        bandwidth,
    );
    answer + DETAIL_UNIT * record[8]
}

pub fn called(name: &str) -> &'static Contestant {
    CALLS
        .iter()
        .find(|c| c.name == name)
        .expect("a contestant's name")
}

/// Whether all of them answer the same and leave the same in every buffer.
pub fn agree(names: &[&str], input: &Input) -> Result<(), String> {
    let answer = |name: &str| {
        let mut lent = Buffers::marked();
        let code = (called(name).call)(input, &mut lent);
        (code, lent)
    };
    let first = answer(names[0]);
    match names[1..].iter().find(|name| answer(name) != first) {
        Some(name) => Err(format!("{name} and {} do not agree", names[0])),
        None => Ok(()),
    }
}
