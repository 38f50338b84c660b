//! Minute and temperature together: each case lent to the export and to the second implementation, everything
//! compared, and the boxes against sums of the cells that came.

use crate::calls::{code, refused, same, typed};
use crate::lent::Lent;
use crate::tally::Tally;
use reference::boxes::{CELLS, MOST_BOX_MARKS, STRIPS};
use reference::generators::boxes::Question;
use reference::generators::random::Random;
use tankcurve::slices;

/// The first difference, with its case.
type Found = Result<(), String>;

/// The call, with its tally.
pub struct InBoxes {
    patterns: Random,
    tally: Tally,
}

impl InBoxes {
    pub fn new() -> InBoxes {
        InBoxes {
            patterns: Random(23),
            tally: Tally::new("boxes", &[8, 6, 7, 5, 17, 9]),
        }
    }

    pub fn tallies(&self) -> [&Tally; 1] {
        [&self.tally]
    }

    /// One case.
    fn boxes(&mut self, question: &Question) -> Found {
        let (expected, boxes, counts, sums) = question.answered(0);
        let expected = expected.map_err(refused);
        let answer = expected.map_or_else(|refusal| refusal, |()| (0, 0));
        let patterns = &mut self.patterns;
        let lent_minutes = Lent::holding(patterns, &question.minutes);
        let lent_temperatures = Lent::holding(patterns, &question.temperatures);
        let lent_values = Lent::holding(patterns, &question.values);
        let lent_points = Lent::holding(patterns, &question.minute_marks);
        let lent_bandwidths = Lent::holding(patterns, &question.minute_halves);
        let lent_degrees = Lent::holding(patterns, &question.temperature_marks);
        let lent_widths = Lent::holding(patterns, &question.temperature_halves);
        let mut lent_boxes = Lent::patterned(patterns, question.boxes);
        let mut lent_counts = Lent::patterned(patterns, question.counts);
        let mut lent_sums = Lent::patterned(patterns, question.sums);
        let mut compared = || -> Found {
            let got = slices::boxes(
                lent_minutes.list(),
                lent_temperatures.list(),
                lent_values.list(),
                lent_points.list(),
                lent_bandwidths.list(),
                lent_degrees.list(),
                lent_widths.list(),
                lent_boxes.list_mut(),
                lent_counts.list_mut(),
                lent_sums.list_mut(),
            );
            same("returned", code(answer), got)?;
            lent_minutes.untouched("minutes")?;
            lent_temperatures.untouched("temperatures")?;
            lent_values.untouched("values")?;
            lent_points.untouched("points")?;
            lent_bandwidths.untouched("bandwidths")?;
            lent_degrees.untouched("points of the temperatures")?;
            lent_widths.untouched("bandwidths of the temperatures")?;
            if expected.is_err() {
                lent_boxes.untouched("boxes")?;
                lent_counts.untouched("counts")?;
                lent_sums.untouched("sums")?;
            } else {
                lent_boxes.holds("boxes", &boxes)?;
                lent_counts.holds("counts", &counts)?;
                lent_sums.holds("sums", &sums)?;
                of_cells(
                    question,
                    lent_boxes.list(),
                    lent_counts.list(),
                    lent_sums.list(),
                )?;
            }
            if question.counts != CELLS || question.sums != CELLS {
                return Ok(());
            }
            let (mut typed_counts, mut typed_sums) = ([9; CELLS], [9; CELLS]);
            let mut typed_boxes = vec![9; question.boxes];
            let got = tankcurve::boxes(
                &question.minutes,
                &question.temperatures,
                &question.values,
                &question.minute_marks,
                &question.minute_halves,
                &question.temperature_marks,
                &question.temperature_halves,
                &mut typed_boxes,
                &mut typed_counts,
                &mut typed_sums,
            );
            let pairs = typed(got).map(|boxes| -> Vec<u64> {
                boxes
                    .iter()
                    .flat_map(|found| [found.count, found.sum])
                    .collect()
            });
            let left = |list: &[u32]| {
                if expected.is_ok() {
                    list.to_vec()
                } else {
                    vec![9; CELLS]
                }
            };
            same("typed", expected.map(|()| boxes.clone()), pairs)?;
            same("typed, counts", left(&counts), typed_counts.to_vec())?;
            same("typed, sums", left(&sums), typed_sums.to_vec())
        };
        let found = compared();
        self.tally.count(answer.0);
        found.map_err(|difference| format!("boxes: {difference}\nthe case:\n    {question:?}"))
    }
}

/// Each box is the sum of the cells of its strips, which the distinct cuts give, and all cells hold all readings.
fn of_cells(question: &Question, boxes: &[u64], counts: &[u32], sums: &[u32]) -> Found {
    let minute = windows(&question.minute_marks, &question.minute_halves);
    let warm = windows(&question.temperature_marks, &question.temperature_halves);
    let mut expected = Vec::new();
    for &(left, right) in &minute {
        for &(low, high) in &warm {
            for list in [counts, sums] {
                let strip = |p: usize| list[STRIPS * p + low..STRIPS * p + high].iter();
                expected.push((left..right).flat_map(strip).map(|&n| u64::from(n)).sum());
            }
        }
    }
    same("sums of cells", &expected[..], boxes)?;
    let all = |list: &[u32]| list.iter().map(|&n| u64::from(n)).sum();
    let values: u64 = question.values.iter().map(|&v| u64::from(v)).sum();
    same(
        "all cells",
        (question.minutes.len() as u64, values),
        (all(counts), all(sums)),
    )
}

/// The strips of each mark's window: from the first up to but without the last.
fn windows<T: Copy + Into<i64>>(marks: &[T], halves: &[u32]) -> Vec<(usize, usize)> {
    let edges: Vec<(i64, i64)> = marks
        .iter()
        .zip(halves)
        .map(|(&mark, &half)| {
            (
                mark.into() - i64::from(half),
                mark.into() + i64::from(half) + 1,
            )
        })
        .collect();
    let mut cuts: Vec<i64> = edges
        .iter()
        .flat_map(|&(left, right)| [left, right])
        .collect();
    cuts.sort_unstable();
    cuts.dedup();
    let strip = |cut: i64| cuts.partition_point(|&other| other <= cut);
    edges
        .into_iter()
        .map(|(left, right)| (strip(left), strip(right)))
        .collect()
}

pub fn boxes(calls: &mut InBoxes) -> Found {
    let random = &mut Random(29);
    // Each number of marks up to one too many, in each direction, with few readings.
    for count in 0..=MOST_BOX_MARKS + 1 {
        for turned in [false, true] {
            let mut question = Question::drawn(random, 12, 1000);
            question.minute_marks = (0..count).map(|k| (k * 17) as u16).collect();
            question.minute_halves = (0..count).map(|_| random.between(1, 40) as u32).collect();
            if turned {
                question.temperature_marks = (0..count).map(|k| (k * 7) as u8).collect();
                question.temperature_halves = question.minute_halves.clone();
                question.minute_marks.truncate(2);
                question.minute_halves.truncate(2);
            }
            calls.boxes(&question.fit())?;
        }
    }
    // All strips of both directions, and all readings that there may be.
    for readings in [0, 1, 300, 1023, 1024, 1025] {
        let mut question = Question::drawn(random, readings, 1000);
        question.minute_marks = (0..32).map(|k| 1000 + 2000 * k).collect();
        question.minute_halves = vec![400; 32];
        question.temperature_marks = (0..32).map(|k| 3 + 8 * k as u8).collect();
        question.temperature_halves = vec![1; 32];
        for (k, minute) in question.minutes.iter_mut().enumerate() {
            *minute = (k * 64_511 % 65_536) as u16;
        }
        for (k, temperature) in question.temperatures.iter_mut().enumerate() {
            *temperature = (k * 91 % 256) as u8;
        }
        calls.boxes(&question.fit())?;
    }
    // Any, and with faults.
    for _ in 0..6_000 {
        let readings = match random.below(40) {
            0 => 1024,
            1..=3 => random.below(200),
            _ => random.below(24),
        };
        let mut question = Question::drawn(random, readings, 40);
        while random.chance(30) {
            let lengths = random.chance(60);
            question.damage(random);
            if lengths {
                question = question.fit();
            }
        }
        calls.boxes(&question)?;
    }
    Ok(())
}
