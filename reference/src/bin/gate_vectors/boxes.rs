//! Minute and temperature together.

use crate::calls::{length as lent, listed, wide, MOST_ELEMENTS};
use crate::files::{Answer, Cases};
use reference::boxes::CELLS;
use reference::generators::boxes::Question;
use reference::generators::random::Random;

/// The most marks, numbers of boxes and cells: those of the program.
const MOST_MARKS: usize = 40;
const MOST_BOXES: usize = 2400;
const MOST_CELLS: usize = 4300;

/// Readings as minute, temperature and value, and marks with half widths.
type Reading = (u16, u8, u16);
type MinuteMark = (u16, u32);
type TemperatureMark = (u8, u32);

impl Cases {
    /// The call, with lists of sevens of the stated lengths.
    fn boxes(&mut self, question: &Question) -> Answer {
        let mut numbers = listed(&question.minutes, MOST_ELEMENTS);
        numbers.extend(listed(&question.temperatures, MOST_ELEMENTS));
        numbers.extend(listed(&question.values, MOST_ELEMENTS));
        numbers.extend(listed(&question.minute_marks, MOST_MARKS));
        numbers.extend(listed(&question.minute_halves, MOST_MARKS));
        numbers.extend(listed(&question.temperature_marks, MOST_MARKS));
        numbers.extend(listed(&question.temperature_halves, MOST_MARKS));
        numbers.push(lent(question.boxes, MOST_BOXES));
        numbers.push(lent(question.counts, MOST_CELLS));
        numbers.push(lent(question.sums, MOST_CELLS));
        self.case("boxes", &numbers, b"");
        let (result, boxes, counts, sums) = question.answered(7);
        let lists = vec![boxes, wide(&counts), wide(&sums)];
        self.answer("boxes", result.map(|()| 0), b"", lists)
    }

    fn asked(
        &mut self,
        readings: &[Reading],
        minute: &[MinuteMark],
        warm: &[TemperatureMark],
    ) -> Answer {
        self.boxes(&question(readings, minute, warm))
    }
}

fn question(readings: &[Reading], minute: &[MinuteMark], warm: &[TemperatureMark]) -> Question {
    Question {
        minutes: readings.iter().map(|r| r.0).collect(),
        temperatures: readings.iter().map(|r| r.1).collect(),
        values: readings.iter().map(|r| r.2).collect(),
        minute_marks: minute.iter().map(|m| m.0).collect(),
        minute_halves: minute.iter().map(|m| m.1).collect(),
        temperature_marks: warm.iter().map(|m| m.0).collect(),
        temperature_halves: warm.iter().map(|m| m.1).collect(),
        boxes: 0,
        counts: 0,
        sums: 0,
    }
    .fit()
}

/// The cells that are not 0, as position, count and sum.
#[track_caller]
fn holds(answer: &Answer, cells: &[(usize, u64, u64)]) {
    let (counts, sums) = (&answer.lists[1], &answer.lists[2]);
    let used = |&cell: &usize| counts[cell] != 0 || sums[cell] != 0;
    let found: Vec<_> = (0..CELLS)
        .filter(used)
        .map(|cell| (cell, counts[cell], sums[cell]))
        .collect();
    assert_eq!(found, cells);
}

const READINGS: [Reading; 4] = [(10, 50, 40), (20, 60, 60), (20, 200, 80), (35, 50, 20)];
const MINUTE: [MinuteMark; 2] = [(10, 10), (35, 5)];
const WARM: [TemperatureMark; 2] = [(55, 5), (200, 1)];

pub fn cases(cases: &mut Cases) {
    worked(cases);
    edges(cases);
    strips(cases);
    order(cases);
    lengths(cases);
}

/// The worked cases of the specification.
fn worked(cases: &mut Cases) {
    let four = cases.asked(&READINGS, &MINUTE, &WARM);
    four.accepted(0, &[2, 100, 1, 80, 1, 20, 0, 0]);
    holds(&four, &[(66, 2, 100), (68, 1, 80), (196, 1, 20)]);
    // Readings in another order.
    let mut turned = READINGS;
    turned.reverse();
    let other = cases.asked(&turned, &MINUTE, &WARM);
    assert_eq!(other.lists, four.lists);
    // An edge that goes back.
    let back = cases.asked(&[(60, 0, 9)], &[(100, 10), (101, 50)], &[(0, 1)]);
    back.accepted(0, &[0, 0, 1, 9]);
    holds(&back, &[(66, 1, 9)]);
    // Cuts below 0 stay apart.
    let below = cases.asked(&[(0, 0, 9)], &[(0, 10), (0, 5)], &[(0, 3)]);
    holds(&below, &[(131, 1, 9)]);
}

/// Readings on both edges and beside them, in each direction; the widest windows; no readings.
fn edges(cases: &mut Cases) {
    let along = [9, 10, 30, 31];
    let minutes: Vec<Reading> = along
        .iter()
        .zip([1, 2, 4, 8])
        .map(|(&t, v)| (t, 7, v))
        .collect();
    let answer = cases.asked(&minutes, &[(20, 10)], &[(7, 1)]);
    answer.accepted(0, &[2, 6]);
    holds(&answer, &[(1, 1, 1), (66, 2, 6), (131, 1, 8)]);
    let warm: Vec<Reading> = along
        .iter()
        .zip([1, 2, 4, 8])
        .map(|(&t, v)| (7, t as u8, v))
        .collect();
    let answer = cases.asked(&warm, &[(7, 1)], &[(20, 10)]);
    answer.accepted(0, &[2, 6]);
    holds(&answer, &[(65, 1, 1), (66, 2, 6), (67, 1, 8)]);
    let ends = [(0, 0, 1), (65_535, 255, 2), (0, 255, 4), (65_535, 0, 8)];
    cases
        .asked(&ends, &[(0, 65_536)], &[(255, 256)])
        .accepted(0, &[4, 15]);
    cases
        .asked(&ends, &[(65_535, 65_535)], &[(0, 255)])
        .accepted(0, &[4, 15]);
    cases
        .asked(&ends, &[(65_535, 65_534)], &[(0, 254)])
        .accepted(0, &[1, 8]);
    cases.asked(&[], &[(5, 1)], &[(5, 1)]).accepted(0, &[0, 0]);
    // Equal marks, and a window that begins where another ends.
    let equal = cases.asked(&[(50, 9, 1)], &[(20, 10), (20, 10)], &[(9, 9)]);
    holds(&equal, &[(131, 1, 1)]);
    let meeting = cases.asked(&[(60, 9, 1)], &[(20, 10), (41, 10)], &[(9, 9)]);
    holds(&meeting, &[(196, 1, 1)]);
}

/// All 65 strips of both directions, and the fullest cell.
fn strips(cases: &mut Cases) {
    let minute: Vec<MinuteMark> = (0..32).map(|k| (1000 * k, 10)).collect();
    let warm: Vec<TemperatureMark> = (0..32).map(|k| (7 * k, 1)).collect();
    let all = cases.asked(&[(65_535, 255, 9), (0, 0, 4)], &minute, &warm);
    holds(&all, &[(66, 1, 4), (4224, 1, 9)]);
    let diagonal: Vec<Reading> = (0..64).map(|k| (500 * k, 4 * k as u8, k)).collect();
    cases.asked(&diagonal, &minute, &warm);
    let full = cases.asked(&[(5, 5, 65_535); 1024], &[(5, 1)], &[(5, 1)]);
    full.accepted(0, &[1024, 67_107_840]);
    holds(&full, &[(66, 1024, 67_107_840)]);
}

/// Each case has the fault of its report and the faults of those that come later in the call's order.
fn order(cases: &mut Cases) {
    let one = [(3, 3, 3)];
    let many = [(3, 3, 3); 1025];
    let mut refused =
        |readings: &[Reading], minute: &[MinuteMark], warm: &[TemperatureMark], number, place| {
            cases.asked(readings, minute, warm).refused(number, place);
        };
    refused(&many, &[], &[], 6, 0);
    refused(&one, &[(9, 0); 33], &[], 6, 0);
    refused(&one, &[], &[(9, 0); 33], 6, 0);
    refused(&one, &[(9, 0); 33], &[(9, 0); 33], 6, 0);
    refused(&one, &[], &[(9, 0), (8, 0)], 7, 0);
    refused(&one, &[(9, 0), (8, 0)], &[], 7, 0);
    refused(&one, &[(9, 0), (9, 0), (8, 0)], &[(9, 0), (8, 0)], 5, 2);
    refused(&one, &[(9, 0), (8, 0), (7, 0)], &[(9, 0)], 5, 1);
    refused(&one, &[(9, 0), (9, 0)], &[(9, 0), (10, 0), (8, 0)], 17, 2);
    refused(&one, &[(9, 1)], &[(9, 1), (8, 1), (7, 1)], 17, 1);
    refused(&one, &[(9, 1), (9, 0)], &[(9, 0), (10, 0)], 9, 1);
    refused(&one, &[(9, 1), (9, 65_537)], &[(9, 1), (10, 0)], 9, 1);
    refused(
        &one,
        &[(9, 1), (9, 65_536)],
        &[(9, 1), (10, 1), (10, 257)],
        9,
        2,
    );
    cases
        .asked(&one, &[(9, 65_536)], &[(9, 256)])
        .accepted(0, &[1, 3]);
    cases
        .asked(&many[..1024], &[(9, 1); 32], &[(9, 1); 32])
        .accepted(0, &[0; 2048]);
}

/// Each list one short and long, alone and with other faults.
fn lengths(cases: &mut Cases) {
    let mut fit = question(&READINGS, &MINUTE, &WARM);
    for half in [5, 0] {
        fit.minute_halves[1] = half;
        let mut refused = |change: fn(&mut Question)| {
            let mut uneven = fit.clone();
            change(&mut uneven);
            cases.boxes(&uneven).refused(8, 0);
        };
        refused(|q| q.minutes.push(1));
        refused(|q| q.minutes.truncate(3));
        refused(|q| q.temperatures.push(1));
        refused(|q| q.values.push(1));
        refused(|q| q.minute_marks.push(99));
        refused(|q| q.minute_halves.push(1));
        refused(|q| q.temperature_marks.push(250));
        refused(|q| q.temperature_halves.push(1));
        refused(|q| q.boxes = 0);
        refused(|q| q.boxes = 4);
        refused(|q| q.boxes = 7);
        refused(|q| q.boxes = 9);
        refused(|q| q.boxes = 16);
        refused(|q| q.counts = CELLS - 1);
        refused(|q| q.counts = CELLS + 1);
        refused(|q| q.sums = CELLS - 1);
        refused(|q| q.sums = 0);
    }
}

/// Drawn apart from the cases of the other calls.
pub fn random_cases(cases: &mut Cases) {
    let random = &mut Random(19);
    for _ in 0..120 {
        let readings = random.below(14);
        let mut question = Question::drawn(random, readings, 30);
        while random.chance(25) {
            let lengths = random.chance(50);
            question.damage(random);
            if lengths {
                question = question.fit();
            }
        }
        cases.boxes(&question);
    }
}
