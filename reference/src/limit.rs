//! Questions with a limit: the first mark at or below it, and the reading on
//! which one mark's answer hangs.

use crate::{one_mark, sweep, Refusal, MISSING, ROW_WIDTH};

/// Whether a row has a value, and one that is not over the limit [The first
/// mark at or below a limit].
fn low_enough(row: &[u64], limit: u16) -> bool {
    row[ROW_WIDTH - 1] != MISSING && row[ROW_WIDTH - 1] <= u64::from(limit)
}

/// The lowest mark whose row is low enough, with the passes of a sweep that
/// ends there; none with those of the whole sweep; or the whole sweep's report
/// [The first mark at or below a limit].
pub fn first_at_most(
    minutes: &[u16],
    values: &[u16],
    marks: &[u16],
    halves: &[u32],
    limit: u16,
) -> Result<(Option<usize>, u64), Refusal> {
    let mut rows = vec![0; ROW_WIDTH * marks.len()];
    let passes = sweep(minutes, values, marks, halves, &mut rows)?;
    let found = rows
        .chunks(ROW_WIDTH)
        .position(|row| low_enough(row, limit));
    let Some(first) = found else {
        return Ok((None, passes));
    };
    let ended = sweep(
        minutes,
        values,
        &marks[..=first],
        &halves[..=first],
        &mut vec![0; ROW_WIDTH * (first + 1)],
    )?;
    Ok((Some(first), ended))
}

/// The list without one position.
fn without(list: &[u16], position: usize) -> Vec<u16> {
    [&list[..position], &list[position + 1..]].concat()
}

/// The lowest reading without which the question at the mark has the other
/// answer: each is taken out and the question asked again [The reading that
/// decides].
pub fn decisive(
    minutes: &[u16],
    values: &[u16],
    mark: u16,
    half: u32,
    limit: u16,
) -> Result<Option<usize>, Refusal> {
    let answer = low_enough(&one_mark(minutes, values, mark, half)?, limit);
    for position in 0..minutes.len() {
        let (fewer, others) = (without(minutes, position), without(values, position));
        if low_enough(&one_mark(&fewer, &others, mark, half)?, limit) != answer {
            return Ok(Some(position));
        }
    }
    Ok(None)
}
