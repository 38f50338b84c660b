//! Half widths by neighbours: each mark's distances are sorted, and the K-th
//! gives its half width.

use crate::{first_fall, refuse, row, Refusal, MOST_MARKS, MOST_READINGS, ROW_WIDTH};

/// One more than the K-th smallest distance of a mark to a reading, readings of
/// equal distance counted each; K is counted from 1 [Half widths by
/// neighbours].
fn half_by_neighbours(minutes: &[u16], mark: u16, k: usize) -> u32 {
    let mut distances: Vec<u32> = minutes
        .iter()
        .map(|&minute| u32::from(minute.abs_diff(mark)))
        .collect();
    distances.sort_unstable();
    distances[k - 1] + 1
}

/// The half width of each mark by its K nearest readings, and its row with that
/// half width; or the first of the reports 8, 6, 7, 4, 5 and 14 that holds, with
/// both lists as they were [Half widths by neighbours].
pub fn neighbours(
    minutes: &[u16],
    values: &[u16],
    marks: &[u16],
    k: usize,
    halves: &mut [u32],
    rows: &mut [u64],
) -> Result<(), Refusal> {
    if minutes.len() != values.len()
        || marks.len() != halves.len()
        || rows.len() as u128 != (ROW_WIDTH * marks.len()) as u128
    {
        return refuse(8, 0);
    }
    if minutes.len() > MOST_READINGS || marks.len() > MOST_MARKS {
        return refuse(6, 0);
    }
    if marks.is_empty() {
        return refuse(7, 0);
    }
    if let Some(position) = first_fall(minutes) {
        return refuse(4, position);
    }
    if let Some(position) = first_fall(marks) {
        return refuse(5, position);
    }
    if k == 0 || k > minutes.len() {
        return refuse(14, 0);
    }
    for (position, &mark) in marks.iter().enumerate() {
        halves[position] = half_by_neighbours(minutes, mark, k);
        let five = row(minutes, values, mark, halves[position]);
        rows[ROW_WIDTH * position..][..ROW_WIDTH].copy_from_slice(&five);
    }
    Ok(())
}
