//! Two tanks over the same marks [Two tanks].

use crate::{first_fall, refuse, sweep, Refusal, MISSING, MOST_READINGS, ROW_WIDTH};

/// One of the two tanks.
#[derive(Clone, Copy, Debug, PartialEq, Eq)]
pub enum Tank {
    First,
    Second,
}

/// Where two tanks part: the mark's position, the tank that is higher there,
/// and the run of that tank in its own value list.
#[derive(Clone, Copy, Debug, PartialEq, Eq)]
pub struct Parting {
    pub position: usize,
    pub higher: Tank,
    pub left: usize,
    pub right: usize,
}

/// A value list beside its minutes.
pub type Readings<'a> = (&'a [u16], &'a [u16]);

/// The faults of the second tank's own lists.
fn second_fits((minutes, values): Readings) -> Result<(), Refusal> {
    if minutes.len() != values.len() {
        return refuse(16, 0);
    }
    if minutes.len() > MOST_READINGS {
        return refuse(16, 0);
    }
    if let Some(position) = first_fall(minutes) {
        return refuse(16, position);
    }
    Ok(())
}

/// The rows of one tank, five numbers each.
fn rows(
    (minutes, values): Readings,
    marks: &[u16],
    halves: &[u32],
) -> Result<Vec<[u64; ROW_WIDTH]>, Refusal> {
    let mut list = vec![0; ROW_WIDTH * marks.len()];
    sweep(minutes, values, marks, halves, &mut list)?;
    let row = |five: &[u64]| [five[0], five[1], five[2], five[3], five[4]];
    Ok(list.chunks(ROW_WIDTH).map(row).collect())
}

/// Whether the one value stands above the other, missing above all that are
/// not.
fn above(one: u64, other: u64) -> bool {
    match (one == MISSING, other == MISSING) {
        (true, true) => false,
        (true, false) => true,
        (false, true) => false,
        (false, false) => one > other,
    }
}

/// Where two tanks part, if they do. The reports are those of the sweep with
/// the first tank, but for the rows; then 16 of the second tank's lists.
pub fn compare(
    first: Readings,
    second: Readings,
    marks: &[u16],
    halves: &[u32],
) -> Result<Option<Parting>, Refusal> {
    let of_first = rows(first, marks, halves)?;
    second_fits(second)?;
    let of_second = rows(second, marks, halves)?;
    for (position, (one, other)) in of_first.iter().zip(&of_second).enumerate() {
        let (higher, row) = if above(one[4], other[4]) {
            (Tank::First, one)
        } else if above(other[4], one[4]) {
            (Tank::Second, other)
        } else {
            continue;
        };
        return Ok(Some(Parting {
            position,
            higher,
            left: row[0] as usize,
            right: row[1] as usize,
        }));
    }
    Ok(None)
}

/// The run of the tank that is higher where they part: whose value list, and
/// its start and end there. Where they do not part, and on a refusal, it is the
/// empty one at the start of the first list.
pub fn compared_run(
    first: Readings,
    second: Readings,
    marks: &[u16],
    halves: &[u32],
) -> (Tank, usize, usize) {
    match compare(first, second, marks, halves) {
        Ok(Some(parting)) => (parting.higher, parting.left, parting.right),
        Ok(None) | Err(_) => (Tank::First, 0, 0),
    }
}
