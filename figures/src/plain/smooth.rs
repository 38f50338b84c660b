//! The whole sweep by fast sum updating: one step a point, and an estimate after each.

use super::{smooth_fault, Refusal, MISSING, ROW_WIDTH};
use std::cmp::Ordering;

/// The six running sums, modulo 2^64.
#[derive(Clone, Copy, Default)]
struct PowerSums {
    s00: u64,
    s10: u64,
    s20: u64,
    s01: u64,
    s11: u64,
    s21: u64,
}

#[derive(Clone, Copy, Default)]
struct RunningSums {
    left: usize,
    right: usize,
    sums: PowerSums,
}

impl PowerSums {
    fn plus_sample(self, time: u16, value: u16) -> PowerSums {
        let t = u64::from(time);
        let v = u64::from(value);
        let tt = t * t;
        PowerSums {
            s00: self.s00.wrapping_add(1),
            s10: self.s10.wrapping_add(t),
            s20: self.s20.wrapping_add(tt),
            s01: self.s01.wrapping_add(v),
            s11: self.s11.wrapping_add(t * v),
            s21: self.s21.wrapping_add(tt * v),
        }
    }

    fn minus_sample(self, time: u16, value: u16) -> PowerSums {
        let t = u64::from(time);
        let v = u64::from(value);
        let tt = t * t;
        PowerSums {
            s00: self.s00.wrapping_sub(1),
            s10: self.s10.wrapping_sub(t),
            s20: self.s20.wrapping_sub(tt),
            s01: self.s01.wrapping_sub(v),
            s11: self.s11.wrapping_sub(t * v),
            s21: self.s21.wrapping_sub(tt * v),
        }
    }

    fn with_run(self, minutes: &[u16], values: &[u16]) -> PowerSums {
        let run = minutes.iter().zip(values);
        run.fold(self, |sums, (&t, &v)| sums.plus_sample(t, v))
    }

    fn without_run(self, minutes: &[u16], values: &[u16]) -> PowerSums {
        let run = minutes.iter().zip(values);
        run.fold(self, |sums, (&t, &v)| sums.minus_sample(t, v))
    }
}

/// The first position from `from` up to `to` whose minute is at least `bound`, else `to`.
pub fn first_from(minutes: &[u16], from: usize, to: usize, bound: u64) -> usize {
    let ahead = &minutes[from..to];
    let found = ahead.iter().position(|&m| bound <= u64::from(m));
    found.map_or(to, |i| from + i)
}

/// One step: the right edge moves on, then the left one, up to the new right.
fn moved(
    running: RunningSums,
    minutes: &[u16],
    values: &[u16],
    point: u16,
    bandwidth: u32,
) -> RunningSums {
    let z = u64::from(point);
    let h = u64::from(bandwidth);
    let right = first_from(minutes, running.right, minutes.len(), z + h + 1);
    let left = first_from(minutes, running.left, right, z.saturating_sub(h));
    let inserted = running.right..right;
    let evicted = running.left..left;
    let sums = running
        .sums
        .with_run(&minutes[inserted.clone()], &values[inserted])
        .without_run(&minutes[evicted.clone()], &values[evicted]);
    RunningSums { left, right, sums }
}

/// (h² − z²) s0 + 2 z s1 − s2, without negative numbers.
fn combined(s0: u64, s1: u64, s2: u64, z: u64, h: u64) -> u64 {
    h * h * s0 + 2 * z * s1 - (z * z * s0 + s2)
}

/// The quotient to the nearest whole number, a half to the even neighbour.
pub fn value(sum: u64, weight: u64) -> u64 {
    if weight == 0 {
        return MISSING;
    }
    let quotient = sum / weight;
    let rest = sum % weight;
    match rest.cmp(&(weight - rest)) {
        Ordering::Less => quotient,
        Ordering::Equal => quotient + quotient % 2,
        Ordering::Greater => quotient + 1,
    }
}

/// The whole sweep: five numbers a point in `rows`, and the passes.
#[inline(never)]
pub fn smooth(
    minutes: &[u16],
    values: &[u16],
    points: &[u16],
    bandwidths: &[u32],
    rows: &mut [u64],
) -> Result<u64, Refusal> {
    smooth_fault(minutes, values, points, bandwidths, rows.len())?;
    let mut running = RunningSums::default();
    let marks = points.iter().zip(bandwidths);
    for ((&point, &bandwidth), row) in marks.zip(rows.chunks_exact_mut(ROW_WIDTH)) {
        running = moved(running, minutes, values, point, bandwidth);
        let (z, h, s) = (u64::from(point), u64::from(bandwidth), running.sums);
        let weight = combined(s.s00, s.s10, s.s20, z, h);
        let sum = combined(s.s01, s.s11, s.s21, z, h);
        row[0] = running.left as u64;
        row[1] = running.right as u64;
        row[2] = weight;
        row[3] = sum;
        row[4] = value(sum, weight);
    }
    Ok(running.right as u64 + running.left as u64)
}
