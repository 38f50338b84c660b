//! Direct evaluation: the same checks and edges, and at every point a sum over its whole run; for every pair of points a
//! count and a sum over all readings.

use crate::plain::boxes::{fault, fill_cells, Question, BOX_WIDTH};
use crate::plain::{smooth_fault, value, Refusal, ROW_WIDTH};

/// Weight and sum over a run: h² − (minute − z)², and that times the value.
fn direct_sums(minutes: &[u16], values: &[u16], z: i64, h: i64) -> (u64, u64) {
    let mut weight = 0u64;
    let mut sum = 0u64;
    for (&t, &v) in minutes.iter().zip(values) {
        let away = i64::from(t) - z;
        let one = (h * h - away * away) as u64;
        weight += one;
        sum += one * u64::from(v);
    }
    (weight, sum)
}

/// The whole sweep by direct sums: five numbers a point in `rows`, and the passes.
#[inline(never)]
pub fn smooth(
    minutes: &[u16],
    values: &[u16],
    points: &[u16],
    bandwidths: &[u32],
    rows: &mut [u64],
) -> Result<u64, Refusal> {
    smooth_fault(minutes, values, points, bandwidths, rows.len())?;
    let mut left = 0;
    let mut right = 0;
    let marks = points.iter().zip(bandwidths);
    for ((&point, &bandwidth), row) in marks.zip(rows.chunks_exact_mut(ROW_WIDTH)) {
        let z = i64::from(point);
        let h = i64::from(bandwidth);
        while right < minutes.len() && i64::from(minutes[right]) <= z + h {
            right += 1;
        }
        while left < right && i64::from(minutes[left]) + h < z {
            left += 1;
        }
        let (weight, sum) = direct_sums(&minutes[left..right], &values[left..right], z, h);
        row[0] = left as u64;
        row[1] = right as u64;
        row[2] = weight;
        row[3] = sum;
        row[4] = value(sum, weight);
    }
    Ok(left as u64 + right as u64)
}

/// Count and sum of the readings in one box, over all readings. Each fits 32 bits.
fn direct_box(asked: &Question, z: u16, h: u32, y: u8, k: u32) -> (u32, u32) {
    let (mut count, mut sum) = (0, 0);
    let readings = asked
        .minutes
        .iter()
        .zip(&asked.temperatures)
        .zip(&asked.values);
    for ((&minute, &temperature), &value) in readings {
        let inside =
            (u32::from(minute.abs_diff(z)) <= h) & (u32::from(temperature.abs_diff(y)) <= k);
        count += u32::from(inside);
        sum += u32::from(inside) * u32::from(value);
    }
    (count, sum)
}

/// Minute and temperature together by direct sums: every pair looks at every reading. The cells are filled as the plain
/// form does it.
#[inline(never)]
pub fn boxes(
    asked: &Question,
    boxes: &mut [u64],
    counts: &mut [u32],
    sums: &mut [u32],
) -> Result<(), Refusal> {
    fault(asked, boxes.len(), counts.len(), sums.len())?;
    fill_cells(asked, counts, sums);
    let others = asked.temperature_points.len();
    let marks = asked.points.iter().zip(&asked.bandwidths);
    for ((&z, &h), row) in marks.zip(boxes.chunks_exact_mut(BOX_WIDTH * others)) {
        let sides = asked
            .temperature_points
            .iter()
            .zip(&asked.temperature_bandwidths);
        for ((&y, &k), pair) in sides.zip(row.chunks_exact_mut(BOX_WIDTH)) {
            let (count, sum) = direct_box(asked, z, h, y, k);
            pair[0] = count.into();
            pair[1] = sum.into();
        }
    }
    Ok(())
}
