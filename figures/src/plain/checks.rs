//! The refusals of a sweep.

use super::{refuse, Refusal, Report, MAX_POINTS, MAX_SAMPLES, ROW_WIDTH};

/// The lowest position whose element is below the one before.
fn first_decrease(xs: &[u16]) -> Option<usize> {
    xs.windows(2).position(|w| w[1] < w[0]).map(|i| i + 1)
}

pub fn out_of_range(bandwidth: u32) -> bool {
    bandwidth == 0 || 65_536 < bandwidth
}

/// Whether an edge of the window at one point lies below that at the point before it.
pub fn edge_below(point: u16, bandwidth: u32, point_before: u16, bandwidth_before: u32) -> bool {
    let z = u64::from(point);
    let h = u64::from(bandwidth);
    let z0 = u64::from(point_before);
    let h0 = u64::from(bandwidth_before);
    z + h0 < z0 + h || z + h < z0 + h0
}

/// The lowest position at which an edge lies below the one before.
fn first_edge_decrease(points: &[u16], bandwidths: &[u32]) -> Option<usize> {
    let pairs = points.windows(2).zip(bandwidths.windows(2));
    pairs
        .into_iter()
        .position(|(z, h)| edge_below(z[1], h[1], z[0], h[0]))
        .map(|i| i + 1)
}

/// What a sweep is refused for: 8, 6, 7, 4, 5, 9, 10.
pub fn smooth_fault(
    minutes: &[u16],
    values: &[u16],
    points: &[u16],
    bandwidths: &[u32],
    rows: usize,
) -> Result<(), Refusal> {
    let uneven = minutes.len() != values.len()
        || points.len() != bandwidths.len()
        || !rows.is_multiple_of(ROW_WIDTH)
        || rows / ROW_WIDTH != points.len();
    if uneven {
        return refuse(Report::LengthMismatch, 0);
    }
    if MAX_SAMPLES < minutes.len() || MAX_POINTS < points.len() {
        return refuse(Report::TooMany, 0);
    }
    if points.is_empty() {
        return refuse(Report::NoPoints, 0);
    }
    if let Some(i) = first_decrease(minutes) {
        return refuse(Report::SampleOutOfOrder, i);
    }
    if let Some(i) = first_decrease(points) {
        return refuse(Report::PointOutOfOrder, i);
    }
    if let Some(i) = bandwidths.iter().position(|&h| out_of_range(h)) {
        return refuse(Report::BandwidthOutOfRange, i);
    }
    if let Some(i) = first_edge_decrease(points, bandwidths) {
        return refuse(Report::EdgeDecreases, i);
    }
    Ok(())
}
