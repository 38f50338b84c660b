//! The reader of the sheet, into lists of its own whose used parts are then copied.

use super::checks::{edge_below, out_of_range};
use super::feed::{ByWords, Search};
use super::lines::{find_line, point_line, sample_line};
use super::{refuse, Refusal, Report, MAX_POINTS, MAX_SAMPLES, MAX_SHEET};

/// Passes the header line at byte `from`: where the next line begins.
fn skip_header<S: Search>(sheet: &[u8], from: usize, names: &[u8]) -> Result<usize, Refusal> {
    match find_line::<S>(sheet, from) {
        Some((end, next)) if &sheet[from..end] == names => Ok(next),
        _ => refuse(Report::BadHeader, from),
    }
}

/// What a mark line at byte `place` earns after the first `count` points: 5, 9, 10, 6.
fn point_fault(
    points: &[u16],
    bandwidths: &[u32],
    count: usize,
    point: u16,
    bandwidth: u32,
    place: usize,
) -> Result<(), Refusal> {
    if count != 0 && point < points[count - 1] {
        return refuse(Report::PointOutOfOrder, place);
    }
    if out_of_range(bandwidth) {
        return refuse(Report::BandwidthOutOfRange, place);
    }
    if count != 0 && edge_below(point, bandwidth, points[count - 1], bandwidths[count - 1]) {
        return refuse(Report::EdgeDecreases, place);
    }
    if MAX_POINTS <= count {
        return refuse(Report::TooMany, place);
    }
    Ok(())
}

/// The mark lines from byte `from` on, to the empty line: how many, and where the line after it begins.
fn read_points<S: Search>(
    sheet: &[u8],
    from: usize,
    points: &mut [u16; MAX_POINTS],
    bandwidths: &mut [u32; MAX_POINTS],
) -> Result<(usize, usize), Refusal> {
    let mut at = from;
    let mut count = 0;
    while at < sheet.len() {
        let Some((end, next)) = find_line::<S>(sheet, at) else {
            break;
        };
        if end == at {
            if count == 0 {
                return refuse(Report::NoPoints, at);
            }
            return Ok((count, next));
        }
        let Some((point, bandwidth)) = point_line(&sheet[at..end]) else {
            return refuse(Report::MalformedLine, at);
        };
        point_fault(points, bandwidths, count, point, bandwidth, at)?;
        points[count] = point;
        bandwidths[count] = bandwidth;
        count += 1;
        at = next;
    }
    refuse(Report::MalformedLine, at)
}

/// The reading lines from byte `from` on, to the sheet's end: how many are kept.
fn read_samples<S: Search>(
    sheet: &[u8],
    from: usize,
    minutes: &mut [u16; MAX_SAMPLES],
    values: &mut [u16; MAX_SAMPLES],
) -> Result<usize, Refusal> {
    let mut at = from;
    let mut count = 0;
    let mut last = 0;
    while at < sheet.len() {
        let Some((end, next)) = find_line::<S>(sheet, at) else {
            return refuse(Report::MalformedLine, at);
        };
        let Some((minute, injection, value)) = sample_line(&sheet[at..end]) else {
            return refuse(Report::MalformedLine, at);
        };
        if minute < last {
            return refuse(Report::SampleOutOfOrder, at);
        }
        if 2 < injection {
            if MAX_SAMPLES <= count {
                return refuse(Report::TooMany, at);
            }
            minutes[count] = minute;
            values[count] = value;
            count += 1;
        }
        last = minute;
        at = next;
    }
    Ok(count)
}

/// The reader: how many samples are kept and how many points there are.
#[inline(never)]
pub fn read(
    sheet: &[u8],
    minutes: &mut [u16],
    values: &mut [u16],
    points: &mut [u16],
    bandwidths: &mut [u32],
) -> Result<(usize, usize), Refusal> {
    read_by::<ByWords>(sheet, minutes, values, points, bandwidths)
}

/// The reader by any search for line feeds.
pub fn read_by<S: Search>(
    sheet: &[u8],
    minutes: &mut [u16],
    values: &mut [u16],
    points: &mut [u16],
    bandwidths: &mut [u32],
) -> Result<(usize, usize), Refusal> {
    let uneven = minutes.len() != MAX_SAMPLES
        || values.len() != MAX_SAMPLES
        || points.len() != MAX_POINTS
        || bandwidths.len() != MAX_POINTS;
    if uneven {
        return refuse(Report::LengthMismatch, 0);
    }
    if MAX_SHEET < sheet.len() {
        return refuse(Report::TooLong, MAX_SHEET);
    }
    let mut ts = [0; MAX_SAMPLES];
    let mut vs = [0; MAX_SAMPLES];
    let mut zs = [0; MAX_POINTS];
    let mut hs = [0; MAX_POINTS];
    let first = skip_header::<S>(sheet, 0, b"mark,half")?;
    let (m, header) = read_points::<S>(sheet, first, &mut zs, &mut hs)?;
    let first = skip_header::<S>(sheet, header, b"minute,inj,vdk")?;
    let n = read_samples::<S>(sheet, first, &mut ts, &mut vs)?;
    minutes[..n].copy_from_slice(&ts[..n]);
    values[..n].copy_from_slice(&vs[..n]);
    points[..m].copy_from_slice(&zs[..m]);
    bandwidths[..m].copy_from_slice(&hs[..m]);
    Ok((n, m))
}
