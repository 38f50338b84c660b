//! What the program writes, as bytes in a buffer.

use super::{read, refuse, smooth, Refusal, Report};
use super::{MAX_OUTPUT, MAX_POINTS, MAX_SAMPLES, MISSING, ROW_WIDTH};

fn put_text(out: &mut [u8], at: usize, text: &[u8]) -> usize {
    let end = at + text.len();
    out[at..end].copy_from_slice(text);
    end
}

fn put_byte(out: &mut [u8], at: usize, b: u8) -> usize {
    out[at] = b;
    at + 1
}

/// The digits of the numbers below 100.
static PAIRS: [[u8; 2]; 100] = {
    let mut pairs = [[0; 2]; 100];
    let mut k = 0;
    while k < 100 {
        pairs[k] = [b'0' + (k / 10) as u8, b'0' + (k % 10) as u8];
        k += 1;
    }
    pairs
};

fn put_two(out: &mut [u8], at: usize, n: u32) -> usize {
    put_text(out, at, &PAIRS[n as usize])
}

/// Four digits, from the table: fewer instructions here than the proved function's word.
fn put_four(out: &mut [u8], at: usize, n: u32) -> usize {
    let [a, b] = PAIRS[(n / 100) as usize];
    let [c, d] = PAIRS[(n % 100) as usize];
    put_text(out, at, &[a, b, c, d])
}

fn put_eight(out: &mut [u8], at: usize, n: u32) -> usize {
    let middle = put_four(out, at, n / 10_000);
    put_four(out, middle, n % 10_000)
}

/// A number of at most four digits.
fn put_short(out: &mut [u8], at: usize, n: u32) -> usize {
    if n < 10 {
        return put_byte(out, at, b'0' + n as u8);
    }
    if n < 100 {
        return put_two(out, at, n);
    }
    if n < 1000 {
        let second = put_byte(out, at, b'0' + (n / 100) as u8);
        return put_two(out, second, n % 100);
    }
    put_four(out, at, n)
}

/// A number of at most eight digits.
fn put_medium(out: &mut [u8], at: usize, n: u32) -> usize {
    if n < 10_000 {
        return put_short(out, at, n);
    }
    let last = put_short(out, at, n / 10_000);
    put_four(out, last, n % 10_000)
}

/// A number in decimal: what stands before its last eight or sixteen digits, then these.
fn put_decimal(out: &mut [u8], at: usize, n: u64) -> usize {
    const E8: u64 = 100_000_000;
    if n < E8 {
        return put_medium(out, at, n as u32);
    }
    if n < E8 * E8 {
        let last = put_medium(out, at, (n / E8) as u32);
        return put_eight(out, last, (n % E8) as u32);
    }
    let middle = put_short(out, at, (n / E8 / E8) as u32);
    let last = put_eight(out, middle, (n / E8 % E8) as u32);
    put_eight(out, last, (n % E8) as u32)
}

fn put_after_comma(out: &mut [u8], at: usize, n: u64) -> usize {
    let begin = put_byte(out, at, b',');
    put_decimal(out, begin, n)
}

/// A mark's line: point, bandwidth and the row.
fn put_curve_line(out: &mut [u8], at: usize, point: u16, bandwidth: u32, row: &[u64]) -> usize {
    let mut at = put_decimal(out, at, u64::from(point));
    at = put_after_comma(out, at, u64::from(bandwidth));
    for &n in &row[..4] {
        at = put_after_comma(out, at, n);
    }
    at = put_byte(out, at, b',');
    at = if row[4] == MISSING {
        put_byte(out, at, b'-')
    } else {
        put_decimal(out, at, row[4])
    };
    put_byte(out, at, b'\n')
}

fn put_pair_line(out: &mut [u8], at: usize, a: u64, b: u64) -> usize {
    let first_end = put_decimal(out, at, a);
    let second_end = put_after_comma(out, first_end, b);
    put_byte(out, second_end, b'\n')
}

/// Smooths the lists of an accepted sheet and writes the curve.
fn put_curve(
    out: &mut [u8],
    minutes: &[u16],
    values: &[u16],
    points: &[u16],
    bandwidths: &[u32],
) -> Result<usize, Refusal> {
    let mut rows = [0; ROW_WIDTH * MAX_POINTS];
    let rows = &mut rows[..ROW_WIDTH * points.len()];
    let passes = smooth(minutes, values, points, bandwidths, rows)?;
    let mut at = put_text(out, 0, b"mark,half,left,right,weight,sum,vdk\n");
    let marks = points.iter().zip(bandwidths);
    for ((&point, &bandwidth), row) in marks.zip(rows.chunks_exact(ROW_WIDTH)) {
        at = put_curve_line(out, at, point, bandwidth, row);
    }
    at = put_text(out, at, b"\nkept,passes\n");
    Ok(put_pair_line(out, at, minutes.len() as u64, passes))
}

/// The curve of a sheet, in front of `out`, and its length.
#[inline(never)]
pub fn text(sheet: &[u8], out: &mut [u8]) -> Result<usize, Refusal> {
    if out.len() != MAX_OUTPUT {
        return refuse(Report::LengthMismatch, 0);
    }
    let mut minutes = [0; MAX_SAMPLES];
    let mut values = [0; MAX_SAMPLES];
    let mut points = [0; MAX_POINTS];
    let mut bandwidths = [0; MAX_POINTS];
    let (n, m) = read(
        sheet,
        &mut minutes,
        &mut values,
        &mut points,
        &mut bandwidths,
    )?;
    put_curve(
        out,
        &minutes[..n],
        &values[..n],
        &points[..m],
        &bandwidths[..m],
    )
}

/// The text of a refusal, in front of `out`, and its length.
#[inline(never)]
pub fn refusal_text(number: u64, place: u64, out: &mut [u8]) -> Result<usize, Refusal> {
    if out.len() != MAX_OUTPUT {
        return refuse(Report::LengthMismatch, 0);
    }
    let at = put_text(out, 0, b"refused,place\n");
    Ok(put_pair_line(out, at, number, place))
}
