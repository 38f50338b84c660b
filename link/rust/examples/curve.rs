//! Reads a sheet from standard input and writes its curve, or why it was refused; then the estimates of
//! lists given here, five numbers a point with a dash for a missing value, and the passes.

use std::io::{self, Read, Write};
use tankcurve::{Error, ROW_WIDTH};

fn main() -> io::Result<()> {
    let mut sheet = Vec::new();
    // One byte more than a sheet may have decides that it is too long.
    io::stdin()
        .take(tankcurve::MAX_SHEET as u64 + 1)
        .read_to_end(&mut sheet)?;
    let mut out = [0; tankcurve::MAX_OUTPUT];
    let text = match tankcurve::text(&sheet, &mut out) {
        Ok(curve) => curve,
        Err(Error::Refused(refusal)) => {
            tankcurve::refusal_text(refusal, &mut out).map_err(io::Error::other)?
        }
        Err(unknown) => return Err(io::Error::other(unknown)),
    };
    let mut standard = io::stdout().lock();
    standard.write_all(text)?;

    let minutes = [10, 20, 20, 35];
    let values = [40, 60, 80, 20];
    let points = [20, 25, 60];
    let bandwidths = [10, 15, 20];
    let mut rows = [0; 3 * ROW_WIDTH];
    let curve = tankcurve::smooth(&minutes, &values, &points, &bandwidths, &mut rows)
        .map_err(io::Error::other)?;
    for row in curve.rows {
        let (left, right, weight, sum) = (row.left(), row.right(), row.weight(), row.sum());
        write!(standard, "{left} {right} {weight} {sum} ")?;
        match row.value() {
            Some(value) => writeln!(standard, "{value}")?,
            None => writeln!(standard, "-")?,
        }
    }
    writeln!(standard, "passes {}", curve.passes)
}
