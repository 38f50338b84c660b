//! The row with biweight weights.

use crate::{first_fall, nearest, refuse, Refusal, MISSING, MOST_READINGS, ROW_WIDTH};

/// How many minutes the window reaches on each side [The biweight row].
pub const BIWEIGHT_HALF: u32 = 720;

/// The biweight row at one mark: left, right, weight, sum, value; or the first
/// of the reports 8, 6 and 4 that holds. Each weight is worked out from its
/// distance, by the rule [The biweight row].
pub fn biweight(minutes: &[u16], values: &[u16], mark: u16) -> Result<[u64; ROW_WIDTH], Refusal> {
    if minutes.len() != values.len() {
        return refuse(8, 0);
    }
    if minutes.len() > MOST_READINGS {
        return refuse(6, 0);
    }
    if let Some(position) = first_fall(minutes) {
        return refuse(4, position);
    }
    let z = i128::from(mark);
    let h = i128::from(BIWEIGHT_HALF);
    let mut left = 0;
    let mut right = 0;
    let mut weight: i128 = 0;
    let mut sum: i128 = 0;
    for (&m, &v) in minutes.iter().zip(values) {
        let away = i128::from(m) - z;
        if away < -h {
            left += 1;
        }
        if away <= h {
            right += 1;
        }
        if -h <= away && away <= h {
            let one = (h * h - away * away).pow(2);
            weight += one;
            sum += one * i128::from(v);
        }
    }
    let value = if weight == 0 {
        i128::from(MISSING)
    } else {
        nearest(sum, weight)
    };
    let number = |n: i128| u64::try_from(n).expect("a number below 2^64");
    Ok([left, right, number(weight), number(sum), number(value)])
}
