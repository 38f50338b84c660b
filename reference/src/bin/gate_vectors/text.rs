//! The texts: the curve of a sheet, and a refusal. Most sheets come with the
//! reader's cases.

use crate::calls::MOST_OUT;
use crate::draws;
use crate::files::Cases;
use crate::sheet::{C12, SHEET};
use reference::generators::random::Random;
use reference::MOST_OUTPUT;

pub fn cases(cases: &mut Cases) {
    refusals(cases);
    lengths(cases);
}

/// Numbers and places of every count of digits, a sheet's reports among them.
#[rustfmt::skip]
fn refusals(cases: &mut Cases) {
    let size = |number: u64, place: u64| 16 + (number.to_string().len() + place.to_string().len()) as u64;
    for (number, place) in [
        (0, 0), (0, 1), (1, 0), (1, 1), (2, 0), (10, 16), (1, 32_768), (13, 0), (0, !0), (!0, 0), (1, !0), (!0, 1),
        (!0, !0), (!0 - 1, 1 << 63), (9, 10), (10, 9), (99, 100), (7, u64::from(u32::MAX)), (1 << 32, 7),
    ] {
        let answer = cases.refusal_text(number, place, MOST_OUTPUT);
        assert_eq!((answer.number, answer.detail), (0, size(number, place)));
    }
    // A one and zeros, and nines, one of each count of digits.
    for digits in 1..20 {
        let power = 10u64.pow(digits);
        cases.refusal_text(power, power - 1, MOST_OUTPUT);
    }
    // Each digit, 0 inside and at the end.
    cases.refusal_text(1_234_567_890, 9_080_706_050_403_020_100, MOST_OUTPUT);
}

/// Buffers one short, one long, empty and of the text's own length.
fn lengths(cases: &mut Cases) {
    for out in [MOST_OUTPUT - 1, MOST_OUTPUT + 1, 0, 115, MOST_OUT] {
        for sheet in [SHEET, C12, b""] {
            cases.text(sheet, out).refused(8, 0);
        }
        for (number, place) in [(10, 16), (0, 0), (!0, !0)] {
            cases.refusal_text(number, place, out).refused(8, 0);
        }
    }
}

fn random_text(random: &mut Random, cases: &mut Cases) {
    let sheet = draws::sheet(random);
    cases.text(&sheet, MOST_OUTPUT);
}

/// A number and a place of any size.
fn random_refusal_text(random: &mut Random, cases: &mut Cases) {
    let number = random.number() >> random.below(64);
    let place = random.number() >> random.below(64);
    cases.refusal_text(number, place, MOST_OUTPUT);
}

pub fn random_cases(random: &mut Random, cases: &mut Cases) {
    (0..60).for_each(|_| random_text(random, cases));
    (0..15).for_each(|_| random_refusal_text(random, cases));
}
