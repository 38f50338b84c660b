//! Weights and sums as doubles, by their bit patterns.

use reference::*;

/// Numbers about the places where a cell changes, the greatest sums, and the
/// greatest number.
const NUMBERS: [u64; 10] = [
    0,
    1,
    (1 << 32) - 1,
    1 << 32,
    (1 << 53) - 1,
    1 << 53,
    (1 << 53) + 1,
    (1 << 58) - (1 << 42),
    18_034_464_286_310_400_000,
    u64::MAX,
];

fn bits(number: f64) -> u64 {
    number.to_bits()
}

#[test]
fn cells_of_a_row_without_weight() {
    for number in NUMBERS {
        assert_eq!(cell(0, number), Cell::Empty);
    }
}

#[test]
fn cells_of_a_row_with_weight() {
    for weight in [1, 5, u64::MAX] {
        let of = |number| cell(weight, number);
        assert_eq!(of(0), Cell::One(0));
        assert_eq!(of(1), Cell::One(bits(1.0)));
        assert_eq!(of((1 << 32) - 1), Cell::One(bits(4294967295.0)));
        assert_eq!(of(1 << 32), Cell::One(bits(4294967296.0)));
        assert_eq!(of((1 << 53) - 1), Cell::One(bits(9007199254740991.0)));
        assert_eq!(of(1 << 53), Cell::Pair(bits(9007199254740992.0), 0));
        assert_eq!(
            of((1 << 53) + 1),
            Cell::Pair(bits(9007199254740992.0), bits(1.0))
        );
        assert_eq!(
            of((1 << 58) - (1 << 42)),
            Cell::Pair(bits(288225978105200640.0), 0)
        );
        assert_eq!(
            of(18_034_464_286_310_400_000),
            Cell::Pair(bits(18034464283156283392.0), bits(3154116608.0))
        );
        assert_eq!(
            of(u64::MAX),
            Cell::Pair(bits(18446744069414584320.0), bits(4294967295.0))
        );
    }
}

/// Every pattern is the one that the language's own cast gives, and no part is
/// rounded by it.
#[test]
fn patterns_are_those_of_the_cast() {
    for number in NUMBERS {
        let low = number % (1 << 32);
        for part in [number - low, low] {
            assert_eq!(pattern(part), bits(part as f64));
            assert_eq!(part as f64 as u128, u128::from(part));
        }
    }
}

#[test]
fn numbers_are_had_back() {
    for number in NUMBERS {
        assert_eq!(cell(5, number).had_back(), Some(number.into()));
        assert_eq!(cell(0, number).had_back(), Some(0));
    }
    // Added as doubles, 2^53 and 1 are 2^53.
    assert_eq!(9007199254740992.0 + 1.0, 9007199254740992.0);
}

#[test]
fn no_whole_number() {
    let none = [
        0.5,
        5.5,
        -0.0,
        -1.0,
        18446744073709551616.0,
        f64::INFINITY,
        f64::NAN,
    ];
    for double in none {
        assert_eq!(whole(bits(double)), None);
    }
    assert_eq!(Cell::One(bits(5.5)).had_back(), None);
}

/// By the row's weight and never by the number.
#[test]
fn both_cells_of_a_row() {
    let of = |weight, sum| row_cells(&[0, 1, weight, sum, 7]);
    assert_eq!(of(5, 0), [Cell::One(bits(5.0)), Cell::One(0)]);
    assert_eq!(of(0, 0), [Cell::Empty; 2]);
    assert_eq!(of(0, 9), [Cell::Empty; 2]);
    assert_eq!(
        of(200, 1 << 53),
        [
            Cell::One(bits(200.0)),
            Cell::Pair(bits(9007199254740992.0), 0)
        ]
    );
    assert_eq!(
        of(1 << 53, 3),
        [
            Cell::Pair(bits(9007199254740992.0), 0),
            Cell::One(bits(3.0))
        ]
    );
}
