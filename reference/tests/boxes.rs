//! Minute and temperature together.

use reference::boxes::*;
use reference::Refusal;

/// Readings as minute, temperature, value.
type Reading = (u16, u8, u16);

/// The three lists after a call.
#[derive(Debug, PartialEq)]
struct Lists {
    boxes: Vec<u64>,
    counts: Vec<u32>,
    sums: Vec<u32>,
}

impl Lists {
    /// All sevens, the first list of so many.
    fn of(boxes: usize) -> Lists {
        Lists {
            boxes: vec![7; boxes],
            counts: vec![7; CELLS],
            sums: vec![7; CELLS],
        }
    }

    /// The cells that are not empty, as minute strip, temperature strip, count and sum.
    fn cells(&self) -> Vec<(usize, usize, u32, u32)> {
        (0..CELLS)
            .filter(|&cell| self.counts[cell] != 0 || self.sums[cell] != 0)
            .map(|cell| {
                (
                    cell / STRIPS,
                    cell % STRIPS,
                    self.counts[cell],
                    self.sums[cell],
                )
            })
            .collect()
    }
}

/// Asks with lists of the right lengths, and looks whether a refusal left them.
fn ask(
    readings: &[Reading],
    minute: &[(u16, u32)],
    warm: &[(u8, u32)],
) -> Result<Lists, (u8, u64)> {
    let minutes: Vec<u16> = readings.iter().map(|r| r.0).collect();
    let temperatures: Vec<u8> = readings.iter().map(|r| r.1).collect();
    let values: Vec<u16> = readings.iter().map(|r| r.2).collect();
    let (minute_marks, minute_halves): (Vec<u16>, Vec<u32>) = minute.iter().copied().unzip();
    let (warm_marks, warm_halves): (Vec<u8>, Vec<u32>) = warm.iter().copied().unzip();
    let room = 2 * minute.len() * warm.len();
    let mut lists = Lists::of(room);
    let answer = boxes(
        &minutes,
        &temperatures,
        &values,
        &minute_marks,
        &minute_halves,
        &warm_marks,
        &warm_halves,
        &mut lists.boxes,
        &mut lists.counts,
        &mut lists.sums,
    );
    match answer {
        Ok(()) => Ok(lists),
        Err(Refusal { number, place }) => {
            assert_eq!(lists, Lists::of(room));
            Err((number, place))
        }
    }
}

/// Four readings, two marks each way, minute marks slowest.
#[test]
fn pairs_in_order() {
    let readings = [(10, 50, 40), (20, 60, 60), (20, 200, 80), (35, 50, 20)];
    let lists = ask(&readings, &[(10, 10), (35, 5)], &[(55, 5), (200, 1)]).unwrap();
    assert_eq!(lists.boxes, [2, 100, 1, 80, 1, 20, 0, 0]);
    // Cuts 0, 21, 30, 41 and 50, 61, 199, 202.
    assert_eq!(
        lists.cells(),
        [(1, 1, 2, 100), (1, 3, 1, 80), (3, 1, 1, 20)]
    );
    assert_eq!((lists.counts.len(), lists.sums.len()), (65 * 65, 65 * 65));
}

/// Edges that go back: the second window begins before the first.
#[test]
fn edges_may_go_back() {
    let lists = ask(&[(60, 0, 9)], &[(100, 10), (101, 50)], &[(0, 1)]).unwrap();
    assert_eq!(lists.boxes, [0, 0, 1, 9]);
    // Cuts 51, 90, 111, 152 and −1, 2.
    assert_eq!(lists.cells(), [(1, 1, 1, 9)]);
}

/// Cuts below 0 stay apart.
#[test]
fn negative_cuts() {
    let lists = ask(&[(0, 0, 9)], &[(0, 10), (0, 5)], &[(0, 3)]).unwrap();
    assert_eq!(lists.cells(), [(2, 1, 1, 9)]);
    let lists = ask(&[(0, 0, 9)], &[(0, 65_536)], &[(0, 256), (0, 255)]).unwrap();
    assert_eq!(lists.cells(), [(1, 2, 1, 9)]);
}

/// A reading on a left edge, on a right edge, and one past either.
#[test]
fn closed_on_both_sides() {
    let counted = |minute| ask(&[(minute, 7, 3)], &[(20, 10)], &[(7, 1)]).unwrap();
    let seen: Vec<(u64, usize)> = [9, 10, 30, 31]
        .into_iter()
        .map(|minute| (counted(minute).boxes[0], counted(minute).cells()[0].0))
        .collect();
    assert_eq!(seen, [(0, 0), (1, 1), (1, 1), (0, 2)]);
    let counted = |warm| ask(&[(7, warm, 3)], &[(7, 1)], &[(20, 10)]).unwrap();
    let seen: Vec<(u64, usize)> = [9, 10, 30, 31]
        .into_iter()
        .map(|warm| (counted(warm).boxes[0], counted(warm).cells()[0].1))
        .collect();
    assert_eq!(seen, [(0, 0), (1, 1), (1, 1), (0, 2)]);
}

/// Equal cuts count once: equal marks, and an edge that meets another's.
#[test]
fn equal_cuts_once() {
    let lists = ask(&[(50, 9, 1)], &[(20, 10), (20, 10)], &[(9, 9)]).unwrap();
    assert_eq!(lists.cells(), [(2, 1, 1, 1)]);
    assert_eq!(lists.boxes, [0; 4]);
    // 10 to 30, and 31 to 51.
    let lists = ask(&[(60, 9, 1)], &[(20, 10), (41, 10)], &[(9, 9)]).unwrap();
    assert_eq!(lists.cells(), [(3, 1, 1, 1)]);
}

/// 65 strips in both directions, and the last cell.
#[test]
fn all_strips() {
    let minute: Vec<(u16, u32)> = (0..32).map(|k| (1000 * k, 10)).collect();
    let warm: Vec<(u8, u32)> = (0..32).map(|k| (7 * k, 1)).collect();
    let lists = ask(&[(65_535, 255, 9), (0, 0, 4)], &minute, &warm).unwrap();
    assert_eq!(lists.cells(), [(1, 1, 1, 4), (64, 64, 1, 9)]);
    assert_eq!((lists.counts[4224], lists.sums[4224]), (1, 9));
    let lists = ask(&[], &minute, &warm).unwrap();
    assert_eq!(
        lists,
        Lists {
            boxes: vec![0; 2048],
            counts: vec![0; CELLS],
            sums: vec![0; CELLS]
        }
    );
}

/// All readings in one cell, with the greatest values.
#[test]
fn the_fullest_cell() {
    let lists = ask(&[(5, 5, 65_535); 1024], &[(5, 1)], &[(5, 1)]).unwrap();
    assert_eq!(lists.cells(), [(1, 1, 1024, 67_107_840)]);
    assert_eq!(lists.boxes, [1024, 67_107_840]);
}

/// A box has the readings of its cells, in any order of readings.
#[test]
fn boxes_are_sums_of_cells() {
    let readings: Vec<Reading> = (0..300u32)
        .map(|k| {
            (
                (k * 7919 % 400) as u16,
                (k * 31 % 256) as u8,
                (k * 97 % 1000) as u16,
            )
        })
        .collect();
    let minute: Vec<(u16, u32)> = (0..20)
        .map(|k| (17 * k, 1 + u32::from(k) * 13 % 50))
        .collect();
    let warm: Vec<(u8, u32)> = (0..15)
        .map(|k| (16 * k, 1 + u32::from(k) * 11 % 40))
        .collect();
    let lists = ask(&readings, &minute, &warm).unwrap();
    assert_eq!(lists.counts.iter().sum::<u32>(), 300);
    assert_eq!(
        lists.sums.iter().sum::<u32>(),
        readings.iter().map(|r| u32::from(r.2)).sum::<u32>()
    );
    let mut turned = readings.clone();
    turned.reverse();
    assert_eq!(ask(&turned, &minute, &warm).unwrap(), lists);
}

/// 8, 6, 7, 5, 17, 9, each with the faults of those behind it.
#[test]
fn reports() {
    let one = [(3, 3, 3)];
    let many = vec![(3, 3, 3); 1025];
    let refusal = |readings: &[Reading], minute: &[(u16, u32)], warm: &[(u8, u32)]| {
        ask(readings, minute, warm).unwrap_err()
    };
    assert_eq!(refusal(&many, &[], &[]), (6, 0));
    assert_eq!(refusal(&one, &[(9, 0); 33], &[]), (6, 0));
    assert_eq!(refusal(&one, &[], &[(9, 0); 33]), (6, 0));
    assert_eq!(refusal(&one, &[], &[(9, 0), (8, 0)]), (7, 0));
    assert_eq!(refusal(&one, &[(9, 0), (8, 0)], &[]), (7, 0));
    assert_eq!(
        refusal(&one, &[(9, 0), (9, 0), (8, 0)], &[(9, 0), (8, 0)]),
        (5, 2)
    );
    assert_eq!(
        refusal(&one, &[(9, 0), (9, 0)], &[(9, 0), (10, 0), (8, 0)]),
        (17, 2)
    );
    assert_eq!(refusal(&one, &[(9, 1), (9, 0)], &[(9, 0), (10, 0)]), (9, 1));
    assert_eq!(
        refusal(&one, &[(9, 1), (9, 65_537)], &[(9, 1), (10, 0)]),
        (9, 1)
    );
    assert_eq!(
        refusal(&one, &[(9, 1), (9, 65_536)], &[(9, 1), (10, 1), (10, 257)]),
        (9, 2)
    );
    assert!(ask(&one, &[(9, 65_536)], &[(9, 256)]).is_ok());
    assert!(ask(&many[..1024], &[(9, 1); 32], &[(9, 1); 32]).is_ok());
}

/// 8 of each list, with the faults of all reports behind it.
#[test]
fn lengths() {
    let of = |n: [usize; 10]| {
        let mut lists = Lists {
            boxes: vec![7; n[7]],
            counts: vec![7; n[8]],
            sums: vec![7; n[9]],
        };
        boxes(
            &vec![3; n[0]],
            &vec![3; n[1]],
            &vec![3; n[2]],
            &vec![3; n[3]],
            &vec![0; n[4]],
            &vec![3; n[5]],
            &vec![0; n[6]],
            &mut lists.boxes,
            &mut lists.counts,
            &mut lists.sums,
        )
        .unwrap_err()
    };
    let fit = [1025, 1025, 1025, 33, 33, 0, 0, 0, CELLS, CELLS];
    assert_eq!(
        of(fit),
        Refusal {
            number: 6,
            place: 0
        }
    );
    for list in 0..10 {
        let mut uneven = fit;
        uneven[list] += 1;
        assert_eq!(
            of(uneven),
            Refusal {
                number: 8,
                place: 0
            },
            "list {list}"
        );
    }
    let mut fit = [3, 3, 3, 2, 2, 3, 3, 12, CELLS, CELLS];
    assert_eq!(
        of(fit),
        Refusal {
            number: 9,
            place: 0
        }
    );
    for room in [0, 6, 11, 13] {
        fit[7] = room;
        assert_eq!(
            of(fit),
            Refusal {
                number: 8,
                place: 0
            }
        );
    }
}
