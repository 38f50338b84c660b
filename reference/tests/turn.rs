//! The record turned to a mark and half width, forth and back.

use reference::*;

const MINUTES: [u16; 4] = [10, 20, 20, 35];
const VALUES: [u16; 4] = [40, 60, 80, 20];

fn no<T>(number: u8, place: u64) -> Result<T, Refusal> {
    Err(Refusal { number, place })
}

fn record(left: u64, right: u64) -> Record {
    Record {
        left,
        right,
        sums: [5; 6],
        passes: 3,
    }
}

fn turned(record: Record, mark: u16, half: u32) -> Record {
    turn(record, &MINUTES, &VALUES, mark, half).unwrap()
}

fn edges_and_passes(record: Record) -> [u64; 3] {
    [record.left, record.right, record.passes]
}

#[test]
fn back_and_forth() {
    let first = step(Record::default(), &MINUTES, &VALUES, 20, 5).unwrap();
    assert_eq!(edges_and_passes(first), [1, 3, 4]);
    assert_eq!(first.sums, [2, 40, 800, 140, 2800, 56000]);

    // Both edges go away from each other: each counts.
    let wider = turned(first, 20, 15);
    assert_eq!(edges_and_passes(wider), [0, 4, 6]);
    assert_eq!(wider.sums, [4, 85, 2125, 200, 3900, 84500]);

    let narrow = turned(wider, 20, 5);
    assert_eq!(edges_and_passes(narrow), [1, 3, 8]);
    assert_eq!(narrow.sums, first.sums);

    let behind = turned(narrow, 60, 20);
    assert_eq!(edges_and_passes(behind), [4, 4, 12]);
    assert_eq!(behind.sums, [0; 6]);

    let again = turned(behind, 20, 5);
    assert_eq!(edges_and_passes(again), [1, 3, 16]);
    assert_eq!(again.sums, first.sums);
}

#[test]
fn a_step_does_not_go_back() {
    let first = step(Record::default(), &MINUTES, &VALUES, 35, 5).unwrap();
    let second = step(first, &MINUTES, &VALUES, 20, 5).unwrap();
    assert_eq!(edges_and_passes(second), [3, 4, 7]);
    assert_eq!(edges_and_passes(turned(second, 20, 5)), [1, 3, 10]);
}

#[test]
fn a_record_from_elsewhere() {
    let foreign = Record {
        left: 1,
        right: 3,
        sums: [7, 0, 0, 0, 0, u64::MAX],
        passes: u64::MAX,
    };
    let wider = turned(foreign, 20, 15);
    assert_eq!(edges_and_passes(wider), [0, 4, 1]);
    assert_eq!(wider.sums, [9, 45, 1325, 60, 1100, 28499]);
}

#[test]
fn reports() {
    let fresh = Record::default();
    assert_eq!(turn(fresh, &[1], &[], 5, 5), no(8, 0));
    assert_eq!(turn(fresh, &[1; 1025], &[1; 1025], 5, 5), no(6, 0));
    assert_eq!(turn(fresh, &[5, 6, 4, 3], &[1; 4], 5, 5), no(4, 2));
    assert_eq!(turn(record(1, 0), &[1], &[1], 5, 5), no(11, 0));
    assert_eq!(turn(record(0, 2), &[1], &[1], 5, 5), no(11, 0));
    assert_eq!(
        turn(record(u64::MAX, u64::MAX), &[1], &[1], 5, 5),
        no(11, 0)
    );
    assert_eq!(turn(fresh, &[1], &[1], 5, 0), no(9, 0));
    assert_eq!(turn(fresh, &[1], &[1], 5, 65537), no(9, 0));
    assert!(turn(record(1, 1), &[1], &[1], 5, 65536).is_ok());
}

#[test]
fn order_of_reports() {
    // 8, 6, 4, 11, 9
    let foreign = record(1, 0);
    let mut falling = [3; 1025];
    falling[1] = 2;
    assert_eq!(turn(foreign, &falling, &[1; 1024], 5, 0), no(8, 0));
    assert_eq!(turn(foreign, &falling, &[1; 1025], 5, 0), no(6, 0));
    assert_eq!(turn(foreign, &falling[..3], &[1; 3], 5, 0), no(4, 1));
    assert_eq!(turn(foreign, &[3; 3], &[1; 3], 5, 0), no(11, 0));
    assert_eq!(turn(record(0, 0), &[3; 3], &[1; 3], 5, 0), no(9, 0));
}

/// Any list of steps and turns over the same readings, from a fresh record:
/// the sums are those over the run, and a turn's are those of a fresh record.
#[test]
fn reached_records() {
    let mut seed = 88172645463325252u64;
    let mut below = |end: u64| {
        seed ^= seed << 13;
        seed ^= seed >> 7;
        seed ^= seed << 17;
        seed % end
    };
    for _ in 0..2000 {
        let span = [3, 40, 2000, 65536][below(4) as usize];
        let count = below(30) as usize;
        let mut minutes: Vec<u16> = (0..count).map(|_| below(span) as u16).collect();
        minutes.sort();
        let values: Vec<u16> = (0..count).map(|_| below(65536) as u16).collect();
        let mut record = Record::default();
        let mut travelled = 0;
        for _ in 0..below(12) {
            let (mark, half) = (below(span) as u16, below(span + 1) as u32);
            let before = record;
            if below(2) == 0 {
                let answer = step(record, &minutes, &values, mark, half);
                assert_eq!(answer.is_err(), half == 0);
                record = answer.unwrap_or(record);
            } else {
                let answer = turn(record, &minutes, &values, mark, half);
                assert_eq!(answer.is_err(), half == 0);
                record = answer.unwrap_or(record);
                if half > 0 {
                    let fresh = turn(Record::default(), &minutes, &values, mark, half).unwrap();
                    assert_eq!((fresh.left, fresh.right), (record.left, record.right));
                    assert_eq!(fresh.sums, record.sums);
                    let step = step(Record::default(), &minutes, &values, mark, half).unwrap();
                    assert_eq!(fresh, step);
                    assert_eq!(
                        one_mark(&minutes, &values, mark, half),
                        Ok(record_row(record, mark, half))
                    );
                }
            }
            travelled += before.left.abs_diff(record.left) + before.right.abs_diff(record.right);
            assert_eq!(record.passes, travelled);
            let (left, right) = (record.left as usize, record.right as usize);
            assert!(left <= right && right <= count);
            let mut sums = [0; 6];
            for (&minute, &value) in minutes[left..right].iter().zip(&values[left..right]) {
                let (m, v) = (u64::from(minute), u64::from(value));
                for (p, power) in [1, m, m * m].into_iter().enumerate() {
                    sums[p] += power;
                    sums[p + 3] += power * v;
                }
            }
            assert_eq!(record.sums, sums);
        }
    }
}
