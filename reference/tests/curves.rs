//! What holds of every curve: a present value lies between the lowest and the
//! highest value of the readings with a weight, and readings of equal minute
//! may change places.

use reference::generators::lists::rearranged;
use reference::generators::random::Random;
use reference::*;

/// The lowest and the highest value of the readings that are nearer to the
/// mark than the half width.
fn lowest_and_highest(minutes: &[u16], values: &[u16], mark: u16, half: u32) -> Option<(u16, u16)> {
    let near = |&(&m, _): &(&u16, &u16)| u32::from(m.abs_diff(mark)) < half;
    let weighed = || minutes.iter().zip(values).filter(near).map(|(_, &v)| v);
    Some((weighed().min()?, weighed().max()?))
}

fn stays_among(minutes: &[u16], values: &[u16], mark: u16, half: u32, row: &[u64]) {
    let found = lowest_and_highest(minutes, values, mark, half);
    if row[4] == MISSING {
        assert_eq!((row[2], found), (0, None));
        return;
    }
    let (low, high) = found.unwrap();
    assert!(row[2] > 0);
    assert!(u64::from(low) <= row[4] && row[4] <= u64::from(high));
}

/// Readings of few minutes, in order or not.
fn readings(random: &mut Random) -> (Vec<u16>, Vec<u16>) {
    let (count, clock) = (random.below(30), random.pick(&[1, 3, 10, 60]));
    let mut minutes: Vec<u16> = (0..count).map(|_| random.below(clock) as u16).collect();
    if random.chance(90) {
        minutes.sort_unstable();
    }
    let most = random.pick(&[2, 5, 1000, 65_536]);
    let values = (0..count).map(|_| random.below(most) as u16).collect();
    (minutes, values)
}

#[test]
fn the_readings_with_a_weight() {
    // The first reading lies on the edge.
    let (m, v) = ([10, 20], [900, 60]);
    assert_eq!(one_mark(&m, &v, 20, 10), Ok([0, 2, 100, 6000, 60]));
    assert_eq!(lowest_and_highest(&m, &v, 20, 10), Some((60, 60)));
}

#[test]
fn values_stay_among_their_readings() {
    let random = &mut Random(11);
    for _ in 0..4000 {
        let (minutes, values) = readings(random);
        let (mark, half) = (random.below(64) as u16, random.between(1, 20) as u32);
        if let Ok(row) = one_mark(&minutes, &values, mark, half) {
            stays_among(&minutes, &values, mark, half, &row);
        }
        let mut rows = [3; 10];
        let marks = [mark, mark + 1];
        for call in [sweep, preview] {
            if call(&minutes, &values, &marks, &[half, half], &mut rows).is_ok() {
                for (row, mark) in rows.chunks(ROW_WIDTH).zip(marks) {
                    stays_among(&minutes, &values, mark, half, row);
                }
            }
        }
    }
}

#[test]
fn equal_minutes_change_places() {
    let (m, v, moved) = ([15, 20, 20, 20, 25], [7, 1, 2, 3, 8], [7, 3, 1, 2, 8]);
    assert_eq!(one_mark(&m, &v, 20, 10), one_mark(&m, &moved, 20, 10));

    let random = &mut Random(12);
    let (mut changed, mut printed) = (0, 0);
    for _ in 0..4000 {
        let (minutes, values) = readings(random);
        let moved = rearranged(random, &minutes, &values);
        changed += usize::from(moved != values);
        let (mark, half) = (random.below(64) as u16, random.below(20) as u32);
        let row = |values: &[u16]| one_mark(&minutes, values, mark, half);
        assert_eq!(row(&values), row(&moved));
        for call in [sweep, preview] {
            let told = |values: &[u16]| {
                let mut rows = [3; ROW_WIDTH];
                (call(&minutes, values, &[mark], &[half], &mut rows), rows)
            };
            assert_eq!(told(&values), told(&moved));
        }
        // A refused sheet's place is a byte, which the values' digits move.
        let text = program(&sheet(&minutes, &values, mark, half));
        if !text.starts_with(b"refused") {
            assert_eq!(text, program(&sheet(&minutes, &moved, mark, half)));
            printed += 1;
        }
    }
    assert!(changed > 1000 && printed > 1000);
}

fn sheet(minutes: &[u16], values: &[u16], mark: u16, half: u32) -> Vec<u8> {
    let mut text = format!("mark,half\n{mark},{half}\n\nminute,inj,vdk\n");
    for (minute, value) in minutes.iter().zip(values) {
        text += &format!("{minute},3,{value}\n");
    }
    text.into_bytes()
}
