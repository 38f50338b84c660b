//! Two tanks over the same marks.

use reference::pair::{compare, compared_run, Parting, Tank};
use reference::Refusal;

fn refused(number: u8, place: u64) -> Result<Option<Parting>, Refusal> {
    Err(Refusal { number, place })
}

fn apart(position: usize, higher: Tank, left: usize, right: usize) -> Option<Parting> {
    Some(Parting {
        position,
        higher,
        left,
        right,
    })
}

/// A list without readings.
const NONE: (&[u16], &[u16]) = (&[], &[]);

#[test]
fn missing_stands_above() {
    let some: (&[u16], &[u16]) = (&[50], &[9]);
    assert_eq!(
        compare(some, NONE, &[50], &[1]),
        Ok(apart(0, Tank::Second, 0, 0))
    );
    assert_eq!(
        compare(NONE, some, &[50], &[1]),
        Ok(apart(0, Tank::First, 0, 0))
    );
    assert_eq!(compared_run(some, NONE, &[50], &[1]), (Tank::Second, 0, 0));
    // The run of a missing value may hold readings, on an edge.
    let edge: (&[u16], &[u16]) = (&[3, 49], &[7, 9]);
    assert_eq!(
        compare(some, edge, &[50], &[1]),
        Ok(apart(0, Tank::Second, 1, 2))
    );
    assert_eq!(compared_run(some, edge, &[50], &[1]), (Tank::Second, 1, 2));
}

#[test]
fn both_missing_are_equal() {
    let far: (&[u16], &[u16]) = (&[3], &[7]);
    assert_eq!(compare(far, NONE, &[50], &[1]), Ok(None));
    assert_eq!(compared_run(NONE, far, &[50], &[1]), (Tank::First, 0, 0));
}

#[test]
fn values_and_not_rows_decide() {
    let once: (&[u16], &[u16]) = (&[20], &[60]);
    let twice: (&[u16], &[u16]) = (&[20, 20], &[60, 60]);
    assert_eq!(compare(once, twice, &[20, 25], &[10, 15]), Ok(None));
    assert_eq!(
        compared_run(once, twice, &[20, 25], &[10, 15]),
        (Tank::First, 0, 0)
    );
    // A greater sum and weight below a smaller value.
    let low: (&[u16], &[u16]) = (&[20, 20], &[50, 50]);
    assert_eq!(
        compare(low, once, &[20], &[10]),
        Ok(apart(0, Tank::Second, 0, 1))
    );
}

#[test]
fn the_first_differing_mark_decides() {
    let one: (&[u16], &[u16]) = (&[10, 30, 50], &[5, 7, 3]);
    let two: (&[u16], &[u16]) = (&[10, 30, 50], &[5, 6, 4]);
    assert_eq!(
        compare(one, two, &[10, 30, 50], &[5, 5, 5]),
        Ok(apart(1, Tank::First, 1, 2))
    );
    assert_eq!(
        compare(two, one, &[10, 30, 50], &[5, 5, 5]),
        Ok(apart(1, Tank::Second, 1, 2))
    );
}

/// The two lagers: even-fall and afternoon.
#[test]
fn two_lagers() {
    let minutes = |sheet: &str| -> (Vec<u16>, Vec<u16>, Vec<u16>, Vec<u32>) {
        let bytes = std::fs::read(format!("../examples/{sheet}.sheet")).expect("the sheet");
        let (mut m, mut v) = (vec![0; 1024], vec![0; 1024]);
        let (mut z, mut h) = (vec![0; 512], vec![0; 512]);
        let (kept, used) = reference::read(&bytes, &mut m, &mut v, &mut z, &mut h).expect("fit");
        (
            m[..kept].into(),
            v[..kept].into(),
            z[..used].into(),
            h[..used].into(),
        )
    };
    let (m, v, z, h) = minutes("even-fall");
    let (n, w, y, g) = minutes("afternoon");
    assert_eq!((&z, &h), (&y, &g));
    let Some(parting) = compare((&m, &v), (&n, &w), &z, &h).expect("fit") else {
        panic!("alike");
    };
    assert_eq!((parting.position, parting.higher), (9, Tank::First));
    assert_eq!(v[parting.left..parting.right], [1340, 970, 950, 930, 910]);
}

/// Each case has the fault of its report and those of the reports behind it.
#[test]
fn order_of_the_reports() {
    let falling: (&[u16], &[u16]) = (&[3, 2], &[1, 1]);
    let uneven: (&[u16], &[u16]) = (&[3, 2], &[1]);
    let fit: (&[u16], &[u16]) = (&[3], &[1]);
    let many = vec![3u16; 1025];
    let crowded: (&[u16], &[u16]) = (&many, &many);
    assert_eq!(compare(uneven, uneven, &[], &[]), refused(8, 0));
    assert_eq!(compare(falling, uneven, &[], &[0]), refused(8, 0));
    assert_eq!(compare(crowded, uneven, &[], &[]), refused(6, 0));
    assert_eq!(
        compare(falling, uneven, &[7; 513], &[0; 513]),
        refused(6, 0)
    );
    assert_eq!(compare(falling, uneven, &[], &[]), refused(7, 0));
    assert_eq!(
        compare(falling, uneven, &[7, 6, 8], &[5, 5, 0]),
        refused(4, 1)
    );
    assert_eq!(compare(fit, uneven, &[7, 8, 7], &[0, 9, 9]), refused(5, 2));
    assert_eq!(compare(fit, uneven, &[7, 7, 7], &[1, 9, 0]), refused(9, 2));
    assert_eq!(compare(fit, uneven, &[7, 7], &[1, 9]), refused(10, 1));
    // The second tank: uneven and crowded at 0, out of order at the later.
    assert_eq!(compare(fit, uneven, &[7], &[1]), refused(16, 0));
    assert_eq!(compare(fit, crowded, &[7], &[1]), refused(16, 0));
    assert_eq!(compare(fit, falling, &[7], &[1]), refused(16, 1));
    let late: (&[u16], &[u16]) = (&[1, 1, 5, 4, 3], &[1; 5]);
    assert_eq!(compare(fit, late, &[7], &[1]), refused(16, 3));
    let uneven_late: (&[u16], &[u16]) = (&[1, 1, 5, 4, 3], &[1; 4]);
    assert_eq!(compare(fit, uneven_late, &[7], &[1]), refused(16, 0));
    assert_eq!(compared_run(fit, late, &[7], &[1]), (Tank::First, 0, 0));
    assert_eq!(compared_run(falling, fit, &[7], &[1]), (Tank::First, 0, 0));
}
