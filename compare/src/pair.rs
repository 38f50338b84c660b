//! Two tanks: each case lent to the export and to the second implementation, everything compared, the run
//! as a part of the higher tank's own list, and the parting against the rows of the proved sweeps. Small
//! tanks all together, those at the limits, every set of faults, and random ones that are mostly alike
//! for a while.

use crate::calls::{code, refused, same, typed, WRONG_LENGTH};
use crate::cases::{small_lists, wrong_lengths, BANDWIDTHS, SAMPLES};
use crate::lent::Lent;
use crate::lists::{near_half, sample_count, LISTS};
use crate::tally::Tally;
use reference::exported::PARTING;
use reference::generators::lists::fall;
use reference::generators::random::Random;
use reference::pair::{compare as expected_parting, compared_run, Readings, Tank};
use reference::ROW_WIDTH;
use tankcurve::slices;

/// The first difference, with its case.
type Found = Result<(), String>;

/// The comparison, with its tally.
pub struct Pairs {
    patterns: Random,
    compare: Tally,
}

/// The detail that tells a tank.
fn tank_number(tank: Tank) -> u64 {
    match tank {
        Tank::First => 1,
        Tank::Second => 2,
    }
}

impl Pairs {
    pub fn new() -> Pairs {
        Pairs {
            patterns: Random(12),
            compare: Tally::new("compare", &[8, 6, 7, 4, 5, 9, 10, 16]),
        }
    }

    pub fn tallies(&self) -> [&Tally; 1] {
        [&self.compare]
    }

    pub fn compare(
        &mut self,
        first: Readings,
        second: Readings,
        points: &[u16],
        bandwidths: &[u32],
        out_len: usize,
    ) -> Found {
        let result = expected_parting(first, second, points, bandwidths).map_err(refused);
        let expected = if out_len == PARTING {
            result
        } else {
            Err(WRONG_LENGTH)
        };
        let answer = match expected {
            Ok(Some(parting)) => (0, tank_number(parting.higher)),
            Ok(None) => (0, 0),
            Err(refusal) => refusal,
        };
        let minutes1 = Lent::holding(&mut self.patterns, first.0);
        let values1 = Lent::holding(&mut self.patterns, first.1);
        let minutes2 = Lent::holding(&mut self.patterns, second.0);
        let values2 = Lent::holding(&mut self.patterns, second.1);
        let lent_points = Lent::holding(&mut self.patterns, points);
        let lent_bandwidths = Lent::holding(&mut self.patterns, bandwidths);
        let mut out = Lent::patterned(&mut self.patterns, out_len);
        let mut compared = || -> Found {
            let got = slices::compare(
                minutes1.list(),
                values1.list(),
                minutes2.list(),
                values2.list(),
                lent_points.list(),
                lent_bandwidths.list(),
                out.list_mut(),
            );
            same("returned", code(answer), got)?;
            for (list, name) in [
                (&minutes1, "minutes of the first"),
                (&values1, "values of the first"),
                (&minutes2, "minutes of the second"),
                (&values2, "values of the second"),
                (&lent_points, "points"),
            ] {
                list.untouched(name)?;
            }
            lent_bandwidths.untouched("bandwidths")?;
            match expected {
                Ok(Some(parting)) => {
                    let numbers = [parting.position, parting.left, parting.right];
                    out.holds("out", &numbers.map(|n| n as u64))?;
                }
                Ok(None) | Err(_) => out.untouched("out")?,
            }
            // The run is that part of the higher tank's lent list itself.
            let got = typed(tankcurve::compare(
                minutes1.list(),
                values1.list(),
                minutes2.list(),
                values2.list(),
                lent_points.list(),
                lent_bandwidths.list(),
            ));
            let (tank, left, right) = compared_run(first, second, points, bandwidths);
            let list = match tank {
                Tank::First => values1.list(),
                Tank::Second => values2.list(),
            };
            let part = &list[left..right];
            let parting = result.map(|parting| {
                parting.map(|p| (p.position, tank_number(p.higher), part.as_ptr_range()))
            });
            let got = got.map(|parting| {
                parting.map(|p| (p.point, p.higher as u64 + 1, p.run.as_ptr_range()))
            });
            same("typed", parting, got)?;
            let by_rows = by_rows(first, second, points, bandwidths);
            let parting = result.map(|parting| parting.map(|p| (p.position, p.higher)));
            match by_rows {
                Some(by_rows) => same("by the rows", parting, Ok(by_rows)),
                None => same("accepted without rows", true, result.is_err()),
            }
        };
        self.compare.count(answer.0);
        compared().map_err(|difference| {
            format!(
                "compare: {difference}\nthe case:\n    first = {first:?}\n    second = {second:?}\n    points = {points:?}\n    bandwidths = {bandwidths:?}\n    out_len = {out_len}"
            )
        })
    }
}

/// What the rows of the proved sweeps say: none where either tank is refused.
fn by_rows(
    first: Readings,
    second: Readings,
    points: &[u16],
    bandwidths: &[u32],
) -> Option<Option<(usize, Tank)>> {
    let mut rows = vec![0; ROW_WIDTH * points.len()];
    let mut others = rows.clone();
    let (m, v) = first;
    let curve = tankcurve::smooth(m, v, points, bandwidths, &mut rows).ok()?;
    let (m, v) = second;
    let other = tankcurve::smooth(m, v, points, bandwidths, &mut others).ok()?;
    let mut pairs = curve.rows.zip(other.rows).enumerate();
    Some(
        pairs.find_map(|(k, (row, other))| match (row.value(), other.value()) {
            (None, Some(_)) => Some((k, Tank::First)),
            (Some(_), None) => Some((k, Tank::Second)),
            (a, b) if a > b => Some((k, Tank::First)),
            (a, b) if a < b => Some((k, Tank::Second)),
            _ => None,
        }),
    )
}

/// Both tanks in both orders.
fn both_ways(
    pairs: &mut Pairs,
    first: Readings,
    second: Readings,
    points: &[u16],
    bandwidths: &[u32],
) -> Found {
    pairs.compare(first, second, points, bandwidths, PARTING)?;
    pairs.compare(second, first, points, bandwidths, PARTING)
}

/// Each set of faults of two tanks and their marks.
fn faults(pairs: &mut Pairs) -> Found {
    for set in 0u32..256 {
        let has = |fault: u32| set & (1 << fault) != 0;
        let mut minutes: Vec<u16> = vec![3; if has(0) { 1025 } else { 4 }];
        let mut values = vec![5; minutes.len()];
        let mut others: Vec<u16> = vec![4; if has(1) { 1025 } else { 3 }];
        let mut other_values = vec![6; others.len()];
        let mut points = vec![7, 8, 9];
        let mut bandwidths = vec![2, 2, 2];
        if has(2) {
            minutes[2] = 2;
        }
        if has(3) {
            others[1] = 2;
        }
        if has(4) {
            values.pop();
        }
        if has(5) {
            other_values.pop();
        }
        if has(6) {
            points[2] = 7;
        }
        if has(7) {
            bandwidths[1] = 0;
        }
        let (first, second): (Readings, Readings) = ((&minutes, &values), (&others, &other_values));
        pairs.compare(first, second, &points, &bandwidths, PARTING)?;
        pairs.compare(first, second, &points, &[2, 4, 4], PARTING)?;
        pairs.compare(first, second, &[], &[], PARTING)?;
        pairs.compare(first, second, &[7; 513], &[2; 513], PARTING)?;
        pairs.compare(first, second, &points, &bandwidths[..2], PARTING)?;
    }
    Ok(())
}

/// Tanks that are alike, or alike for a while, and now and then unfit.
fn some_pair(pairs: &mut Pairs, random: &mut Random) -> Found {
    let count = sample_count(random);
    let mut minutes = LISTS.ordered_minutes(random, count);
    let mut values = LISTS.some_values(random, count);
    let (mut others, mut other_values) = (minutes.clone(), values.clone());
    for _ in 0..random.below(3) {
        let at = random.below(others.len());
        match random.below(8) {
            0 => {
                let count = sample_count(random);
                others = LISTS.ordered_minutes(random, count);
                other_values = LISTS.some_values(random, count);
            }
            1 => {
                others.pop();
                other_values.pop();
            }
            2 if at < others.len() && others.len() < 1024 => {
                others.insert(at, others[at]);
                other_values.insert(at, other_values[at]);
            }
            3 if at < others.len() => others[at] = others[at].saturating_add(1),
            _ if at < other_values.len() => {
                other_values[at] = other_values[at].wrapping_add(random.pick(&[1, 1, 5, 65_535]));
            }
            _ => {}
        }
    }
    let used = match random.below(60) {
        0 => 512,
        1 => random.between(500, 514) as usize,
        2 => 0,
        _ => random.between(1, 7) as usize,
    };
    let (mut points, mut bandwidths) = LISTS.fit_points(random, &minutes, used);
    while random.chance(12) {
        match random.below(7) {
            0 => LISTS.damage_samples(random, &mut minutes, &mut values),
            1 | 2 => LISTS.damage_samples(random, &mut others, &mut other_values),
            3 => fall(random, &mut points),
            4 if !bandwidths.is_empty() => {
                let at = random.below(bandwidths.len());
                bandwidths[at] = LISTS.bad_bandwidth(random);
            }
            5 if !bandwidths.is_empty() => {
                let at = random.below(bandwidths.len());
                let by = random.between(-9, 9);
                bandwidths[at] = (i64::from(bandwidths[at]) + by).clamp(1, 65_536) as u32;
            }
            _ => {
                bandwidths.pop();
            }
        }
    }
    let out = if random.chance(3) {
        random.pick(&wrong_lengths(PARTING))
    } else {
        PARTING
    };
    pairs.compare(
        (&minutes, &values),
        (&others, &other_values),
        &points,
        &bandwidths,
        out,
    )?;
    pairs.compare(
        (&others, &other_values),
        (&minutes, &values),
        &points,
        &bandwidths,
        out,
    )
}

pub fn compare(pairs: &mut Pairs) -> Found {
    let random = &mut Random(13);
    let lists = small_lists(2, 3);
    for minutes in &lists {
        for others in &lists {
            for values in lists.iter().filter(|values| values.len() == others.len()) {
                let first: Readings = (minutes, &[1, 2][..minutes.len()]);
                both_ways(pairs, first, (others, values), &[0, 1, 2], &[1, 1, 2])?;
            }
        }
    }
    for count in SAMPLES {
        for other in SAMPLES {
            let (minutes, others) = (vec![9; count], vec![9; other]);
            let (values, other_values) = (vec![4; count], vec![5; other]);
            both_ways(
                pairs,
                (&minutes, &values),
                (&others, &other_values),
                &[9],
                &[5],
            )?;
        }
    }
    for used in [0, 1, 511, 512, 513, 514, 65_536, 65_537] {
        let (points, bandwidths) = (vec![9; used], vec![5; used]);
        both_ways(pairs, (&[9], &[4]), (&[9], &[5]), &points, &bandwidths)?;
        both_ways(
            pairs,
            (&[9], &[4]),
            (&[9, 9], &[4, 4]),
            &points,
            &bandwidths,
        )?;
    }
    for bandwidth in BANDWIDTHS {
        both_ways(
            pairs,
            (&[9, 9], &[4, 5]),
            (&[9, 8], &[4, 5]),
            &[7],
            &[bandwidth],
        )?;
        both_ways(pairs, (&[9, 9], &[4, 5]), (&[9], &[5]), &[7], &[bandwidth])?;
    }
    for out in wrong_lengths(PARTING) {
        for second in [(&[9][..], &[5][..]), (&[9, 8], &[5, 5])] {
            pairs.compare((&[9], &[4]), second, &[9], &[5], out)?;
            pairs.compare((&[9], &[4]), second, &[9], &[0], out)?;
        }
    }
    faults(pairs)?;
    for turn in 0..300 {
        let (minutes, values, point, bandwidth) = near_half(random, turn);
        let mut other_values = values.clone();
        let at = random.below(values.len());
        other_values[at] = other_values[at].saturating_sub(1);
        let (points, bandwidths) = ([point, point + 1], [bandwidth; 2]);
        both_ways(
            pairs,
            (&minutes, &values),
            (&minutes, &other_values),
            &points,
            &bandwidths,
        )?;
    }
    for _ in 0..25_000 {
        some_pair(pairs, random)?;
    }
    Ok(())
}
