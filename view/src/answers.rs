//! What is asked besides the curve: the limit, the window of a point, and where two tanks part.

use crate::tank::Tank;
use crate::units::{count, day, level, level_or_none};
use tankcurve::{Error, Tank as Which};

/// The answer to a limit, and the sample ("reading") that decides there.
#[derive(Clone, Debug, PartialEq, Eq)]
pub struct LimitAnswer {
    /// The position of the first point ("mark") at or below the limit, and its value.
    pub first: Option<(usize, u16)>,
    pub decisive: Option<Decisive>,
}

/// The sample without which a point's value would be on the other side of the limit.
#[derive(Clone, Debug, PartialEq, Eq)]
pub struct Decisive {
    /// Its position among the kept samples.
    pub position: usize,
    /// The value without it.
    pub without: Option<u16>,
}

pub fn limit(tank: &Tank, limit: u16) -> Result<LimitAnswer, Error> {
    let (minutes, values) = (&tank.minutes, &tank.lows);
    let first = tankcurve::first_at_most(minutes, values, &tank.points, &tank.bandwidths, limit)?;
    let Some(at) = first.point else {
        return Ok(LimitAnswer {
            first: None,
            decisive: None,
        });
    };
    let (point, bandwidth) = (tank.points[at], tank.bandwidths[at]);
    let value = tankcurve::evaluate(minutes, values, point, bandwidth)?.value();
    let decisive = match tankcurve::decisive(minutes, values, point, bandwidth, limit)? {
        Some(position) => {
            let (mut minutes, mut values) = (minutes.clone(), values.clone());
            minutes.remove(position);
            values.remove(position);
            let row = tankcurve::evaluate(&minutes, &values, point, bandwidth)?;
            Some(Decisive {
                position,
                without: row.value(),
            })
        }
        None => None,
    };
    Ok(LimitAnswer {
        first: value.map(|value| (at, value)),
        decisive,
    })
}

/// The words for a limit, a sentence each.
pub fn limit_words(tank: &Tank, limit: u16, answer: &LimitAnswer) -> Vec<String> {
    let Some((at, value)) = answer.first else {
        return vec![format!(
            "no mark has a value at or below the limit of {}",
            level(limit)
        )];
    };
    let point = tank.points[at];
    let first = format!(
        "first at or below the limit of {}: mark {point} ({}) with {}",
        level(limit),
        day(point),
        level(value)
    );
    let decisive = match &answer.decisive {
        None => "no single reading decides that: without any one of them the mark stays at or below the limit".to_string(),
        Some(Decisive { position, without }) => match tank.kept(*position) {
            None => format!("reading {position} decides that"),
            Some(sample) => format!(
                "the reading of line {} decides that: minute {} ({}), {}; without it the mark has {}",
                sample.line,
                sample.minute,
                day(sample.minute),
                level(sample.low),
                level_or_none(*without)
            ),
        },
    };
    vec![first, decisive]
}

/// The words for the first mark behind the answer's whose value is above the limit again; a missing value is not.
pub fn above_again_words(
    points: &[u16],
    values: &[Option<u16>],
    limit: u16,
    answer: &LimitAnswer,
) -> Option<String> {
    let (first, _) = answer.first?;
    let behind = points.iter().zip(values).skip(first + 1);
    let (&point, value) = behind
        .filter_map(|(point, value)| Some((point, (*value)?)))
        .find(|&(_, value)| value > limit)?;
    Some(format!(
        "behind mark {} the curve is above the limit again: first at mark {point} ({}) with {}",
        points[first],
        day(point),
        level(value)
    ))
}

/// The window of a point.
#[derive(Clone, Copy, Debug, PartialEq, Eq)]
pub struct Window {
    pub point: u16,
    pub bandwidth: u32,
    /// How many kept samples lie in it.
    pub samples: usize,
}

/// The window of the mark at this minute; without such a mark an error in words. Marks of the same
/// minute have the same half width, since no edge goes back.
pub fn window(tank: &Tank, minute: u16) -> Result<Window, String> {
    let Some(at) = tank.points.iter().position(|&point| point == minute) else {
        let below = tank.points.iter().rev().find(|&&point| point < minute);
        let above = tank.points.iter().find(|&&point| point > minute);
        let near: Vec<String> = below.into_iter().chain(above).map(u16::to_string).collect();
        return Err(format!(
            "--window {minute}: the sheet has no mark at that minute; the nearest {} {}",
            if near.len() == 1 { "is" } else { "are" },
            near.join(" and ")
        ));
    };
    let bandwidth = tank.bandwidths[at];
    let run = tankcurve::window(&tank.minutes, &tank.lows, minute, bandwidth);
    Ok(Window {
        point: minute,
        bandwidth,
        samples: run.map_err(|error| error.to_string())?.len(),
    })
}

impl Window {
    pub fn ends(&self) -> (i64, i64) {
        let (point, bandwidth) = (i64::from(self.point), i64::from(self.bandwidth));
        (point - bandwidth, point + bandwidth)
    }

    pub fn words(&self) -> String {
        let (left, right) = self.ends();
        let (point, bandwidth) = (self.point, self.bandwidth);
        format!(
            "window of mark {point} ({}): minutes {left} to {right}, half width {bandwidth}, with {}",
            day(point),
            count(self.samples, "reading")
        )
    }
}

/// Where two tanks part over the first one's marks.
#[derive(Clone, Debug, PartialEq, Eq)]
pub struct Parting {
    /// The position of the point.
    pub point: usize,
    pub first_is_higher: bool,
}

pub fn parting(first: &Tank, second: &Tank) -> Result<Option<Parting>, Error> {
    let parting = tankcurve::compare(
        &first.minutes,
        &first.lows,
        &second.minutes,
        &second.lows,
        &first.points,
        &first.bandwidths,
    )?;
    Ok(parting.map(|parting| Parting {
        point: parting.point,
        first_is_higher: parting.higher == Which::First,
    }))
}

/// The words for two tanks of these names, with their values at the marks.
pub fn parting_words(
    header: [&str; 2],
    points: &[u16],
    values: [&[Option<u16>]; 2],
    parting: Option<&Parting>,
) -> String {
    let [first, second] = header;
    let Some(Parting {
        point: at,
        first_is_higher,
    }) = parting
    else {
        return format!("{first} and {second} have the same values at all marks");
    };
    let point = points[*at];
    let [here, there] = values.map(|values| level_or_none(values[*at]));
    let higher = if *first_is_higher { first } else { second };
    let missing = values.iter().any(|values| values[*at].is_none());
    let rule = if missing {
        ", since no value counts as the higher one"
    } else {
        ""
    };
    format!(
        "{first} and {second} part at mark {point} ({}): {here} and {there}; {higher} is higher{rule}",
        day(point)
    )
}
