//! What a command asks to draw and to say.

use crate::answers::{self, Parting, Window};
use crate::arguments::Request;
use crate::picture::{Plotted, Scene};
use crate::tank::{Level, Tank};
use tankcurve::Error;

/// What is drawn and said of the tanks.
pub fn of<'a>(
    request: &Request,
    first: &'a Tank,
    second: Option<&'a Tank>,
    window: Option<Window>,
) -> Result<Scene<'a>, Error> {
    let sources = [Some(&request.first), request.second.as_ref()];
    let mut tanks = Vec::new();
    for (source, tank) in sources.into_iter().zip([Some(first), second]) {
        if let (Some(source), Some(tank)) = (source, tank) {
            tanks.push(Plotted {
                title: source.title(),
                tank,
                curve: tank.curve()?,
                answer: request
                    .limit
                    .map(|limit| answers::limit(tank, limit))
                    .transpose()?,
            });
        }
    }
    if let [first, second] = tanks.as_mut_slice() {
        if first.title == second.title {
            first.title.push_str(" (first)");
            second.title.push_str(" (second)");
        }
    }
    let parting = match second {
        Some(second) => answers::parting(first, second)?,
        None => None,
    };
    let mut notes: Vec<String> = window.iter().map(Window::words).collect();
    notes.extend(limit_notes(request, &tanks));
    notes.extend(parting_note(&tanks, parting.as_ref()));
    Ok(Scene {
        tanks,
        limit: request.limit,
        window,
        parting,
        notes,
    })
}

/// The answers to a limit, each with its tank's name where there are two.
fn limit_notes(request: &Request, tanks: &[Plotted]) -> Vec<String> {
    let Some(limit) = request.limit else {
        return Vec::new();
    };
    let mut notes = Vec::new();
    for plotted in tanks {
        let Some(answer) = &plotted.answer else {
            continue;
        };
        for words in answers::limit_words(plotted.tank, limit, answer) {
            notes.push(titled(tanks, plotted, words));
        }
    }
    notes
}

/// Where a curve is above the limit again behind the first mark at or below it. That is said and not written into the
/// picture, which shows it.
pub fn above_again(scene: &Scene) -> Vec<String> {
    let words = |plotted: &Plotted| {
        let (answer, limit) = (plotted.answer.as_ref()?, scene.limit?);
        let points = &plotted.tank.points;
        answers::above_again_words(points, &values(plotted), limit, answer)
            .map(|words| titled(&scene.tanks, plotted, words))
    };
    scene.tanks.iter().filter_map(words).collect()
}

/// Words about one tank, with its name where there are two.
fn titled(tanks: &[Plotted], plotted: &Plotted, words: String) -> String {
    match tanks {
        [_] => words,
        _ => format!("{}: {words}", plotted.title),
    }
}

/// The values of a plain sheet's curve.
fn values(plotted: &Plotted) -> Vec<Option<u16>> {
    let value = |level: &Option<Level>| level.map(|level| level.low);
    plotted.curve.iter().map(value).collect()
}

/// Where two tanks part; nothing of one.
fn parting_note(tanks: &[Plotted], parting: Option<&Parting>) -> Option<String> {
    let [first, second] = tanks else { return None };
    let (here, there) = (values(first), values(second));
    Some(answers::parting_words(
        [&first.title, &second.title],
        &first.tank.points,
        [&here, &there],
        parting,
    ))
}
