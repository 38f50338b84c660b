//! The tank curve for people: what the program `tankcurve` writes, a refusal in words besides, and a
//! picture.

mod answers;
mod arguments;
mod axis;
mod cause;
mod input;
mod kind;
mod legend;
mod lines;
mod picture;
mod refusal;
mod save;
mod scene;
mod section;
mod style;
mod svg;
mod tank;
mod units;

use answers::Window;
use arguments::{Asked, Request, HELP};
use input::Source;
use kind::Kind;
use std::env;
use std::io::{self, Write};
use std::path::{Path, PathBuf};
use std::process::ExitCode;
use tank::Tank;
use tankcurve::{Error, MAX_OUTPUT};

/// Why there is no curve, or no picture.
enum Stop {
    /// A sheet is refused; why is said.
    Refused,
    /// Wrong use, or a file that cannot be read or written, in words.
    Trouble(String),
}

impl From<Error> for Stop {
    /// A refusal of lists that the reader has made, or an answer of another archive.
    fn from(error: Error) -> Stop {
        Stop::Trouble(error.to_string())
    }
}

fn main() -> ExitCode {
    let asked = arguments::parse(env::args_os().skip(1));
    let done = match asked {
        Ok(Asked::Help) => put(HELP.as_bytes()),
        Ok(Asked::Curve(request)) => answer(&request),
        Err(words) => Err(Stop::Trouble(format!(
            "{words}; tankview --help tells more"
        ))),
    };
    match done {
        Ok(()) => ExitCode::SUCCESS,
        Err(Stop::Refused) => ExitCode::from(1),
        Err(Stop::Trouble(words)) => {
            say(&words);
            ExitCode::from(2)
        }
    }
}

/// Says something to the person; there is nobody to tell where that fails.
fn say(words: &str) {
    let _ = writeln!(io::stderr(), "tankview: {words}");
}

/// Writes to standard output.
fn put(text: &[u8]) -> Result<(), Stop> {
    let mut standard = io::stdout().lock();
    let written = standard.write_all(text).and_then(|()| standard.flush());
    written.map_err(|error| Stop::Trouble(format!("standard output cannot be written: {error}")))
}

/// Everything that one command asks for.
fn answer(request: &Request) -> Result<(), Stop> {
    let sheet = bytes(&request.first)?;
    let other = request.second.as_ref().map(bytes).transpose()?;
    let first = accepted(&request.first, &sheet, &sheet)?;
    let window = fitting(request, &first)?;
    let second = match (&request.second, other) {
        (Some(source), Some(other)) => {
            let tank = accepted(source, &other, &sheet)?;
            Some(beside(source, &tank, &first)?)
        }
        _ => None,
    };
    let out = request.svg.as_ref();
    let out = out.map(|out| target(out, request)).transpose()?;
    put(&text(&sheet)?)?;
    if let Some(source) = &request.second {
        let (first, second) = (request.first.name(), source.name());
        say(&format!(
            "{second}: its own marks are not used; it is set over the marks of {first}"
        ));
    }
    let scene = scene::of(request, &first, second.as_ref(), window)?;
    for note in scene.notes.iter().chain(&scene::above_again(&scene)) {
        say(note);
    }
    match out {
        Some(out) => save::whole(&out, picture::draw(&scene).as_bytes())
            .map_err(|error| unwritten(&out, &error.to_string())),
        None => Ok(()),
    }
}

/// A sheet's bytes.
fn bytes(source: &Source) -> Result<Vec<u8>, Stop> {
    if source.is_typed() {
        say("reading a sheet from the keyboard; Ctrl-D in an empty line ends it, and tankview --help tells more");
    }
    let unread = |error| Stop::Trouble(format!("{} cannot be read: {error}", source.name()));
    source.read().map_err(unread)
}

/// What the program writes for a sheet.
fn text(sheet: &[u8]) -> Result<Vec<u8>, Stop> {
    let mut out = [0; MAX_OUTPUT];
    match tankcurve::text(sheet, &mut out) {
        Ok(curve) => Ok(curve.to_vec()),
        Err(Error::Refused(refusal)) => Ok(tankcurve::refusal_text(refusal, &mut out)?.to_vec()),
        Err(error) => Err(error.into()),
    }
}

/// The tank of a sheet. Where it is refused that is said, and the first sheet's text is written.
fn accepted(source: &Source, sheet: &[u8], first_sheet: &[u8]) -> Result<Tank, Stop> {
    Tank::read(sheet).or_else(|error| match error {
        Error::Refused(refusal) => {
            put(&text(first_sheet)?)?;
            say(&refusal::words(&source.name(), sheet, refusal));
            Err(Stop::Refused)
        }
        error => Err(error.into()),
    })
}

/// Whether the options fit the first sheet; gives the window that is asked for.
fn fitting(request: &Request, first: &Tank) -> Result<Option<Window>, Stop> {
    let name = request.first.name();
    if first.kind == Kind::Ranges {
        let asked = match (request.limit, &request.second) {
            (Some(_), _) => "--limit asks about one value a mark",
            (None, Some(_)) => "two tanks are compared by one value a mark",
            (None, None) => "",
        };
        if !asked.is_empty() {
            return Err(Stop::Trouble(format!("{asked}; {name} has ranges")));
        }
    }
    let window = request.window.map(|minute| answers::window(first, minute));
    window.transpose().map_err(Stop::Trouble)
}

/// The second tank over the first one's marks.
fn beside(source: &Source, second: &Tank, first: &Tank) -> Result<Tank, Stop> {
    if second.kind == Kind::Ranges {
        let name = source.name();
        return Err(Stop::Trouble(format!(
            "two tanks are compared by one value a mark; {name} has ranges"
        )));
    }
    Ok(second.over_points_of(first))
}

fn target(out: &Path, request: &Request) -> Result<PathBuf, Stop> {
    let sources = [Some(&request.first), request.second.as_ref()];
    let sheets: Vec<&Path> = sources
        .into_iter()
        .filter_map(|source| match source {
            Some(Source::File(path)) => Some(path.as_path()),
            _ => None,
        })
        .collect();
    save::target(out, &sheets).map_err(|words| unwritten(out, &words))
}

fn unwritten(out: &Path, words: &str) -> Stop {
    Stop::Trouble(format!(
        "the picture {} cannot be written: {words}",
        out.display()
    ))
}
