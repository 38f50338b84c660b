//! The command line.

use crate::input::Source;
use std::ffi::{OsStr, OsString};
use std::os::unix::ffi::{OsStrExt, OsStringExt};
use std::path::PathBuf;

pub const HELP: &str = "\
tankview: the curve of a tank sheet, with words for people and a picture

    tankview [OPTIONS] [FILE [SECOND]]

FILE is a tank sheet; without it, or with - in its place, the sheet is read from
standard input. Its curve goes to standard output as the program tankcurve writes it.
Whatever is said in words goes to standard error.
SECOND is another tank's sheet, set beside the first over the first one's marks; neither
may be a sheet with ranges.

    --svg OUT     draws a picture into the file OUT
    --limit N     a limit, as in the sheet in tenths of a microgram per litre (0 to
                  65535): which mark is the first at or below it, which reading
                  decides that, and whether the curve is above it again behind that
                  mark; not for a sheet with ranges
    --window M    says which minutes and how many readings the window of the mark at
                  minute M has, and draws it
    --help        this text

Exit status: 0 for a curve, 1 for a refused sheet, 2 for wrong use and for a file that
cannot be read or written. docs/SHEET.md tells how a tank sheet is written.
";

/// What is asked for.
#[derive(Clone, Debug, PartialEq, Eq)]
pub enum Asked {
    Help,
    Curve(Request),
}

#[derive(Clone, Debug, PartialEq, Eq)]
pub struct Request {
    pub first: Source,
    pub second: Option<Source>,
    pub svg: Option<PathBuf>,
    pub limit: Option<u16>,
    pub window: Option<u16>,
}

/// Reads the arguments behind the program's name; an error is wrong use, in words.
pub fn parse(arguments: impl IntoIterator<Item = OsString>) -> Result<Asked, String> {
    let mut arguments = arguments.into_iter();
    let (mut svg, mut limit, mut window) = (None, None, None);
    let mut files = Vec::new();
    while let Some(argument) = arguments.next() {
        let (name, attached) = option_parts(&argument);
        let mut value = |what: &str| {
            let next = attached.clone().or_else(|| arguments.next());
            let given = next.filter(|value| !value.is_empty());
            given.ok_or_else(|| format!("{} needs {what} behind it", argument.display()))
        };
        match name.to_str() {
            Some("--help" | "-h") => return Ok(Asked::Help),
            Some("--svg") => once(&mut svg, &name, output(value("a file's name")?)?)?,
            Some("--limit") => {
                let given = value("a number")?;
                let words = "a limit is in tenths of a microgram per litre, as in the sheet, a whole number of 0 to 65535: 1000 stands for 100.0 µg/l";
                once(&mut limit, &name, number("--limit", &given, words)?)?;
            }
            Some("--window") => {
                let given = value("a mark")?;
                let words = "it takes the minute of one of the sheet's marks, 0 to 65535";
                once(&mut window, &name, number("--window", &given, words)?)?;
            }
            Some("--") => files.extend(arguments.by_ref().map(file)),
            Some("-") => files.push(Source::Standard),
            _ if name.as_bytes().starts_with(b"-") => {
                return Err(format!("there is no option {}", argument.display()));
            }
            _ => files.push(file(argument)),
        }
    }
    let mut files = files.into_iter();
    let first = files.next().unwrap_or(Source::Standard);
    let second = files.next();
    if files.next().is_some() {
        return Err("at most two sheets can be given".to_string());
    }
    if first == Source::Standard && second == Some(Source::Standard) {
        return Err("standard input can be one of the two sheets, not both".to_string());
    }
    Ok(Asked::Curve(Request {
        first,
        second,
        svg,
        limit,
        window,
    }))
}

/// The parts of `--name=value`; another argument is a name.
fn option_parts(argument: &OsStr) -> (OsString, Option<OsString>) {
    let bytes = argument.as_bytes();
    let equals = bytes.iter().position(|&byte| byte == b'=');
    match equals {
        Some(at) if bytes.starts_with(b"--") => (
            OsString::from_vec(bytes[..at].to_vec()),
            Some(OsString::from_vec(bytes[at + 1..].to_vec())),
        ),
        _ => (argument.to_os_string(), None),
    }
}

fn once<T>(place: &mut Option<T>, name: &OsStr, value: T) -> Result<(), String> {
    match place.replace(value) {
        None => Ok(()),
        Some(_) => Err(format!("{} is given twice", name.display())),
    }
}

fn number(name: &str, given: &OsStr, words: &str) -> Result<u16, String> {
    let digits = given
        .to_str()
        .filter(|text| text.bytes().all(|byte| byte.is_ascii_digit()));
    let number = digits.and_then(|text| text.parse().ok());
    number.ok_or_else(|| format!("{name} {}: {words}", given.display()))
}

fn output(given: OsString) -> Result<PathBuf, String> {
    if given.as_bytes().starts_with(b"-") {
        let given = given.display();
        return Err(format!(
            "--svg {given}: the picture goes into a file (./{given} for one of that name); standard output has the curve"
        ));
    }
    Ok(PathBuf::from(given))
}

fn file(argument: OsString) -> Source {
    Source::File(PathBuf::from(argument))
}

#[cfg(test)]
mod tests {
    use super::*;

    fn asked(arguments: &[&str]) -> Result<Asked, String> {
        parse(arguments.iter().map(OsString::from))
    }

    fn request(arguments: &[&str]) -> Request {
        match asked(arguments) {
            Ok(Asked::Curve(request)) => request,
            other => panic!("{arguments:?}: {other:?}"),
        }
    }

    #[test]
    fn good_use() {
        assert_eq!(asked(&["a", "--help"]), Ok(Asked::Help));
        assert_eq!(request(&[]).first, Source::Standard);
        let all = request(&["a", "--svg", "o", "--limit=1000", "--window", "0", "-"]);
        assert_eq!(all.first, file("a".into()));
        assert_eq!(all.second, Some(Source::Standard));
        assert_eq!(
            (all.svg, all.limit, all.window),
            (Some("o".into()), Some(1000), Some(0))
        );
        assert_eq!(request(&["--", "--svg"]).first, file("--svg".into()));
    }

    #[test]
    fn wrong_use_in_words() {
        for (arguments, words) in [
            (&["--svg"][..], "--svg needs a file's name behind it"),
            (&["--svg="], "--svg= needs a file's name behind it"),
            (&["--limit"], "--limit needs a number behind it"),
            (&["--colour"], "there is no option --colour"),
            (&["-x"], "there is no option -x"),
            (&["a", "b", "c"], "at most two sheets can be given"),
            (
                &["-", "-"],
                "standard input can be one of the two sheets, not both",
            ),
            (&["--limit", "1", "--limit", "2"], "--limit is given twice"),
        ] {
            assert_eq!(asked(arguments), Err(words.to_string()));
        }
        for limit in ["100.0", "65536", "-1", "+1", "", "1 000"] {
            assert!(asked(&["--limit", limit]).is_err(), "{limit}");
        }
        assert!(asked(&["--svg", "-"]).is_err_and(|words| words.contains("goes into a file")));
    }
}
