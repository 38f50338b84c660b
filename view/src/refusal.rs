//! A refused sheet in words: where, the line, what was expected, and what has likely happened.

use crate::cause;
use crate::lines::{self, Line};
use crate::section::Section;
use crate::units::{count, grouped};
use tankcurve::{Refusal, Report, MAX_POINTS, MAX_SAMPLES, MAX_SHEET};

/// How many characters of a line are shown.
const SHOWN: usize = 100;

/// The words for a refused sheet of this name, some lines without a line feed behind the last.
pub fn words(name: &str, sheet: &[u8], refusal: Refusal) -> String {
    let lines = lines::split(sheet);
    let place = usize::try_from(refusal.place).unwrap_or(usize::MAX);
    let line = lines::at(&lines, place);
    let position = line.map_or(lines.len(), |line| line.number - 1);
    let (number, word) = (refusal.report.number(), refusal.report.word());
    let mut text = format!("{name} is refused with report {number}, {word}, ");
    text.push_str(&match line {
        Some(line) => format!("in line {} (byte {place}).", line.number),
        None if lines.is_empty() => "at its start (byte 0).".to_string(),
        None => format!("at its end, behind line {} (byte {place}).", lines.len()),
    });
    if let Some(line) = line {
        // Of a sheet that is too long no more is read than its first byte too many.
        let cut = refusal.report == Report::TooLong && line.text.len() <= SHOWN;
        let more = if cut { "…" } else { "" };
        text.push_str(&format!("\n  the line:     {}{more}", shown(line.text)));
    }
    let told = told(refusal.report, sheet, &lines, position);
    text.push_str(&format!("\n  expected:     {}", told.expected));
    if let Some(cause) = told.cause {
        text.push_str(&format!("\n  likely cause: {cause}"));
    }
    text
}

struct Told {
    expected: String,
    cause: Option<String>,
}

/// What was expected at a line, and the likely cause; `position` is the line's, from 0.
fn told(report: Report, sheet: &[u8], lines: &[Line], position: usize) -> Told {
    let section = Section::of(lines, position);
    let line = lines.get(position);
    let (expected, cause) = match report {
        Report::TooLong => overlong(sheet),
        Report::BadHeader => {
            let start = line.map_or(sheet.len(), |line| line.start);
            let rest = sheet.get(start..).unwrap_or_default();
            (
                section.expected(),
                Some(cause::of_header(section, line, rest)),
            )
        }
        Report::MalformedLine => match line {
            Some(line) => (section.expected(), Some(cause::of_numbers(section, line))),
            None => (
                "an empty line behind the marks, and then the readings".to_string(),
                Some("the readings are missing, or the file was cut off".to_string()),
            ),
        },
        Report::SampleOutOfOrder => out_of_order("minute", "readings", lines, position),
        Report::PointOutOfOrder => out_of_order("mark", "marks", lines, position),
        Report::TooMany => crowded(section),
        Report::NoPoints => (
            "a mark line or more between the names line mark,half and the empty line".to_string(),
            Some("the marks are missing, or an empty line stands in front of them".to_string()),
        ),
        Report::BandwidthOutOfRange => half_width(line),
        Report::EdgeDecreases => edge_back(lines, position),
        Report::CrossedRange => crossed(line),
        // The others are about lists, a record, the knob or a second tank, none of which a sheet has.
        _ => ("a sheet without this report".to_string(), None),
    };
    Told { expected, cause }
}

fn overlong(sheet: &[u8]) -> (String, Option<String>) {
    let expected = format!("a sheet of at most {} bytes", grouped(MAX_SHEET));
    let lines = lines::split(sheet);
    let header = lines.first().map(|line| line.text);
    let cause = if header == Some(b"mark,half") {
        "too many lines; those with inj 1 or 2, which do not count, may be left out".to_string()
    } else {
        cause::of_header(Section::PointHeader, lines.first(), sheet)
    };
    (expected, Some(cause))
}

/// A line whose first number is below that of the line in front.
fn out_of_order(
    one: &str,
    several: &str,
    lines: &[Line],
    position: usize,
) -> (String, Option<String>) {
    let first = |position: usize| {
        let line = lines.get(position)?;
        Some((line.number, *lines::numbers(line.text)?.first()?))
    };
    let front = position.checked_sub(1).and_then(first);
    match (front, first(position)) {
        (Some((number, before)), Some((_, here))) => (
            format!("a {one} of {before} or more, since line {number} has {before}"),
            Some(format!(
                "{one} {here} is below {before} of line {number}: a typing error in one of the two, or {several} that are not in the order of time"
            )),
        ),
        _ => (format!("{several} in the order of time"), None),
    }
}

fn crowded(section: Section) -> (String, Option<String>) {
    let (most, things, rest) = match section {
        Section::Points => (MAX_POINTS, "mark", ""),
        _ => (
            MAX_SAMPLES,
            "kept reading",
            "; lines with inj 1 or 2 do not count",
        ),
    };
    (
        format!("at most {}{rest}", count(most, things)),
        Some(format!(
            "this line has the {}th {things}",
            grouped(most + 1)
        )),
    )
}

fn half_width(line: Option<&Line>) -> (String, Option<String>) {
    let expected = "a half width of 1 to 65,536 minutes".to_string();
    let numbers = line.and_then(|line| lines::numbers(line.text));
    let cause = match numbers.as_deref() {
        Some([_, 0]) => Some("half is 0; the narrowest window has half width 1".to_string()),
        Some([_, half]) => Some(format!("half is {half}, above 65,536")),
        _ => None,
    };
    (expected, cause)
}

/// Two marks whose windows do not move on together.
fn edge_back(lines: &[Line], position: usize) -> (String, Option<String>) {
    let expected = "a window that begins and ends no earlier than the one of the line in front";
    let window = |position: usize| {
        let line = lines.get(position)?;
        match lines::numbers(line.text)?.as_slice() {
            &[point, bandwidth] => Some((line.number, i64::from(point), i64::from(bandwidth))),
            _ => None,
        }
    };
    let front = position.checked_sub(1).and_then(window);
    let cause = match (front, window(position)) {
        (Some((number, point, bandwidth)), Some((_, next, next_bandwidth))) => {
            let (side, here, before) = if next - next_bandwidth < point - bandwidth {
                ("begins", next - next_bandwidth, point - bandwidth)
            } else {
                ("ends", next + next_bandwidth, point + bandwidth)
            };
            let apart = next - point;
            Some(format!(
                "the window {side} at minute {here}, that of line {number} at {before}: between marks that are {apart} minutes apart the half width may change by {apart} at most"
            ))
        }
        _ => None,
    };
    (expected.to_string(), cause)
}

/// A reading whose low is above its high.
fn crossed(line: Option<&Line>) -> (String, Option<String>) {
    let expected = "a low that is no higher than high".to_string();
    let numbers = line.and_then(|line| lines::numbers(line.text));
    let cause = match numbers.as_deref() {
        Some([_, _, low, high]) => Some(format!(
            "low is {low}, above high, which is {high}: the two are swapped, or one has a typing error"
        )),
        _ => None,
    };
    (expected, cause)
}

/// A line as it can be shown on a terminal; with quotation marks where blanks stand at its ends.
fn shown(text: &[u8]) -> String {
    if text.is_empty() {
        return "(empty)".to_string();
    }
    let mut line = String::new();
    let mut left = SHOWN;
    for chunk in text.utf8_chunks() {
        let letters = chunk.valid().chars().map(letter);
        let bytes = chunk.invalid().iter().map(|byte| format!("\\x{byte:02x}"));
        for part in letters.chain(bytes) {
            if left == 0 {
                return format!("{line}… ({} bytes)", grouped(text.len()));
            }
            left -= 1;
            line.push_str(&part);
        }
    }
    match line.trim() == line {
        true => line,
        false => format!("\"{line}\""),
    }
}

fn letter(letter: char) -> String {
    match letter {
        '\t' => "\\t".to_string(),
        '\r' => "\\r".to_string(),
        '\0' => "\\0".to_string(),
        '\u{feff}' | '\u{a0}' => letter.escape_unicode().to_string(),
        _ if letter.is_control() => letter.escape_unicode().to_string(),
        _ => letter.to_string(),
    }
}
