//! What most likely made a line wrong.

use crate::kind::{Kind, POINT_HEADER};
use crate::lines::{numbers, Line};
use crate::section::Section;
use crate::units::grouped;

const BYTE_ORDER_MARK: &[u8] = b"\xef\xbb\xbf";
const MARKED: &str =
    "the file begins with a byte order mark; save it as UTF-8 without one, or as plain text";
const UNENDED: &str =
    "no line feed ends the last line: put the cursor behind it, press Enter, and save";
const RETURNED: &str = "the last line ends in a carriage return without its line feed";
const COMMENT: &str = "a comment; a sheet has none";
const QUOTED: &str = "quotation marks stand around cells; a sheet has none";
const SEMICOLONS: &str =
    "semicolons stand where commas belong; a spreadsheet program with a decimal comma saves so";
const PADDED: &str =
    "commas stand at the end of the line; a spreadsheet program fills up short rows with them";
const TABS: &str = "tabs stand where commas belong";
const NO_BREAK_SPACE: &[u8] = b"\xc2\xa0";

/// Why a file is no sheet at all, told by its first bytes.
fn foreign_file(text: &[u8]) -> Option<&'static str> {
    let zeros = text.iter().take(16).filter(|&&byte| byte == 0).count();
    if text.starts_with(b"PK\x03\x04") || text.starts_with(b"\xd0\xcf\x11\xe0") {
        Some("this is a spreadsheet program's own file; save it as text, with commas (CSV)")
    } else if text.starts_with(b"\xff\xfe") || text.starts_with(b"\xfe\xff") || zeros >= 6 {
        Some("the file is saved as Unicode with two bytes a letter (UTF-16); save it as plain text or UTF-8")
    } else if text.contains(&0) {
        Some("this is no file of text")
    } else if text.starts_with(b"mark,half,left,right") || text.starts_with(b"refused,place") {
        Some("this is what the program writes, a curve or a refusal, and not the sheet it was made from")
    } else {
        None
    }
}

/// Why a header line ("names line") is wrong. `rest` is the sheet from that line on.
pub fn of_header(section: Section, line: Option<&Line>, rest: &[u8]) -> String {
    let first = section == Section::PointHeader;
    let words = match line {
        None if first => "the file is empty",
        None => {
            "the sheet ends behind its marks: the readings are missing, or the file was cut off"
        }
        Some(line) => foreign_file(rest)
            .filter(|_| first)
            .or_else(|| misplaced(first, line.text))
            .or_else(|| returned(first, line))
            .or_else(|| misspelt(first, line.text))
            .unwrap_or(if first {
                "other names, or another file than a tank sheet"
            } else {
                "other names than a sheet has"
            }),
    };
    words.to_string()
}

/// A line of another part of a sheet, where a header line belongs.
fn misplaced(first: bool, text: &[u8]) -> Option<&'static str> {
    if text.is_empty() && first {
        Some("an empty line stands in front of the names line")
    } else if text.is_empty() {
        Some("there are two empty lines behind the marks")
    } else if first && Kind::of_header(text).is_some() {
        Some("the two blocks are swapped: marks come first, then an empty line, then readings")
    } else if !first && text == POINT_HEADER.as_bytes() {
        Some("the marks' names line stands here again, where the readings begin")
    } else if text.starts_with(b"#") {
        Some(COMMENT)
    } else if numbers(text).is_some() {
        Some("the names line is missing: numbers stand here already")
    } else {
        None
    }
}

fn is_header(first: bool, text: &[u8]) -> bool {
    match first {
        true => text == POINT_HEADER.as_bytes(),
        false => Kind::of_header(text).is_some(),
    }
}

/// A last line that is a header line and a carriage return.
fn returned(first: bool, line: &Line) -> Option<&'static str> {
    let front = cut_return(line)?;
    is_header(first, front).then_some(RETURNED)
}

/// The text of a last line in front of a carriage return without its line feed.
fn cut_return<'a>(line: &Line<'a>) -> Option<&'a [u8]> {
    match line.ended {
        true => None,
        false => line.text.strip_suffix(b"\r"),
    }
}

/// A header line that is right but for one thing.
fn misspelt(first: bool, text: &[u8]) -> Option<&'static str> {
    if text.starts_with(BYTE_ORDER_MARK) {
        return Some(MARKED);
    }
    let front = text.split(|&byte| byte == b'\r').next().unwrap_or(text);
    let mended: [(Vec<u8>, &str); 10] = [
        (text.to_vec(), UNENDED),
        (
            text.trim_ascii().to_vec(),
            "a blank stands in front of the names or behind them",
        ),
        (without(text, b" \t"), "a blank stands between the names"),
        (without(text, b"\""), QUOTED),
        (replaced(text, b';'), SEMICOLONS),
        (replaced(text, b'\t'), TABS),
        (replaced(text, b' '), "blanks stand where commas belong"),
        (trimmed_commas(text).to_vec(), PADDED),
        (
            text.to_ascii_lowercase(),
            "the names have capital letters; they are written small",
        ),
        (
            front.to_vec(),
            "the lines end in carriage returns without line feeds",
        ),
    ];
    let found = mended.into_iter().find(|(line, _)| is_header(first, line));
    found.map(|(_, words)| words)
}

/// Why a line of numbers is malformed.
pub fn of_numbers(section: Section, line: &Line) -> String {
    let (text, unended) = match cut_return(line) {
        Some([]) => return RETURNED.to_string(),
        Some(front) => (front, RETURNED),
        None => (line.text, UNENDED),
    };
    let found = whole_line(section, text)
        .or_else(|| below_floor(section, text))
        .or_else(|| foreign_byte(text))
        .or_else(|| wrong_count(section, text))
        .or_else(|| wrong_number(section, text));
    match (found, line.ended) {
        (Some(words), true) => words,
        (Some(words), false) => format!("{words}; besides, {unended}"),
        (None, _) => unended.to_string(),
    }
}

fn without(text: &[u8], bytes: &[u8]) -> Vec<u8> {
    let kept = text.iter().filter(|byte| !bytes.contains(byte));
    kept.copied().collect()
}

fn replaced(text: &[u8], separator: u8) -> Vec<u8> {
    let comma = |&byte: &u8| if byte == separator { b',' } else { byte };
    text.iter().map(comma).collect()
}

fn trimmed_commas(text: &[u8]) -> &[u8] {
    let end = text.iter().rposition(|&byte| byte != b',');
    &text[..end.map_or(0, |last| last + 1)]
}

/// A line that is something else than numbers.
fn whole_line(section: Section, text: &[u8]) -> Option<String> {
    let header = Kind::of_header(trimmed_commas(text)).is_some();
    let again = trimmed_commas(text) == POINT_HEADER.as_bytes();
    Some(if text.is_empty() {
        "an empty line stands among the readings or behind them; nothing may follow the last reading".to_string()
    } else if text.trim_ascii().is_empty() {
        "the line looks empty, but blanks stand in it".to_string()
    } else if trimmed_commas(text).is_empty() {
        "a spreadsheet program has filled up an empty line with commas; it has to be empty"
            .to_string()
    } else if text.starts_with(b"#") {
        COMMENT.to_string()
    } else if header && section == Section::Points {
        "the empty line between the marks and this names line is missing".to_string()
    } else if again && section == Section::Points {
        "the names line stands here again".to_string()
    } else if header || again {
        "a second block begins here: two sheets in one file".to_string()
    } else {
        return None;
    })
}

/// A value of which only is said below which number it lies, in a sheet without ranges.
fn below_floor(section: Section, text: &[u8]) -> Option<String> {
    if section != Section::Samples(Kind::Plain) {
        return None;
    }
    let mut fields = text.split(|&byte| byte == b',');
    let floor = fields.find_map(|field| field.strip_prefix(b"<"))?;
    let floor = numbers(floor.trim_ascii())?;
    Some(format!(
        "'<' is neither a digit nor a comma; a value below the detector's floor belongs into a sheet with ranges, as 0,{}",
        floor.first()?
    ))
}

/// A byte that has no place in a line of numbers.
fn foreign_byte(text: &[u8]) -> Option<String> {
    let has = |byte: u8| text.contains(&byte);
    let words = if has(b'"') {
        QUOTED
    } else if has(b';') {
        SEMICOLONS
    } else if has(b'\t') {
        TABS
    } else if let Some(at) = other_letter(text) {
        return Some(format!(
            "{} is neither a digit nor a comma",
            first_letter(&text[at..])
        ));
    } else if has(b' ') || has(NO_BREAK_SPACE[1]) {
        "a blank stands in the line"
    } else if has(b'\r') {
        "a carriage return stands inside the line"
    } else if has(b'.') {
        "a decimal point: all numbers are whole, a value is in tenths of a microgram per litre"
    } else if text.split(|&byte| byte == b',').any(|field| field == b"-") {
        "a dash stands for a number; a reading without a value is left out of a sheet"
    } else if has(b'-') {
        "a minus sign: no number of a sheet has a sign"
    } else if has(b'+') {
        "a plus sign: no number of a sheet has a sign"
    } else {
        return None;
    };
    Some(words.to_string())
}

/// Where a letter stands that is none of those with words of their own.
fn other_letter(text: &[u8]) -> Option<usize> {
    let mut at = 0;
    while let Some(&byte) = text.get(at) {
        if text[at..].starts_with(NO_BREAK_SPACE) {
            at += NO_BREAK_SPACE.len();
        } else if byte.is_ascii_digit() || b", .-+\r".contains(&byte) {
            at += 1;
        } else {
            return Some(at);
        }
    }
    None
}

/// The letter that bytes begin with, or the byte where they begin with none.
fn first_letter(bytes: &[u8]) -> String {
    let letter = (1..=bytes.len().min(4)).find_map(|end| std::str::from_utf8(&bytes[..end]).ok());
    match (letter.and_then(|text| text.chars().next()), bytes.first()) {
        (Some(letter), _) if !letter.is_control() => format!("'{letter}'"),
        (_, Some(byte)) => format!("the byte {byte}"),
        (_, None) => "nothing".to_string(),
    }
}

/// Too few or too many numbers, of digits and commas alone.
fn wrong_count(section: Section, text: &[u8]) -> Option<String> {
    let (fields, wanted) = (text.split(|&byte| byte == b',').count(), section.fields());
    let decimal = "a decimal comma in a number, which has to be whole";
    // three digits behind a comma may belong to the number in front of it
    let mut behind = text.split(|&byte| byte == b',').skip(1);
    let thousands = match behind.any(|field| field.len() == 3) {
        true => ", or a separator of thousands",
        false => "",
    };
    let words = if fields == wanted {
        return None;
    } else if fields > wanted && trimmed_commas(text).split(|&byte| byte == b',').count() == wanted
    {
        PADDED.to_string()
    } else {
        match (section, fields) {
            (Section::Points, 3 | 4) => {
                format!("{decimal}{thousands}, or a reading line among the marks")
            }
            (Section::Samples(Kind::Plain), 4) => {
                format!(
                    "{decimal} (values are in tenths){thousands}, or a line of a sheet with ranges"
                )
            }
            (Section::Samples(Kind::Ranges), 3) => "a line of a sheet without ranges".to_string(),
            (Section::Samples(_), 2) => {
                "a mark line among the readings, or a number is missing".to_string()
            }
            _ if fields > wanted => format!("{decimal}{thousands}, or two lines in one"),
            _ => "a number is missing, or the line was cut off".to_string(),
        }
    };
    let s = if fields == 1 { "" } else { "s" };
    Some(format!("{fields} number{s} where {wanted} belong: {words}"))
}

/// A number of wrong form or range, in a line with the right commas.
fn wrong_number(section: Section, text: &[u8]) -> Option<String> {
    let fields = text.split(|&byte| byte == b',');
    fields.enumerate().find_map(|(column, field)| {
        let name = column_name(section, column);
        let shown = match field.len() {
            0..=12 => String::from_utf8_lossy(field).into_owned(),
            digits => format!("a number of {digits} digits"),
        };
        // A half width that five digits hold has a report of its own.
        let most = match (section, column) {
            (Section::Points, 1) => 99_999,
            _ => 65_535,
        };
        let value: Option<u64> = shown.parse().ok();
        if field.is_empty() {
            Some(format!("there is no number for {name}"))
        } else if field.len() > 1 && field.starts_with(b"0") {
            Some(format!("{name} is {shown}, with a zero in front"))
        } else if !matches!(value, Some(value) if value <= most) {
            let most = if most == 99_999 { 65_536 } else { 65_535 };
            Some(format!("{name} is {shown}, above {}", grouped(most)))
        } else if name == "inj" && value == Some(0) {
            Some("inj is 0; injections count from 1".to_string())
        } else {
            None
        }
    })
}

fn column_name(section: Section, column: usize) -> &'static str {
    let header = match section {
        Section::Samples(kind) => kind.header(),
        _ => POINT_HEADER,
    };
    header.split(',').nth(column).unwrap_or("a number")
}
