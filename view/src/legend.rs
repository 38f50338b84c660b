//! What stands above a picture: the title, the legend and the notes, in lines that fit.

use crate::style::{self, TANKS};
use crate::svg::{Anchor, Svg};

/// What a symbol of the picture stands for.
#[derive(Clone, Debug, PartialEq)]
pub struct Entry {
    pub symbol: Symbol,
    pub words: String,
}

/// The symbols; numbers tell the tank, 0 or 1, and truth values whether there are ranges.
#[derive(Clone, Copy, Debug, PartialEq, Eq)]
pub enum Symbol {
    Sample(usize, bool),
    Curve(usize, bool),
    Tank(usize),
    Dropped,
    Missing,
    Window,
    Limit,
    First,
    Decisive,
    Parting,
}

/// The title, the legend and the notes with their places.
pub struct Head {
    title: Vec<(f64, String)>,
    entries: Vec<(f64, f64, Entry)>,
    notes: Vec<(f64, String)>,
    pub height: f64,
}

const SYMBOL: f64 = 44.0;
/// The sizes of letters.
const TITLE: f64 = 22.0;
const ENTRY: f64 = 16.0;
const NOTE: f64 = 15.0;
/// How much wider bold letters are.
const BOLD: f64 = 1.13;

/// Puts the entries side by side below the title and the notes below these, each in as many lines as it needs.
pub fn lay_out(title: &str, entries: &[Entry], notes: &[String], width: f64) -> Head {
    let mut y = 36.0;
    let mut titles = Vec::new();
    for line in wrapped(title, width / (TITLE * BOLD), "") {
        titles.push((y, line));
        y += 30.0;
    }
    let mut placed = Vec::new();
    let mut x = 0.0;
    for entry in entries {
        let wide = SYMBOL + ENTRY * width_of(&entry.words);
        if x > 0.0 && x + wide > width {
            (x, y) = (0.0, y + 26.0);
        }
        placed.push((x, y, entry.clone()));
        x += wide + 14.0;
    }
    y += 4.0;
    let mut lines = Vec::new();
    for note in notes {
        for line in wrapped(note, width / NOTE, "\u{a0}\u{a0}\u{a0} ") {
            y += 22.0;
            lines.push((y, line));
        }
    }
    Head {
        title: titles,
        entries: placed,
        notes: lines,
        height: y + 10.0,
    }
}

/// How wide a text is taken to be, in sizes of its letters: of ASCII at least as wide as in DejaVu Sans, the first font that a picture names.
fn width_of(text: &str) -> f64 {
    text.chars().map(letter_width).sum()
}

fn letter_width(letter: char) -> f64 {
    match letter {
        '%' => 1.08,
        'M' | 'W' | 'm' | 'w' | '@' => 1.0,
        '\u{a0}' => 0.46,
        'µ' => 0.66,
        _ if " !'(),-./:;IJ[]fijlrt|".contains(letter) => 0.46,
        'A'..='Z' | '#' | '&' | '+' | '<' | '=' | '>' | '^' | '~' => 0.84,
        '!'..='~' => 0.65,
        _ => 1.0,
    }
}

/// Lines of at most this width, in sizes of their letters, the later ones indented; a word that no line holds is cut.
fn wrapped(text: &str, most: f64, indent: &str) -> Vec<String> {
    let mut lines = Vec::new();
    let mut line = String::new();
    // where the line's words begin
    let mut start = 0;
    for word in text.split(' ') {
        if line.len() > start && width_of(&line) + width_of(" ") + width_of(word) > most {
            lines.push(std::mem::replace(&mut line, indent.to_string()));
            start = indent.len();
        }
        if line.len() > start {
            line.push(' ');
        }
        for letter in word.chars() {
            if line.len() > start && width_of(&line) + letter_width(letter) > most {
                lines.push(std::mem::replace(&mut line, indent.to_string()));
                start = indent.len();
            }
            line.push(letter);
        }
    }
    lines.push(line);
    lines
}

/// A name that leaves room for others.
pub fn shortened(name: &str) -> String {
    match name.char_indices().nth(36) {
        Some((at, _)) => format!("{}…", &name[..at]),
        None => name.to_string(),
    }
}

pub fn draw(svg: &mut Svg, head: &Head, side: f64) {
    for (y, line) in &head.title {
        let bold = format!("font-size=\"{TITLE}\" font-weight=\"bold\"");
        svg.text((side, *y), Anchor::Start, &bold, line);
    }
    svg.group(&format!("font-size=\"{ENTRY}\""));
    for (x, y, entry) in &head.entries {
        svg.text(
            (side + x + SYMBOL - 6.0, *y),
            Anchor::Start,
            "",
            &entry.words,
        );
    }
    svg.end_group();
    for (x, y, entry) in &head.entries {
        draw_symbol(svg, entry.symbol, (side + x, y - 6.0));
    }
    svg.group(&format!("font-size=\"{NOTE}\" fill=\"#333333\""));
    for (y, line) in &head.notes {
        svg.text((side, *y), Anchor::Start, "", line);
    }
    svg.end_group();
}

fn draw_symbol(svg: &mut Svg, symbol: Symbol, (x, y): (f64, f64)) {
    let (middle, right) = (x + 16.0, x + 32.0);
    let style = |tank: usize| TANKS[tank.min(1)];
    match symbol {
        Symbol::Sample(tank, ranges) => {
            svg.group(&style(tank).filled());
            if ranges {
                svg.rect((middle - 3.2, y - 9.0), 6.4, 18.0, "");
            } else {
                style(tank).dot(svg, (middle, y), 4.5);
            }
            svg.end_group();
        }
        Symbol::Curve(tank, ranges) => {
            let lines: &[f64] = if ranges { &[-6.0, 6.0] } else { &[0.0] };
            if ranges {
                svg.rect((x, y - 6.0), 32.0, 12.0, &style(tank).band());
            }
            for shift in lines {
                svg.polyline(&[(x, y + shift), (right, y + shift)], &style(tank).line());
            }
        }
        Symbol::Tank(tank) => {
            svg.polyline(&[(x, y), (right, y)], &style(tank).line());
            svg.group(&style(tank).filled());
            style(tank).dot(svg, (middle, y), 4.5);
            svg.end_group();
        }
        Symbol::Dropped => {
            svg.group(&style(0).hollow());
            style(0).dot(svg, (middle, y), 4.5);
            svg.end_group();
        }
        Symbol::Missing => style::cross(svg, (middle, y)),
        Symbol::Window => {
            svg.rect((x, y - 8.0), 32.0, 16.0, style::BAND);
            svg.line((x, y - 8.0), (x, y + 8.0), style::BAND_EDGE);
            svg.line((right, y - 8.0), (right, y + 8.0), style::BAND_EDGE);
        }
        Symbol::Limit => svg.line((x, y), (right, y), style::LIMIT_LINE),
        Symbol::First => svg.circle((middle, y), 9.0, &style(0).ring()),
        Symbol::Decisive => svg.rect((middle - 8.0, y - 8.0), 16.0, 16.0, &style(0).ring()),
        Symbol::Parting => svg.line((middle, y - 9.0), (middle, y + 9.0), style::PARTING_LINE),
    }
}

#[cfg(test)]
mod tests {
    use super::*;

    #[test]
    fn lines_fit() {
        assert_eq!(wrapped("a bc def", 3.0, "- "), ["a bc", "- def"]);
        assert_eq!(wrapped("abcdefgh i", 3.5, ""), ["abcde", "fgh i"]);
        assert_eq!(wrapped("WW a", 0.5, ""), ["W", "W", "a"]);
        assert_eq!(wrapped("", 5.0, "- "), [""]);
        for text in [
            "µ".repeat(300),
            "LAGER ".repeat(50),
            "Tank 7, März".repeat(30),
        ] {
            let lines = wrapped(&text, 40.0, "> ");
            assert!(lines.iter().all(|line| width_of(line) <= 40.0));
            let letters = |text: &str| text.replace(['>', ' '], "");
            assert_eq!(letters(&lines.concat()), letters(&text));
        }
        assert_eq!(
            shortened("µ".repeat(40).as_str()),
            format!("{}…", "µ".repeat(36))
        );
        assert_eq!(shortened("even-fall"), "even-fall");
    }

    /// Names of wide letters: nothing is wider than the picture, and no entry reaches the next.
    #[test]
    fn long_names_fit() {
        let (width, names) = (920.0, ["W".repeat(60), "LAGER WEST 12 ".repeat(4)]);
        let names = names.map(|name| shortened(&name));
        let words = [&names[0], &names[1], "dropped: injection 1 or 2", "curve"];
        let entries = words.map(|words| Entry {
            symbol: Symbol::Dropped,
            words: words.to_string(),
        });
        let notes = [format!("{}: {}", "W".repeat(200), names[1])];
        let head = lay_out(&names.join(" and "), &entries, &notes, width);
        assert_eq!(head.title.len(), 2);
        let bold = |(_, line): &(f64, String)| BOLD * TITLE * width_of(line) <= width;
        assert!(head.title.iter().all(bold));
        assert!(head.notes.len() > 3);
        let note = |(_, line): &(f64, String)| NOTE * width_of(line) <= width;
        assert!(head.notes.iter().all(note));
        let end = |x: f64, entry: &Entry| x + SYMBOL + ENTRY * width_of(&entry.words);
        assert!(head
            .entries
            .iter()
            .all(|(x, _, entry)| end(*x, entry) <= width));
        for pair in head.entries.windows(2) {
            let ((x, y, entry), (next, line, _)) = (&pair[0], &pair[1]);
            assert!(line > y || next > &end(*x, entry));
        }
        // one below the other
        let mut places: Vec<f64> = head.title.iter().map(|(y, _)| *y).collect();
        places.extend(head.entries.iter().map(|(_, y, _)| *y));
        places.extend(head.notes.iter().map(|(y, _)| *y));
        places.dedup();
        assert!(places.windows(2).all(|pair| pair[1] >= pair[0] + 20.0));
        assert!(head.height >= places[places.len() - 1]);
    }

    /// As wide as in DejaVu Sans, or wider.
    #[test]
    fn letters_are_not_wider() {
        for (text, width) in [
            ("WMmw@", 4.65),
            ("OQDGN", 3.87),
            ("bdpq0579", 5.09),
            ("+=<>", 3.36),
            ("rt-:;/ ", 2.50),
            ("µ%", 1.59),
        ] {
            assert!(width_of(text) >= width, "{text}");
        }
    }
}
