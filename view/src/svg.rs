//! Elements of a picture.

use std::fmt::Write;

/// The text of a picture, element by element.
pub struct Svg {
    text: String,
}

/// A point of a picture, in its own units, from the upper left corner.
pub type Place = (f64, f64);

/// Where a text begins, stands in the middle, or ends.
#[derive(Clone, Copy)]
pub enum Anchor {
    Start,
    Middle,
    End,
}

impl Svg {
    pub fn new(width: f64, height: f64, title: &str, description: &str) -> Svg {
        let (width, height) = (short(width), short(height));
        let title = escaped(title);
        let description = match description {
            "" => String::new(),
            words => format!("<desc>{}</desc>\n", escaped(words)),
        };
        Svg {
            text: format!(
                "<svg xmlns=\"http://www.w3.org/2000/svg\" viewBox=\"0 0 {width} {height}\" width=\"{width}\" height=\"{height}\" \
                 font-family=\"DejaVu Sans, Verdana, Arial, sans-serif\" role=\"img\">\n\
                 <title>{title}</title>\n{description}\
                 <rect width=\"{width}\" height=\"{height}\" fill=\"#ffffff\"/>\n"
            ),
        }
    }

    /// Elements up to the group's end share these attributes.
    pub fn group(&mut self, attributes: &str) {
        self.push(format_args!("<g {attributes}>"));
    }

    pub fn end_group(&mut self) {
        self.push(format_args!("</g>"));
    }

    pub fn line(&mut self, (x1, y1): Place, (x2, y2): Place, attributes: &str) {
        let [x1, y1, x2, y2] = [x1, y1, x2, y2].map(short);
        let gap = if attributes.is_empty() { "" } else { " " };
        self.push(format_args!(
            "<line x1=\"{x1}\" y1=\"{y1}\" x2=\"{x2}\" y2=\"{y2}\"{gap}{attributes}/>"
        ));
    }

    pub fn rect(&mut self, (x, y): Place, width: f64, height: f64, attributes: &str) {
        let [x, y, width, height] = [x, y, width, height].map(short);
        let gap = if attributes.is_empty() { "" } else { " " };
        self.push(format_args!(
            "<rect x=\"{x}\" y=\"{y}\" width=\"{width}\" height=\"{height}\"{gap}{attributes}/>"
        ));
    }

    pub fn circle(&mut self, (x, y): Place, radius: f64, attributes: &str) {
        let [x, y, radius] = [x, y, radius].map(short);
        let gap = if attributes.is_empty() { "" } else { " " };
        self.push(format_args!(
            "<circle cx=\"{x}\" cy=\"{y}\" r=\"{radius}\"{gap}{attributes}/>"
        ));
    }

    pub fn polyline(&mut self, points: &[Place], attributes: &str) {
        self.points("polyline", points, attributes);
    }

    pub fn polygon(&mut self, points: &[Place], attributes: &str) {
        self.points("polygon", points, attributes);
    }

    fn points(&mut self, element: &str, points: &[Place], attributes: &str) {
        let mut text = String::new();
        for (at, &(x, y)) in points.iter().enumerate() {
            // So that no line of the file gets long.
            let gap = match at {
                0 => "",
                _ if at % 12 == 0 => "\n",
                _ => " ",
            };
            text.push_str(gap);
            text.push_str(&short(x));
            text.push(',');
            text.push_str(&short(y));
        }
        self.push(format_args!("<{element} points=\"{text}\" {attributes}/>"));
    }

    pub fn text(&mut self, (x, y): Place, anchor: Anchor, attributes: &str, words: &str) {
        let [x, y] = [x, y].map(short);
        let anchor = match anchor {
            Anchor::Start => "",
            Anchor::Middle => " text-anchor=\"middle\"",
            Anchor::End => " text-anchor=\"end\"",
        };
        let gap = if attributes.is_empty() { "" } else { " " };
        let words = escaped(words);
        self.push(format_args!(
            "<text x=\"{x}\" y=\"{y}\"{anchor}{gap}{attributes}>{words}</text>"
        ));
    }

    pub fn finish(mut self) -> String {
        self.push(format_args!("</svg>"));
        self.text
    }

    fn push(&mut self, element: std::fmt::Arguments) {
        // Writing to a string does not fail.
        let _ = writeln!(self.text, "{element}");
    }
}

/// A number with one decimal at most.
fn short(number: f64) -> String {
    let text = format!("{number:.1}");
    let text = text.strip_suffix(".0").unwrap_or(&text);
    if text == "-0" { "0" } else { text }.to_string()
}

/// Text without a character that means something else in a picture, or that may not stand in one.
fn escaped(text: &str) -> String {
    let mut safe = String::new();
    for letter in text.chars() {
        match letter {
            '&' => safe.push_str("&amp;"),
            '<' => safe.push_str("&lt;"),
            '>' => safe.push_str("&gt;"),
            '"' => safe.push_str("&quot;"),
            '\u{fffe}' | '\u{ffff}' => safe.push('\u{fffd}'),
            _ if letter.is_control() => safe.push('\u{fffd}'),
            _ => safe.push(letter),
        }
    }
    safe
}

#[cfg(test)]
mod tests {
    use super::*;

    #[test]
    fn names_cannot_break_the_picture() {
        assert_eq!(
            escaped("a<b>&\"c\"\n"),
            "a&lt;b&gt;&amp;&quot;c&quot;\u{fffd}"
        );
    }

    #[test]
    fn numbers_are_short() {
        assert_eq!(
            [0.0, -0.01, 12.04, 12.06].map(short),
            ["0", "0", "12", "12.1"]
        );
    }
}
