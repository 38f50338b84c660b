//! Colours, lines and shapes. The colours differ in grey too, and the two tanks in shape besides.

use crate::svg::{Place, Svg};

/// How a tank is drawn.
pub struct Style {
    pub colour: &'static str,
    /// Whether readings are squares, not circles.
    square: bool,
    dashes: &'static str,
}

const FIRST: &str = "#06264d";
const SECOND: &str = "#d98200";

pub const TANKS: [&Style; 2] = [
    &Style {
        colour: FIRST,
        square: false,
        dashes: "",
    },
    &Style {
        colour: SECOND,
        square: true,
        dashes: " stroke-dasharray=\"10 4\"",
    },
];

pub const GRID: &str = "stroke=\"#d9d9d9\" stroke-width=\"1\"";
pub const AXIS: &str = "stroke=\"#000000\" stroke-width=\"1.5\"";
pub const LIMIT_LINE: &str = "stroke=\"#c2185b\" stroke-width=\"2\" stroke-dasharray=\"4 4\"";
pub const PARTING_LINE: &str = "stroke=\"#000000\" stroke-width=\"1.5\" stroke-dasharray=\"1.5 5\"";
pub const BAND: &str = "fill=\"#e4ebf2\"";
pub const BAND_EDGE: &str = "stroke=\"#6f7f8f\" stroke-width=\"1.5\" stroke-dasharray=\"6 4\"";
pub const BAND_POINT: &str = "stroke=\"#6f7f8f\" stroke-width=\"1.5\"";
const CROSS: &str = "stroke=\"#000000\" stroke-width=\"1.8\"";

/// Up to so many marks each value of the curve has a mark of its own.
pub const FEW_POINTS: usize = 60;

/// The radius of a dot among so many.
pub fn dot_size(samples: usize) -> f64 {
    match samples {
        0..=120 => 4.5,
        121..=400 => 3.2,
        _ => 2.2,
    }
}

impl Style {
    pub fn filled(&self) -> String {
        format!("fill=\"{}\" fill-opacity=\"0.45\"", self.colour)
    }

    pub fn hollow(&self) -> String {
        format!(
            "fill=\"none\" stroke=\"{}\" stroke-width=\"1.6\"",
            self.colour
        )
    }

    pub fn solid(&self) -> String {
        format!("fill=\"{}\"", self.colour)
    }

    pub fn line(&self) -> String {
        let Style { colour, dashes, .. } = self;
        format!("fill=\"none\" stroke=\"{colour}\" stroke-width=\"2.4\" stroke-linejoin=\"round\"{dashes}")
    }

    pub fn band(&self) -> String {
        format!("fill=\"{}\" fill-opacity=\"0.18\"", self.colour)
    }

    pub fn ring(&self) -> String {
        format!(
            "fill=\"none\" stroke=\"{}\" stroke-width=\"2.4\"",
            self.colour
        )
    }

    pub fn dot(&self, svg: &mut Svg, (x, y): Place, size: f64) {
        if self.square {
            svg.rect((x - size, y - size), 2.0 * size, 2.0 * size, "");
        } else {
            svg.circle((x, y), size, "");
        }
    }
}

pub fn cross(svg: &mut Svg, (x, y): Place) {
    svg.line((x - 4.0, y - 4.0), (x + 4.0, y + 4.0), CROSS);
    svg.line((x - 4.0, y + 4.0), (x + 4.0, y - 4.0), CROSS);
}

#[cfg(test)]
mod tests {
    use super::*;

    fn grey(colour: &str) -> f64 {
        let part = |at: usize| f64::from(u8::from_str_radix(&colour[at..at + 2], 16).unwrap());
        0.299 * part(1) + 0.587 * part(3) + 0.114 * part(5)
    }

    #[test]
    fn colours_differ_in_grey() {
        let colours = [FIRST, "#c2185b", SECOND, "#e4ebf2"].map(grey);
        for pair in colours.windows(2) {
            assert!(pair[1] - pair[0] > 45.0, "{colours:?}");
        }
        assert!(LIMIT_LINE.contains("#c2185b") && BAND.contains("#e4ebf2"));
    }
}
