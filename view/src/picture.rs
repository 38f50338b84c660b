//! The picture of one tank or two.

use crate::answers::{LimitAnswer, Parting, Window};
use crate::axis::Axis;
use crate::kind::Kind;
use crate::legend::{self, Entry, Symbol};
use crate::style::{self, Style};
use crate::svg::{Anchor, Place, Svg};
use crate::tank::{Level, Sample, Tank};
use crate::units::{day, level};

/// A tank with what is drawn of it.
pub struct Plotted<'a> {
    pub title: String,
    pub tank: &'a Tank,
    pub curve: Vec<Option<Level>>,
    pub answer: Option<LimitAnswer>,
}

/// Everything that is in a picture. There are one or two tanks, over the same marks.
pub struct Scene<'a> {
    pub tanks: Vec<Plotted<'a>>,
    pub limit: Option<u16>,
    pub window: Option<Window>,
    pub parting: Option<Parting>,
    /// Sentences above the picture.
    pub notes: Vec<String>,
}

const WIDTH: f64 = 960.0;
const SIDE: f64 = 20.0;
const LEFT: f64 = 72.0;
const RIGHT: f64 = WIDTH - 28.0;
const PLOT: f64 = 390.0;

/// Room at both ends of the days' axis, so that no dot is cut off.
const ROOM: f64 = 12.0;

/// Where a fraction of the days' axis lies.
fn along(fraction: f64) -> f64 {
    LEFT + ROOM + fraction * (RIGHT - LEFT - 2.0 * ROOM)
}

/// The area between the axes.
pub struct Plot {
    pub top: f64,
    x: Axis,
    y: Axis,
}

impl Plot {
    pub fn x(&self, minute: f64) -> f64 {
        along(self.x.fraction(minute))
    }

    pub fn y(&self, tenths: f64) -> f64 {
        self.bottom() - self.y.fraction(tenths) * PLOT
    }

    fn at(&self, minute: u16, tenths: u16) -> Place {
        (self.x(f64::from(minute)), self.y(f64::from(tenths)))
    }

    fn bottom(&self) -> f64 {
        self.top + PLOT
    }
}

/// The text of the picture.
pub fn draw(scene: &Scene) -> String {
    let titles: Vec<String> = scene
        .tanks
        .iter()
        .map(|plotted| legend::shortened(&plotted.title))
        .collect();
    let title = titles.join(" and ");
    let head = legend::lay_out(
        &title,
        &entries(scene, &titles),
        &scene.notes,
        WIDTH - 2.0 * SIDE,
    );
    let (x, y) = axes(scene);
    let plot = Plot {
        top: head.height + 30.0,
        x,
        y,
    };
    let mut svg = Svg::new(
        WIDTH,
        plot.bottom() + 62.0,
        &format!("Tank curve: {title}"),
        &scene.notes.join(". "),
    );
    legend::draw(&mut svg, &head, SIDE);
    if let Some(window) = &scene.window {
        draw_window(&mut svg, &plot, window);
    }
    draw_axes(&mut svg, &plot);
    if let Some(limit) = scene.limit {
        let y = plot.y(f64::from(limit));
        svg.line((LEFT, y), (RIGHT, y), style::LIMIT_LINE);
    }
    if let (Some(parting), Some(first)) = (&scene.parting, scene.tanks.first()) {
        let x = plot.x(f64::from(first.tank.points[parting.point]));
        svg.line((x, plot.top), (x, plot.bottom()), style::PARTING_LINE);
    }
    for (plotted, style) in scene.tanks.iter().zip(style::TANKS) {
        draw_samples(&mut svg, &plot, plotted.tank, style);
    }
    for (plotted, style) in scene.tanks.iter().zip(style::TANKS) {
        draw_curve(&mut svg, &plot, plotted, style);
        draw_answer(&mut svg, &plot, plotted, style);
    }
    svg.finish()
}

/// Axes that hold every mark, every reading and the limit. Levels begin at 0.
fn axes(scene: &Scene) -> (Axis, Axis) {
    let samples = || scene.tanks.iter().flat_map(|plotted| &plotted.tank.samples);
    let points = scene
        .tanks
        .iter()
        .flat_map(|plotted| &plotted.tank.points)
        .copied();
    let minutes = points
        .chain(samples().map(|sample| sample.minute))
        .map(u64::from);
    let (low, high) = minutes.fold((u64::MAX, 0), |(low, high), minute| {
        (low.min(minute), high.max(minute))
    });
    let tops = samples().map(|sample| sample.high).chain(scene.limit);
    let top = tops.max().unwrap_or(0).max(10);
    (
        Axis::new(low.min(high), high, 1440, 1, 12),
        Axis::new(0, u64::from(top), 10, 100, 6),
    )
}

fn draw_axes(svg: &mut Svg, plot: &Plot) {
    let bottom = plot.bottom();
    svg.group(style::GRID);
    for (fraction, _) in plot.y.ticks() {
        let y = bottom - fraction * PLOT;
        svg.line((LEFT, y), (RIGHT, y), "");
    }
    svg.end_group();
    svg.group(style::AXIS);
    svg.line((LEFT, plot.top), (LEFT, bottom), "");
    svg.line((LEFT, bottom), (RIGHT, bottom), "");
    for (fraction, _) in plot.x.ticks() {
        let x = along(fraction);
        svg.line((x, bottom), (x, bottom + 6.0), "");
    }
    svg.end_group();
    svg.group("font-size=\"16\"");
    for (fraction, label) in plot.x.ticks() {
        let x = along(fraction);
        svg.text((x, bottom + 25.0), Anchor::Middle, "", &label);
    }
    for (fraction, label) in plot.y.ticks() {
        svg.text(
            (LEFT - 8.0, bottom - fraction * PLOT + 6.0),
            Anchor::End,
            "",
            &label,
        );
    }
    svg.text((SIDE, plot.top - 14.0), Anchor::Start, "", "diacetyl, µg/l");
    svg.text(
        (RIGHT, bottom + 50.0),
        Anchor::End,
        "",
        "days since pitching",
    );
    svg.end_group();
}

/// The window as a band, with its edges where they lie within the picture, and its mark.
fn draw_window(svg: &mut Svg, plot: &Plot, window: &Window) {
    let (left, right) = window.ends();
    let ends = [left, right].map(|minute| plot.x(minute as f64));
    let [from, to] = ends.map(|x| x.clamp(LEFT, RIGHT));
    svg.rect((from, plot.top), to - from, PLOT, style::BAND);
    for x in ends.into_iter().filter(|x| (LEFT..=RIGHT).contains(x)) {
        svg.line((x, plot.top), (x, plot.bottom()), style::BAND_EDGE);
    }
    let x = plot.x(f64::from(window.point));
    svg.line((x, plot.top), (x, plot.bottom()), style::BAND_POINT);
}

fn draw_samples(svg: &mut Svg, plot: &Plot, tank: &Tank, style: &Style) {
    let size = style::dot_size(tank.samples.len());
    for kept in [true, false] {
        let mut some = tank
            .samples
            .iter()
            .filter(|sample| sample.kept == kept)
            .peekable();
        if some.peek().is_none() {
            continue;
        }
        svg.group(&if kept { style.filled() } else { style.hollow() });
        for sample in some {
            draw_sample(svg, plot, sample, style, size);
        }
        svg.end_group();
    }
}

/// A dot, or a bar over a range.
fn draw_sample(svg: &mut Svg, plot: &Plot, sample: &Sample, style: &Style, size: f64) {
    let (x, low) = plot.at(sample.minute, sample.low);
    if sample.low == sample.high {
        style.dot(svg, (x, low), size);
    } else {
        let (_, high) = plot.at(sample.minute, sample.high);
        svg.rect((x - size * 0.7, high), size * 1.4, low - high, "");
    }
}

/// The curve from mark to mark, broken where a value is missing; between ranges a band.
fn draw_curve(svg: &mut Svg, plot: &Plot, plotted: &Plotted, style: &Style) {
    let points = &plotted.tank.points;
    let estimates: Vec<(u16, Option<Level>)> = points
        .iter()
        .copied()
        .zip(plotted.curve.iter().copied())
        .collect();
    let ranges = plotted.tank.kind == Kind::Ranges;
    for stretch in estimates.split(|(_, level)| level.is_none()) {
        let levels = |end: fn(Level) -> u16| -> Vec<Place> {
            let there = stretch
                .iter()
                .filter_map(|&(point, level)| Some((point, level?)));
            there
                .map(|(point, level)| plot.at(point, end(level)))
                .collect()
        };
        let (lows, highs) = (levels(|level| level.low), levels(|level| level.high));
        if lows.len() > 1 {
            if ranges {
                let around: Vec<Place> = lows.iter().chain(highs.iter().rev()).copied().collect();
                svg.polygon(&around, &style.band());
                svg.polyline(&highs, &style.line());
            }
            svg.polyline(&lows, &style.line());
        }
        // A mark for each value where they are few, and for one that no line reaches.
        if points.len() <= style::FEW_POINTS || lows.len() == 1 {
            for &(x, y) in lows.iter().chain(highs.iter().filter(|_| ranges)) {
                svg.rect((x - 3.0, y - 3.0), 6.0, 6.0, &style.solid());
            }
        }
    }
    let missing = estimates.iter().filter(|(_, level)| level.is_none());
    for &(point, _) in missing {
        let x = plot.x(f64::from(point));
        style::cross(svg, (x, plot.bottom() - 7.0));
    }
}

/// The mark that answers the limit, and the reading that decides there.
fn draw_answer(svg: &mut Svg, plot: &Plot, plotted: &Plotted, style: &Style) {
    let Some(answer) = &plotted.answer else {
        return;
    };
    if let Some((at, value)) = answer.first {
        svg.circle(plot.at(plotted.tank.points[at], value), 10.0, &style.ring());
    }
    let decisive = answer.decisive.as_ref();
    if let Some(sample) = decisive.and_then(|decisive| plotted.tank.kept(decisive.position)) {
        let (x, y) = plot.at(sample.minute, sample.low);
        svg.rect((x - 9.0, y - 9.0), 18.0, 18.0, &style.ring());
    }
}

/// What the legend has to explain.
fn entries(scene: &Scene, titles: &[String]) -> Vec<Entry> {
    let mut entries = Vec::new();
    let mut add = |symbol, words: String| entries.push(Entry { symbol, words });
    let ranges = scene
        .tanks
        .iter()
        .any(|plotted| plotted.tank.kind == Kind::Ranges);
    let samples = || scene.tanks.iter().flat_map(|plotted| &plotted.tank.samples);
    let kept = || samples().filter(|sample| sample.kept);
    match titles {
        [_] => {
            // a range of one value is drawn as a plain reading
            let one_value = kept().any(|sample| sample.low == sample.high);
            if one_value || !ranges {
                add(Symbol::Sample(0, false), "reading".to_string());
            }
            if ranges && (!one_value || kept().any(|sample| sample.low < sample.high)) {
                add(
                    Symbol::Sample(0, true),
                    "reading, from low to high".to_string(),
                );
            }
            add(Symbol::Curve(0, ranges), "curve".to_string());
        }
        _ => {
            for (tank, title) in titles.iter().enumerate() {
                add(Symbol::Tank(tank), title.clone());
            }
        }
    }
    if samples().any(|sample| !sample.kept) {
        add(Symbol::Dropped, "dropped: injection 1 or 2".to_string());
    }
    if scene
        .tanks
        .iter()
        .any(|plotted| plotted.curve.contains(&None))
    {
        add(Symbol::Missing, "mark without a value".to_string());
    }
    if let Some(window) = &scene.window {
        add(Symbol::Window, format!("window at {}", day(window.point)));
    }
    if let Some(limit) = scene.limit {
        add(Symbol::Limit, format!("limit {}", level(limit)));
    }
    let answers = || {
        scene
            .tanks
            .iter()
            .filter_map(|plotted| plotted.answer.as_ref())
    };
    if answers().any(|answer| answer.first.is_some()) {
        add(Symbol::First, "first at or below it".to_string());
    }
    if answers().any(|answer| answer.decisive.is_some()) {
        add(Symbol::Decisive, "reading that decides".to_string());
    }
    if scene.parting.is_some() {
        add(Symbol::Parting, "here they part".to_string());
    }
    entries
}
