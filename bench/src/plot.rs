//! The results as a drawing: docs/benchmarks.svg.

use crate::cases::{CHECK, EDIT, FAULTS, NAMES, NOTHING};
use crate::measure::Row;
use crate::report::GOAL;
use crate::stores::{shapes, Fill};
use model::store::Shape;
use std::fmt::Write;

const WIDTH: f64 = 1290.0;
const HEIGHT: f64 = 820.0;
/// The left and right ends of both panels.
const LEFT: f64 = 70.0;
const RIGHT: f64 = 1260.0;

const INK: &str = "#222";
const GRID: &str = "#ddd";
const GOAL_COLOUR: &str = "#c0392b";
/// The colours of the shapes.
const BARS: [&str; 3] = ["#9ecae1", "#4292c6", "#084594"];
/// The calls of the lower panel and their colours.
const LINES: [(&str, &str); 4] = [(CHECK, "#1b9e77"), (EDIT, "#d95f02"), (NOTHING, "#7570b3"), (FAULTS, "#e7298a")];

/// A panel: values from 0 up to a highest one, from its bottom to its top.
struct Panel {
    top: f64,
    bottom: f64,
    highest: f64,
}

struct Drawing(String);

impl Drawing {
    fn text(&mut self, x: f64, y: f64, anchor: &str, text: &str) {
        let _ = writeln!(self.0, r#"<text x="{x:.1}" y="{y:.1}" text-anchor="{anchor}">{text}</text>"#);
    }

    fn line(&mut self, [x, y]: [f64; 2], [to_x, to_y]: [f64; 2], style: &str) {
        let _ = writeln!(self.0, r#"<line x1="{x:.1}" y1="{y:.1}" x2="{to_x:.1}" y2="{to_y:.1}" {style}/>"#);
    }

    fn bar(&mut self, x: f64, y: f64, [width, height]: [f64; 2], colour: &str, fill: Fill) {
        let look = match fill {
            Fill::Full => format!(r#"fill="{colour}""#),
            Fill::Half => format!(r#"fill="{colour}" fill-opacity="0.3" stroke="{colour}""#),
        };
        let _ = writeln!(self.0, r#"<rect x="{x:.1}" y="{y:.1}" width="{width:.1}" height="{height:.1}" {look}/>"#);
    }

    /// The title, the marks of the upward axis, and their lines.
    fn frame(&mut self, panel: &Panel, title: &str, step: f64) {
        let _ = writeln!(self.0, r#"<text x="{LEFT}" y="{:.1}" font-weight="bold">{title}</text>"#, panel.top - 34.0);
        for i in 0..=(panel.highest / step).round() as usize {
            let value = i as f64 * step;
            let y = panel.y(value);
            self.line([LEFT, y], [RIGHT, y], &stroke(GRID, "1"));
            self.text(LEFT - 8.0, y + 4.0, "end", &value.to_string());
        }
        self.line([LEFT, panel.bottom], [RIGHT, panel.bottom], &stroke(INK, "1"));
    }

    /// Short lines of words, one below the other.
    fn words(&mut self, x: f64, y: f64, text: &str) {
        let mut lines = vec![String::new()];
        for word in text.split(' ') {
            match lines.last_mut() {
                Some(line) if line.len() + word.len() < 15 => *line += &format!(" {word}"),
                _ => lines.push(word.to_string()),
            }
        }
        for (i, line) in lines.iter().enumerate() {
            self.text(x, y + 15.0 * i as f64, "middle", line.trim());
        }
    }
}

impl Panel {
    /// A panel that has room for the values, with its marks so far apart.
    fn new(top: f64, bottom: f64, values: impl Iterator<Item = f64>, step: f64) -> Panel {
        let highest = values.fold(step, f64::max);
        Panel { top, bottom, highest: step * (highest / step).ceil() }
    }

    fn y(&self, value: f64) -> f64 {
        self.bottom - (self.bottom - self.top) * value / self.highest
    }
}

fn stroke(colour: &str, width: &str) -> String {
    format!(r#"stroke="{colour}" stroke-width="{width}""#)
}

fn named(shape: Shape) -> String {
    format!("({}, {}, {})", shape.lists, shape.nodes, shape.width)
}

/// A distance of marks that gives about five of them.
fn step_for(highest: f64) -> f64 {
    [0.25, 0.5, 1.0, 2.0, 5.0, 10.0, 20.0, 50.0].into_iter().find(|step| highest <= 6.0 * step).unwrap_or(100.0)
}

/// The ratios: a group of bars for each kind of calls.
fn ratios(drawing: &mut Drawing, rows: &[Row]) {
    let values = || rows.iter().map(Row::ratio).chain([1.5]);
    let step = step_for(values().fold(0.0, f64::max));
    let panel = Panel::new(80.0, 320.0, values(), step);
    drawing.frame(&panel, "Proved time / plain time", step);
    let group = (RIGHT - LEFT) / NAMES.len() as f64;
    let bar = group / 8.0;
    for (i, name) in NAMES.into_iter().enumerate() {
        let start = LEFT + group * i as f64;
        let of_name: Vec<&Row> = rows.iter().filter(|row| row.name == name).collect();
        for (place, row) in of_name.iter().enumerate() {
            let x = start + group / 2.0 + bar * (place as f64 - of_name.len() as f64 / 2.0);
            let y = panel.y(row.ratio());
            let colour = BARS[shapes().iter().take_while(|&&shape| shape != row.shape).count()];
            drawing.bar(x + 1.0, y, [bar - 2.0, panel.bottom - y], colour, row.fill.unwrap_or(Fill::Full));
        }
        drawing.words(start + group / 2.0, panel.bottom + 18.0, name);
    }
    let goal = panel.y(GOAL);
    drawing.line([LEFT, goal], [RIGHT, goal], &(stroke(GOAL_COLOUR, "1.5") + r#" stroke-dasharray="6 4""#));
    drawing.text(RIGHT, goal - 5.0, "end", &format!("goal: {GOAL}"));
    let legend = panel.top - 45.0;
    for (i, (shape, colour)) in shapes().into_iter().zip(BARS).enumerate() {
        let x = 300.0 + 140.0 * i as f64;
        drawing.bar(x, legend, [12.0, 12.0], colour, Fill::Full);
        drawing.text(x + 18.0, legend + 11.0, "start", &named(shape));
    }
    drawing.bar(725.0, legend, [12.0, 12.0], INK, Fill::Full);
    drawing.text(743.0, legend + 11.0, "start", "full");
    drawing.bar(800.0, legend, [12.0, 12.0], INK, Fill::Half);
    drawing.text(818.0, legend + 11.0, "start", "half full");
}

/// Time per cell against N, both on full stores.
fn growth(drawing: &mut Drawing, rows: &[Row]) {
    let full = |name| rows.iter().filter(move |row| row.name == name && row.fill == Some(Fill::Full));
    let shown = || LINES.into_iter().flat_map(|(name, _)| full(name));
    let highest = shown().map(|row| row.per_cell(row.proved.max(row.plain)));
    let step = step_for(highest.clone().fold(0.0, f64::max));
    let panel = Panel::new(480.0, 750.0, highest, step);
    drawing.frame(&panel, "Nanoseconds per cell, full stores", step);
    let x = |nodes: usize| LEFT + 60.0 + 340.0 * (nodes as f64 / 20.0).log10();
    for shape in shapes() {
        drawing.text(x(shape.nodes), panel.bottom + 20.0, "middle", &shape.nodes.to_string());
        drawing.line([x(shape.nodes), panel.bottom], [x(shape.nodes), panel.bottom + 5.0], &stroke(INK, "1"));
    }
    drawing.text((LEFT + RIGHT) / 2.0, panel.bottom + 42.0, "middle", "N, the number of node cells");
    for (i, (name, colour)) in LINES.into_iter().enumerate() {
        let solid = stroke(colour, "2.5");
        let dashed = stroke(colour, "1.5") + r#" stroke-dasharray="4 4""#;
        let points = full(name).map(|row| {
            let point = |time| [x(row.shape.nodes), panel.y(row.per_cell(time))];
            (point(row.proved), point(row.plain))
        });
        for ends in points.collect::<Vec<_>>().windows(2) {
            drawing.line(ends[0].0, ends[1].0, &solid);
            drawing.line(ends[0].1, ends[1].1, &dashed);
        }
        let at = [330.0 + 175.0 * (i % 2) as f64, panel.top - 40.0 + 18.0 * (i / 2) as f64];
        drawing.line(at, [at[0] + 20.0, at[1]], &solid);
        drawing.text(at[0] + 26.0, at[1] + 4.0, "start", name);
    }
    for (i, (name, style)) in [("proved", ""), ("plain", r#" stroke-dasharray="4 4""#)].into_iter().enumerate() {
        let y = panel.top - 40.0 + 18.0 * i as f64;
        drawing.line([770.0, y], [800.0, y], &(stroke(INK, "2") + style));
        drawing.text(806.0, y + 4.0, "start", name);
    }
}

pub fn plot(rows: &[Row]) -> String {
    let mut drawing = Drawing(format!(
        r#"<svg xmlns="http://www.w3.org/2000/svg" viewBox="0 0 {WIDTH} {HEIGHT}" font-family="sans-serif" font-size="12" fill="{INK}">
<rect width="{WIDTH}" height="{HEIGHT}" fill="white"/>
"#
    ));
    ratios(&mut drawing, rows);
    growth(&mut drawing, rows);
    drawing.0 + "</svg>\n"
}
