//! What the charts over time share: a ground that is light where the Sun is up and dark where it is down.

use super::style::{self, Palette};
use super::{line, INDENT, MARGIN, TO_FOOT};
use std::fmt::Write;

/// The second sample of the line under the chart.
const SECOND: f64 = 480.0;

const SHAPES: &str = ".grid { fill: none; stroke-width: 1px } .frame { fill: none; stroke-width: 3px }\n";

/// A style sheet with a chart's own shapes and colours.
pub fn sheet(shapes: &str, colours: fn(&Palette) -> String) -> String {
    style::sheet(&format!("{SHAPES}{shapes}"), colours)
}

/// The colours of the grounds and of the frame.
pub fn colours(palette: &Palette) -> String {
    let Palette { page, text, horizon, light, dark, .. } = palette;
    format!(
        ".page {{ fill: {page} }} text {{ fill: {text} }} .light {{ fill: {light} }} .dark {{ fill: {dark} }}\n\
         .grid, .frame {{ stroke: {horizon} }} "
    )
}

/// A line under the chart that says what its grounds mean.
pub fn samples(foot: f64) -> String {
    let mut svg = String::new();
    for (class, x, words) in [("light", MARGIN, "the Sun is up"), ("dark", SECOND, "the Sun is down")] {
        let y = foot - TO_FOOT - 17.0;
        let _ = writeln!(svg, "<rect class=\"{class}\" x=\"{x}\" y=\"{y}\" width=\"90\" height=\"34\"/>");
        let _ = writeln!(svg, "<rect class=\"grid\" x=\"{x}\" y=\"{y}\" width=\"90\" height=\"34\"/>");
        svg += &line(x + INDENT - MARGIN, foot, words);
    }
    svg
}
