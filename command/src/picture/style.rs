//! How the dome and the paths look. The shapes are told apart without colour too: the Sun's line is whole and its marks are round, the Moon's is dashed and its marks are diamonds.

use crate::svg::style::{sheet, Palette};

const SHAPES: &str = "\
.on-sky { paint-order: stroke; stroke-width: 10px; stroke-linejoin: round } .name { font-weight: bold }
.grid { fill: none; stroke-width: 1.5px } .horizon { stroke-width: 4px }
.path { fill: none; stroke-width: 6px; stroke-linejoin: round; stroke-linecap: round }
.moon.path { stroke-dasharray: 18 12; stroke-linecap: butt } .moon-mark { stroke-width: 4px }
";

fn colours(palette: &Palette) -> String {
    let Palette { page, sky, ground, text, grid, horizon, sun, moon, .. } = palette;
    format!(
        ".page {{ fill: {page} }} .sky {{ fill: {sky} }} .ground {{ fill: {ground} }}\n\
         text {{ fill: {text} }} .on-sky {{ stroke: {sky} }}\n\
         .grid {{ stroke: {grid} }} .horizon {{ stroke: {horizon} }}\n\
         .sun {{ stroke: {sun} }} .moon {{ stroke: {moon} }}\n\
         .sun-mark {{ fill: {sun} }} .moon-mark {{ fill: {sky}; stroke: {moon} }}\n\
         text.sun-name {{ fill: {sun} }} text.moon-name {{ fill: {moon} }}\n"
    )
}

pub fn of_dome() -> String {
    sheet(SHAPES, colours)
}
