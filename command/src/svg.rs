//! What the pictures share: a page in units of which the width has 1000, so that it can be read on a phone, its heading, and the lines of words under it.

pub mod chart;
pub mod style;

use crate::decimal;
use crate::sky::DEGREE_E8;
use std::fmt::Write;

pub const WIDTH: f64 = 1000.0;
pub const MARGIN: f64 = 40.0;

/// Lines of text under the picture: the first one's foot, from one to the next, from the last to the page's end, and where they begin beside a sample.
pub const FIRST_LINE: f64 = 985.0;
pub const LINE: f64 = 52.0;
const LAST_LINE: f64 = 33.0;
pub const INDENT: f64 = 150.0;

/// The foot of the heading's second line.
pub const PLACE: f64 = 112.0;

/// From the middle of a letter's height to the foot of the line.
pub const TO_FOOT: f64 = 13.0;

/// A point of the sheet: from its left and from its top.
pub type Spot = (f64, f64);

pub fn degrees(units_e8: i64) -> f64 {
    units_e8 as f64 / DEGREE_E8 as f64
}

/// Degrees with one decimal, as pictures say them.
pub fn one_decimal(units_e8: i64) -> String {
    decimal::written(decimal::rounded(units_e8, 7), 1)
}

/// What a picture says of itself: two lines above it, and a description for those who cannot see it.
pub struct Heading {
    pub title: String,
    pub place: String,
    pub description: String,
}

/// The foot of a line of text under the picture, counted from 0.
pub fn foot(line: usize) -> f64 {
    FIRST_LINE + LINE * line as f64
}

/// The whole page, down to the foot of its last line.
pub fn page(heading: &Heading, last_foot: f64, style: &str, picture: &str) -> String {
    let Heading { title, place, description } = heading;
    let height = last_foot + LAST_LINE;
    format!(
        "<svg xmlns=\"http://www.w3.org/2000/svg\" viewBox=\"0 0 {WIDTH} {height}\" lang=\"en\" role=\"img\" \
         aria-labelledby=\"raddlehue-title raddlehue-desc\">\n\
         <title id=\"raddlehue-title\">{title}, {place}</title>\n<desc id=\"raddlehue-desc\">{description}</desc>\n{style}\
         <rect class=\"page\" width=\"{WIDTH}\" height=\"{height}\"/>\n\
         <text class=\"title\" x=\"{MARGIN}\" y=\"60\">{title}</text>\n<text x=\"{MARGIN}\" y=\"{PLACE}\">{place}</text>\n\
         {picture}</svg>\n"
    )
}

/// Words whose middle is at that height.
pub fn text(class: &str, (x, y): Spot, words: &str) -> String {
    format!("<text class=\"{class}\" x=\"{x:.1}\" y=\"{:.1}\">{words}</text>\n", y + TO_FOOT)
}

/// A line of text under the picture, beginning at `x`.
pub fn line(x: f64, foot: f64, words: &str) -> String {
    format!("<text x=\"{x}\" y=\"{foot}\">{words}</text>\n")
}

/// Points of a line that lie nearer than this to the one before are left out.
const NEAR: f64 = 4.0;

/// Without the points that are too near to be seen apart, but with both ends.
pub fn thinned(line: impl ExactSizeIterator<Item = Spot>) -> Vec<Spot> {
    let (length, mut kept) = (line.len(), Vec::<Spot>::new());
    for (index, (x, y)) in line.enumerate() {
        let far = kept.last().is_none_or(|last| (x - last.0).hypot(y - last.1) >= NEAR);
        if far || index + 1 == length {
            kept.push((x, y));
        }
    }
    kept
}

/// A line through points, as a path has it.
pub fn stroke(spots: impl IntoIterator<Item = Spot>) -> String {
    let mut text = String::new();
    for (x, y) in spots {
        let _ = write!(text, "{}{x:.1} {y:.1}", if text.is_empty() { 'M' } else { 'L' });
    }
    text
}
