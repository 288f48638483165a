//! The plan's sheet: the body's azimuth through the day, the tolerance about it, and the turning points with what lies between them.

use super::round::{turns, unrolled, HALF_TURN_E8};
use super::story::Story;
use super::Plan;
use crate::format::body_key;
use crate::sky::{TurningPoint, DAY_MINUTES};
use crate::svg::style::Palette;
use crate::svg::{self, chart, degrees, stroke, text, thinned, Spot, FIRST_LINE, INDENT, LINE, MARGIN, TO_FOOT};
use std::fmt::Write;

const LEFT: f64 = 120.0;
const RIGHT: f64 = 936.0;
const TOP: f64 = 160.0;
/// From north at the foot to north at the top.
const HEIGHT: i64 = 720;
const BOTTOM: f64 = TOP + HEIGHT as f64;

const COMPASS: [&str; 5] = ["N", "E", "S", "W", "N"];

/// A mark is as large as its neighbours leave it room, within these; one that is too small for a ring is a dot.
const LARGEST_MARK: f64 = 9.0;
const SMALLEST_RING: f64 = 4.0;
const SMALLEST_MARK: f64 = 1.5;

/// From this height on the half of the band shows beside the line that lies on it.
const SEEN: f64 = 5.0;

/// Told apart without colour too: what lies between the points is dashed, the band has an edge, and the points are rings or dots.
const SHAPES: &str = "\
.band { stroke-width: 2px; stroke-linejoin: round }
.azimuth { fill: none; stroke-width: 5px; stroke-linejoin: round; stroke-linecap: round }
.legs { fill: none; stroke-width: 3px; stroke-dasharray: 14 8 } .point { stroke-width: 3px }
";

fn colours(palette: &Palette) -> String {
    let Palette { page, text, horizon, sun, moon, sky, light, .. } = palette;
    format!(
        "{}.ground {{ fill: {sky} }} .band {{ fill: {light}; stroke: {horizon} }}\n\
         .sun {{ stroke: {sun} }} .moon {{ stroke: {moon} }} .legs {{ stroke: {text} }}\n\
         .point {{ fill: {page}; stroke: {text} }} .dot {{ fill: {text} }}\n",
        chart::colours(palette)
    )
}

/// With the body's azimuths, minute by minute.
pub fn drawn(plan: &Plan, azimuths_e8: &[i64]) -> String {
    let story = Story::of(plan, tolerance_height(plan) >= SEEN);
    let curve_e8 = unrolled(azimuths_e8.iter().copied());
    let chart = [ground(), grid(), lines(plan, &curve_e8), frame("frame"), marks(&plan.points)].concat();
    let lines = 3 + story.notes.len();
    svg::page(&story.heading, svg::foot(lines - 1), &chart::sheet(SHAPES, colours), &(chart + &legend(plan, &story)))
}

fn across(minute: usize) -> f64 {
    LEFT + (RIGHT - LEFT) * minute as f64 / DAY_MINUTES as f64
}

fn up(azimuth_e8: i64) -> f64 {
    BOTTOM - high(azimuth_e8)
}

fn high(units_e8: i64) -> f64 {
    HEIGHT as f64 * degrees(units_e8) / 360.0
}

// Half a turn either way is all round, and no tolerance is more.
fn tolerance_e8(plan: &Plan) -> i64 {
    plan.question.tolerance_e8.min(HALF_TURN_E8)
}

fn tolerance_height(plan: &Plan) -> f64 {
    high(tolerance_e8(plan))
}

// ---- the lines

fn frame(class: &str) -> String {
    format!("<rect class=\"{class}\" x=\"{LEFT}\" y=\"{TOP}\" width=\"{}\" height=\"{HEIGHT}\"/>\n", RIGHT - LEFT)
}

fn ground() -> String {
    let frame = frame("ground");
    format!("<clipPath id=\"raddlehue-frame\">{}</clipPath>\n{frame}", frame.trim_end())
}

// Each line is drawn unrolled, and again a whole turn higher or lower where it leaves the frame over the north: the frame cuts off the rest.
fn lines(plan: &Plan, curve_e8: &[i64]) -> String {
    let (reach_e8, reach) = (tolerance_e8(plan), tolerance_height(plan));
    let curve = thinned(curve_e8.iter().enumerate().map(|(minute, &azimuth_e8)| (across(minute), up(azimuth_e8))));
    let higher = curve.iter().map(|(x, y)| (*x, y - reach));
    let lower = curve.iter().rev().map(|(x, y)| (*x, y + reach));
    let band = stroke(higher.chain(lower)) + "Z";
    let legs_e8 = unrolled(plan.points.iter().map(|point| point.azimuth_e8));
    let legs =
        stroke(plan.points.iter().zip(&legs_e8).map(|(point, &azimuth_e8)| (across(point.minute as usize), up(azimuth_e8))));
    let body = format!("{} azimuth", body_key(plan.question.body));
    let drawn = [
        turned("band", &band, turns(curve_e8, reach_e8)),
        turned(&body, &stroke(curve), turns(curve_e8, 0)),
        turned("legs", &legs, turns(&legs_e8, 0)),
    ];
    format!("<g clip-path=\"url(#raddlehue-frame)\">\n{}</g>\n", drawn.concat())
}

fn turned(class: &str, path: &str, turns: impl Iterator<Item = i64>) -> String {
    let moved = |turn: i64| format!("<path class=\"{class}\" transform=\"translate(0 {})\" d=\"{path}\"/>\n", -HEIGHT * turn);
    turns.map(moved).collect()
}

// Smaller where the next one is near, so that the line under them is seen.
fn marks(points: &[TurningPoint]) -> String {
    let spots: Vec<Spot> = points.iter().map(|point| (across(point.minute as usize), up(point.azimuth_e8))).collect();
    let apart = |a: &Spot, b: &Spot| (a.0 - b.0).hypot(a.1 - b.1);
    let mut marks = String::new();
    for (index, spot) in spots.iter().enumerate() {
        let before = index.checked_sub(1).and_then(|index| spots.get(index));
        let nearest =
            before.into_iter().chain(spots.get(index + 1)).map(|other| apart(spot, other)).fold(f64::INFINITY, f64::min);
        marks += &mark(*spot, (nearest / 2.0).clamp(SMALLEST_MARK, LARGEST_MARK));
    }
    marks
}

fn mark((x, y): Spot, radius: f64) -> String {
    let class = if radius < SMALLEST_RING { "dot" } else { "point" };
    format!("<circle class=\"{class}\" cx=\"{x:.1}\" cy=\"{y:.1}\" r=\"{radius:.1}\"/>\n")
}

// ---- hours and directions

// A line each third hour and each eighth of a turn; every other of these has its degrees at the left and its letter at the right.
fn grid() -> String {
    let (mut path, mut words) = (String::new(), String::new());
    for hour in (0..=24).step_by(3) {
        let x = across(60 * hour);
        let _ = write!(path, "M{x:.1} {TOP}V{BOTTOM}");
        words += &text("middle", (x, BOTTOM + 34.0), &format!("{hour:02}"));
    }
    for eighth in 0..=8 {
        let y = up(HALF_TURN_E8 / 4 * eighth);
        let _ = write!(path, "M{LEFT} {y:.1}H{RIGHT}");
        if let Some(letter) = COMPASS.get(eighth as usize / 2).filter(|_| eighth % 2 == 0) {
            words += &text("end", (LEFT - 14.0, y), &format!("{}°", 45 * eighth));
            words += &text("start", (RIGHT + 18.0, y), letter);
        }
    }
    format!("<path class=\"grid\" d=\"{path}\"/>\n{words}")
}

// ---- words under the picture

fn legend(plan: &Plan, story: &Story) -> String {
    let middle = |line: usize| svg::foot(line) - TO_FOOT;
    let samples = [
        format!("<path class=\"{} azimuth\" d=\"M{MARGIN} {}h90\"/>\n", body_key(plan.question.body), middle(0)),
        format!("<rect class=\"band\" x=\"{MARGIN}\" y=\"{}\" width=\"90\" height=\"34\"/>\n", middle(1) - 17.0),
        format!("<path class=\"legs\" d=\"M{MARGIN} {}h90\"/>\n{}", middle(2), mark((MARGIN + 45.0, middle(2)), LARGEST_MARK)),
    ];
    let mut legend = String::new();
    for (line, (sample, words)) in samples.iter().zip([&story.azimuth, &story.tolerance, &story.points]).enumerate() {
        legend += &(sample.clone() + &svg::line(INDENT, svg::foot(line), words));
    }
    let mut foot = FIRST_LINE + 3.0 * LINE;
    for note in &story.notes {
        legend += &svg::line(MARGIN, foot, note);
        foot += LINE;
    }
    legend
}
