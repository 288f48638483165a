//! The eclipse's sheet: the covered share over time, and under it the disks at each phase.

use super::course::{Span, MINUTE};
use super::disks;
use super::report::{Passage, Report, Row, Sight};
use super::story::Story;
use crate::svg::style::Palette;
use crate::svg::{self, chart, stroke, text, LINE, MARGIN};
use std::fmt::Write;

const LEFT: f64 = 150.0;
const RIGHT: f64 = 940.0;
const TOP: f64 = 185.0;
const BOTTOM: f64 = 480.0;

/// Minutes from one label of the clock to the next: the fewest that leave each its room.
const STEPS: [i64; 7] = [1, 2, 5, 10, 15, 30, 60];
const ROOM: f64 = 130.0;

const SHAPES: &str = "\
.share { fill: none; stroke-width: 6px; stroke-linejoin: round; stroke-linecap: round }
.lead { fill: none; stroke-width: 3px; stroke-linejoin: round } .rim { fill: none; stroke-width: 4px }
";

fn colours(palette: &Palette) -> String {
    let Palette { sun, moon, dark, .. } = palette;
    format!(
        "{}.share {{ stroke: {sun} }} .lead {{ stroke: {moon} }}\n.sun {{ fill: {sun} }} .moon {{ fill: {dark} }} .rim {{ stroke: {moon} }}\n",
        chart::colours(palette)
    )
}

/// With the seconds and the shares of the report's curve.
pub fn drawn(report: &Report, curve: &[(i64, i64)]) -> String {
    let story = Story::of(report);
    let (picture, last_foot) = match &report.passage {
        Some(passage) => (plot(report, passage, curve) + &legend(&story), svg::foot(story.answer.len() + story.notes.len())),
        None => lines(&story),
    };
    svg::page(&story.heading, last_foot, &chart::sheet(SHAPES, colours), &picture)
}

// A day without an eclipse has nothing to draw.
fn lines(story: &Story) -> (String, f64) {
    let (mut svg, mut foot) = (String::new(), svg::PLACE + LINE / 2.0);
    for words in story.answer.iter().chain(&story.notes) {
        foot += LINE;
        svg += &svg::line(MARGIN, foot, words);
    }
    (svg, foot)
}

fn plot(report: &Report, passage: &Passage, curve: &[(i64, i64)]) -> String {
    let (axis, windows) = (Axis { contacts: passage.contacts }, disks::shown(&report.rows));
    axis.ground(&passage.up) + &axis.grid(report) + &axis.curve(curve) + &axis.phases(&windows) + &disks::drawn(&windows)
}

fn legend(story: &Story) -> String {
    let grounds = story.answer.len();
    let line = |(index, words): (usize, &String)| svg::line(MARGIN, svg::foot(index), words);
    let note = |(index, words): (usize, &String)| svg::line(MARGIN, svg::foot(grounds + 1 + index), words);
    let (answer, notes): (String, String) =
        (story.answer.iter().enumerate().map(line).collect(), story.notes.iter().enumerate().map(note).collect());
    answer + &chart::samples(svg::foot(grounds)) + &notes
}

// ---- the curve

fn up(share_millionths: i64) -> f64 {
    BOTTOM - (BOTTOM - TOP) * share_millionths as f64 / 1e6
}

/// From the first contact at the left to the last at the right.
struct Axis {
    contacts: Span,
}

impl Axis {
    fn length(&self) -> i64 {
        (self.contacts.last - self.contacts.first).max(1)
    }

    fn across(&self, second: i64) -> f64 {
        LEFT + (RIGHT - LEFT) * (second - self.contacts.first) as f64 / self.length() as f64
    }

    fn ground(&self, sun_up: &[Span]) -> String {
        let mut svg = rect("dark", LEFT, RIGHT);
        for span in sun_up {
            svg += &rect("light", self.across(span.first), self.across(span.last));
        }
        svg
    }

    // A line each quarter of the Sun's disk and at times of the clock, whose words stand above.
    fn grid(&self, report: &Report) -> String {
        let (mut path, mut words) = (String::new(), String::new());
        for percent in (0..=100).step_by(25) {
            let y = up(10_000 * percent);
            let _ = write!(path, "M{LEFT} {y:.1}H{RIGHT}");
            if percent % 50 == 0 {
                words += &text("end", (LEFT - 14.0, y), &format!("{percent} %"));
            }
        }
        let step = MINUTE * self.step();
        let Span { first, last } = self.contacts;
        let ticks = (first.div_euclid(step)..=last.div_euclid(step)).map(|tick| step * tick);
        for second in ticks.filter(|second| (first..=last).contains(second)) {
            let x = self.across(second);
            let _ = write!(path, "M{x:.1} {TOP}V{BOTTOM}");
            words += &text("middle", (x, TOP - 38.0), &report.watch.moment(second).hour_and_minute());
        }
        format!("<path class=\"grid\" d=\"{path}\"/>\n{}{words}", rect("frame", LEFT, RIGHT))
    }

    fn step(&self) -> i64 {
        let is_wide = |minutes: &i64| (RIGHT - LEFT) * (MINUTE * minutes) as f64 / self.length() as f64 >= ROOM;
        STEPS.into_iter().find(is_wide).unwrap_or(60)
    }

    fn curve(&self, curve: &[(i64, i64)]) -> String {
        let spots = curve.iter().map(|&(second, share)| (self.across(second), up(share)));
        format!("<path class=\"share\" d=\"{}\"/>\n", stroke(spots))
    }

    // From each mark on the curve a line leads down to the phase's window.
    fn phases(&self, windows: &[(&Row, Sight)]) -> String {
        let (mut path, mut marks) = (String::new(), String::new());
        for (index, (_, sight)) in windows.iter().enumerate() {
            let (x, y) = (self.across(sight.second), up(sight.disks.share_millionths));
            let _ = write!(path, "M{x:.1} {y:.1}V{BOTTOM}L{:.1} {}", disks::middle(index, windows.len()), disks::TOP);
            let _ = writeln!(marks, "<circle class=\"sun\" cx=\"{x:.1}\" cy=\"{y:.1}\" r=\"9\"/>");
        }
        format!("<path class=\"lead\" d=\"{path}\"/>\n{marks}")
    }
}

fn rect(class: &str, left: f64, right: f64) -> String {
    let (width, height) = (right - left, BOTTOM - TOP);
    format!("<rect class=\"{class}\" x=\"{left:.1}\" y=\"{TOP}\" width=\"{width:.1}\" height=\"{height}\"/>\n")
}

#[cfg(test)]
mod tests {
    use super::*;

    #[test]
    fn labels_of_the_clock_have_their_room() {
        for (seconds, step) in [(0, 1), (300, 1), (3_600, 10), (7_200, 30), (4 * 3_600, 60)] {
            let axis = Axis { contacts: Span { first: 1_000, last: 1_000 + seconds } };
            assert_eq!(axis.step(), step, "{seconds}");
            assert!(seconds == 0 || axis.across(1_000 + 60 * step) - axis.across(1_000) >= ROOM);
        }
    }

    #[test]
    fn a_graze_of_one_second_has_its_place() {
        let axis = Axis { contacts: Span { first: 7, last: 7 } };
        assert_eq!(axis.across(7), LEFT);
        assert!(!axis.curve(&[(7, 0)]).contains("NaN"));
    }
}
