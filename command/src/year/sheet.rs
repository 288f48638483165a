//! The year's sheet: a column for each day, light where the Sun is up, and a line each for sunrise and sunset.

use super::story::Story;
use super::YearDay;
use crate::sky::DAY_MINUTES;
use crate::svg::style::Palette;
use crate::svg::{self, chart, stroke, text, Spot, FIRST_LINE, INDENT, LINE, MARGIN, TO_FOOT};
use crate::time::Moment;
use std::fmt::Write;

const LEFT: f64 = 104.0;
const TOP: f64 = 160.0;
const BOTTOM: f64 = 880.0;
const COLUMN: f64 = 2.4;
const MINUTE: f64 = (BOTTOM - TOP) / DAY_MINUTES as f64;

const MONTHS: [&str; 12] = ["Jan", "Feb", "Mar", "Apr", "May", "Jun", "Jul", "Aug", "Sep", "Oct", "Nov", "Dec"];

/// Told apart without colour too: the line of sunset is dashed.
const SHAPES: &str = "\
.rise, .set { fill: none; stroke-width: 6px; stroke-linejoin: round; stroke-linecap: round }
.set { stroke-dasharray: 18 12; stroke-linecap: butt }
";

fn colours(palette: &Palette) -> String {
    let Palette { sun, moon, .. } = palette;
    format!(
        "{}.rise {{ stroke: {sun} }} .set {{ stroke: {moon} }}\n.rise-mark {{ fill: {sun} }} .set-mark {{ fill: {moon} }}\n",
        chart::colours(palette)
    )
}

pub fn drawn(story: &Story, days: &[YearDay]) -> String {
    let width = COLUMN * days.len() as f64;
    let frame = |class: &str| {
        format!("<rect class=\"{class}\" x=\"{LEFT}\" y=\"{TOP}\" width=\"{width:.1}\" height=\"{}\"/>\n", BOTTOM - TOP)
    };
    let mut picture =
        frame("dark") + &format!("<path class=\"light\" d=\"{}\"/>\n", light(days)) + &grid(days, width) + &frame("frame");
    picture += &crossings("rise", lines(days.iter().map(|day| day.sun.rise)));
    picture += &crossings("set", lines(days.iter().map(|day| day.sun.set)));
    let lines = 3 + story.notes.len();
    svg::page(&story.heading, svg::foot(lines - 1), &chart::sheet(SHAPES, colours), &(picture + &legend(story)))
}

fn across(day: usize) -> f64 {
    LEFT + COLUMN * day as f64
}

fn up(minute: usize) -> f64 {
    BOTTOM - MINUTE * minute as f64
}

// ---- day and night

/// From the first minute that the Sun is up to the first that it is not, and again.
fn spans(is_up: impl Fn(usize) -> bool) -> Vec<(usize, usize)> {
    let begins = (0..DAY_MINUTES).filter(|&minute| is_up(minute) && (minute == 0 || !is_up(minute - 1)));
    let ends = (1..=DAY_MINUTES).filter(|&minute| is_up(minute - 1) && (minute == DAY_MINUTES || !is_up(minute)));
    begins.zip(ends).collect()
}

// Days that are the same share a column as wide as all of them.
fn light(days: &[YearDay]) -> String {
    let spans: Vec<Vec<(usize, usize)>> = days.iter().map(|day| spans(|minute| day.sun.is_up(minute))).collect();
    let (mut path, mut day) = (String::new(), 0);
    for same in spans.chunk_by(|a, b| a == b) {
        let (x, width) = (across(day), COLUMN * same.len() as f64);
        for (from, to) in same.iter().take(1).flatten() {
            let _ = write!(path, "M{x:.1} {:.1}h{width:.1}V{:.1}h-{width:.1}z", up(*from), up(*to));
        }
        day += same.len();
    }
    path
}

// ---- the lines

// A line of one point would not be seen, so that it is a mark.
fn crossings(class: &str, lines: Vec<Vec<Spot>>) -> String {
    let (lines, alone): (Vec<_>, Vec<_>) = lines.into_iter().partition(|line| line.len() > 1);
    let path: String = lines.into_iter().map(stroke).collect();
    let mut drawn = format!("<path class=\"{class}\" d=\"{path}\"/>\n");
    for (x, y) in alone.into_iter().flatten() {
        let _ = writeln!(drawn, "<circle class=\"{class}-mark\" cx=\"{x:.1}\" cy=\"{y:.1}\" r=\"8\"/>");
    }
    drawn
}

/// Lines through each day's moment; one ends where a day has none, and where the next is half a day off, which is over midnight.
fn lines(moments: impl Iterator<Item = Option<Moment>>) -> Vec<Vec<Spot>> {
    let mut lines: Vec<Vec<Spot>> = Vec::new();
    let mut before = None;
    for (index, moment) in moments.enumerate() {
        let minute = moment.map(Moment::minute_of_day);
        if let Some(minute) = minute {
            let spot = (across(index) + COLUMN / 2.0, up(minute));
            match (before, lines.last_mut()) {
                (Some(before), Some(line)) if minute.abs_diff(before) < DAY_MINUTES / 2 => line.push(spot),
                _ => lines.push(vec![spot]),
            }
        }
        before = minute;
    }
    lines
}

// ---- hours and months

// A line each third hour and each month; every other month has its name, so that they do not touch.
fn grid(days: &[YearDay], width: f64) -> String {
    let (mut path, mut words) = (String::new(), String::new());
    for hour in (0..=24).step_by(3) {
        let y = up(60 * hour);
        let _ = write!(path, "M{LEFT} {y:.1}h{width:.1}");
        words += &text("end", (LEFT - 14.0, y), &format!("{hour:02}"));
    }
    let months = days.iter().enumerate().filter(|(_, day)| day.midnight.clock().date.day == 1);
    for ((index, _), (month, name)) in months.zip(MONTHS.into_iter().enumerate()) {
        let _ = write!(path, "M{:.1} {TOP}V{BOTTOM}", across(index));
        if month % 2 == 0 {
            words += &text("middle", (across(index + 15), BOTTOM + 34.0), name);
        }
    }
    format!("<path class=\"grid\" d=\"{path}\"/>\n{words}")
}

// ---- words under the picture

fn legend(story: &Story) -> String {
    let mut legend = String::new();
    let mut foot = FIRST_LINE;
    for (class, words) in [("rise", &story.sunrise), ("set", &story.sunset)] {
        let _ = writeln!(legend, "<path class=\"{class}\" d=\"M{MARGIN} {}h90\"/>", foot - TO_FOOT);
        legend += &svg::line(INDENT, foot, words);
        foot += LINE;
    }
    legend += &chart::samples(foot);
    for note in &story.notes {
        foot += LINE;
        legend += &svg::line(MARGIN, foot, note);
    }
    legend
}

#[cfg(test)]
mod tests {
    use super::*;

    #[test]
    fn when_the_sun_is_up() {
        assert_eq!(spans(|_| true), [(0, DAY_MINUTES)]);
        assert_eq!(spans(|_| false), []);
        assert_eq!(spans(|minute| (360..1080).contains(&minute)), [(360, 1080)]);
        assert_eq!(spans(|minute| !(360..1439).contains(&minute)), [(0, 360), (1439, DAY_MINUTES)]);
    }

    #[test]
    fn a_line_ends_at_midnight_and_at_a_day_without() {
        let midnight = Moment::read("2026-03-01T00:00+01:00").unwrap();
        let minutes = [Some(10), Some(4), Some(1438), Some(1430), None, Some(1425), None];
        let found = lines(minutes.into_iter().map(|minute| minute.map(|minute| midnight.minutes_later(minute))));
        assert_eq!(found.iter().map(Vec::len).collect::<Vec<usize>>(), [2, 2, 1]);
        assert_eq!((found[0][0], found[2][0]), ((LEFT + 1.2, BOTTOM - 5.0), (across(5) + 1.2, up(1425))));
        let drawn = crossings("set", found);
        assert_eq!((drawn.matches('M').count(), drawn.matches("<circle class=\"set-mark\"").count()), (2, 1));
    }
}
