//! The sheet itself: dome, grid, paths, marks and words.

use super::dome::{self, meridian, spot, Dot, HORIZON, LOWEST, ZENITH};
use super::labels::{Frame, Labels};
use super::story::{class_of, Story};
use super::style;
use super::track::Track;
use crate::format::body_name;
use crate::sky::Body;
use crate::svg::{self, stroke, text, thinned, Spot, FIRST_LINE, INDENT, LINE, MARGIN, TO_FOOT, WIDTH};
use std::fmt::Write;

const COMPASS: [&str; 8] = ["N", "NE", "E", "SE", "S", "SW", "W", "NW"];
const ELEVATIONS: [f64; 3] = [0.0, 30.0, 60.0];

pub fn drawn(story: &Story, centre: f64, tracks: &[Track; 2]) -> String {
    let paths: String = tracks.iter().map(path).collect();
    let picture = grid(centre) + &paths + &names(tracks) + &legend(story, tracks);
    let lines = story.bodies.as_flattened().len() + story.notes.len();
    svg::page(&story.heading, svg::foot(lines - 1), &style::of_dome(), &picture)
}

// ---- the dome

fn grid(centre: f64) -> String {
    let outline = |highest| meridian(-180.0, highest).into_iter().chain(meridian(180.0, highest).into_iter().rev());
    let (sky, ground) = (stroke(outline(90.0)), stroke(outline(0.0)));
    let mut svg = format!("<path class=\"sky\" d=\"{sky}Z\"/>\n<path class=\"ground\" d=\"{ground}Z\"/>\n");
    let below = spot(Dot { right: 0.0, up: LOWEST }).1;
    for step in 0..=8 {
        let right = -180.0 + 45.0 * step as f64;
        let azimuth = (45 * step + centre as usize + 180) % 360;
        let (x, _) = spot(Dot { right, up: LOWEST });
        let _ = writeln!(svg, "<path class=\"grid\" d=\"{}\"/>", stroke(meridian(right, 90.0)));
        svg += &text("middle", (x, below + 32.0), COMPASS[azimuth / 45]);
        if step % 2 == 0 {
            svg += &text("middle", (x, below + 78.0), &format!("{azimuth}°"));
        }
    }
    for up in ELEVATIONS {
        let ((left, y), (right, _)) = (spot(Dot { right: -180.0, up }), spot(Dot { right: 180.0, up }));
        let class = if up == 0.0 { "horizon" } else { "grid" };
        let _ = writeln!(svg, "<path class=\"{class}\" d=\"M{left:.1} {y:.1}H{right:.1}\"/>");
    }
    for (middle, words) in elevation_labels() {
        svg += &text("middle", middle, &words);
    }
    svg
}

// At the dome's left edge, and above its upper end.
fn elevation_labels() -> Vec<(Spot, String)> {
    let at_edge = ELEVATIONS.map(|up| {
        let (x, y) = spot(Dot { right: -180.0, up });
        ((x - 42.0, y), format!("{up}°"))
    });
    let zenith = ((dome::MIDDLE, ZENITH - 30.0), "90°".to_string());
    at_edge.into_iter().chain([zenith]).collect()
}

// ---- the paths

fn path(track: &Track) -> String {
    let lines: String = track.lines.iter().map(|line| stroke(thinned(line.iter().map(|&dot| spot(dot))))).collect();
    let mut svg = String::new();
    if !lines.is_empty() {
        let _ = writeln!(svg, "<path class=\"{} path\" d=\"{lines}\"/>", class_of(track.body));
    }
    for (_, dot) in marked(track) {
        svg += &mark(track.body, spot(dot));
    }
    svg
}

// The hours of the day on the sheet, but for the second midnight.
fn marked(track: &Track) -> impl Iterator<Item = (usize, Dot)> + '_ {
    track.hours.iter().copied().enumerate().take(24).filter(|(_, dot)| dot.up >= LOWEST)
}

fn mark(body: Body, (x, y): Spot) -> String {
    match body {
        Body::Sun => format!("<circle class=\"sun-mark\" cx=\"{x:.1}\" cy=\"{y:.1}\" r=\"10\"/>\n"),
        Body::Moon => format!("<path class=\"moon-mark\" d=\"M{x:.1} {:.1}l12 12l-12 12l-12 -12z\"/>\n", y - 12.0),
    }
}

// ---- words in the dome

// Names first, since they cannot be spared; then each third hour above the horizon.
fn names(tracks: &[Track; 2]) -> String {
    let spots = |track: &Track| track.lines.iter().flatten().map(|&dot| spot(dot)).collect();
    let frame = Frame { left: 0.0, right: WIDTH, top: ZENITH - 50.0, bottom: HORIZON };
    let mut labels = Labels::new(frame, [spots(&tracks[0]), spots(&tracks[1])]);
    elevation_labels().iter().for_each(|(middle, words)| labels.reserve(*middle, words));
    let mut svg = String::new();
    for (path, track, top) in highest_first(tracks) {
        let (name, class) = (body_name(track.body), class_of(track.body));
        svg += &text(&format!("middle on-sky name {class}-name"), labels.place(path, spot(top), name), name);
    }
    for (path, track) in tracks.iter().enumerate() {
        let class = format!("middle on-sky {}-name", class_of(track.body));
        for (hour, dot) in marked(track).filter(|(hour, dot)| hour % 3 == 0 && dot.up >= 0.0) {
            let words = format!("{hour:02}");
            svg += &labels.place_if_clear(path, spot(dot), &words).map_or(String::new(), |middle| text(&class, middle, &words));
        }
    }
    svg
}

// So that of two paths that lie together the upper one has its name above.
fn highest_first(tracks: &[Track; 2]) -> Vec<(usize, &Track, Dot)> {
    let top = |track: &Track| {
        let seen = track.lines.iter().flatten().filter(|dot| dot.up >= 0.0);
        seen.copied().max_by(|a, b| a.up.total_cmp(&b.up))
    };
    let mut tops: Vec<_> = tracks.iter().enumerate().filter_map(|(path, track)| Some((path, track, top(track)?))).collect();
    tops.sort_by(|(.., a), (.., b)| b.up.total_cmp(&a.up));
    tops
}

// ---- words under the dome

fn legend(story: &Story, tracks: &[Track; 2]) -> String {
    let mut legend = String::new();
    let mut foot = FIRST_LINE;
    for (track, lines) in tracks.iter().zip(&story.bodies) {
        let y = foot - TO_FOOT;
        let _ = writeln!(legend, "<path class=\"{} path\" d=\"M{MARGIN} {y}h90\"/>", class_of(track.body));
        legend += &mark(track.body, (MARGIN + 45.0, y));
        for line in lines {
            legend += &svg::line(INDENT, foot, line);
            foot += LINE;
        }
    }
    for note in &story.notes {
        legend += &svg::line(MARGIN, foot, note);
        foot += LINE;
    }
    legend
}
