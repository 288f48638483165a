//! The two disks at the phases of an eclipse, each in a window with the Sun in its middle, as one faces the Sun with the zenith up.

use super::report::{Row, Sight};
use crate::format::short_percent;
use crate::sky::{Eclipse, Place, DEGREE_E8};
use crate::svg::{degrees, one_decimal, text, Spot, MARGIN, WIDTH};

/// The windows' upper edge, the width of each, and how much of the sheet a degree of sky takes there.
pub const TOP: f64 = 545.0;
const WINDOW: f64 = 172.0;
const DEGREE: f64 = 190.0;

/// So many windows stand side by side; sunrise and sunset give way.
const MOST: usize = 5;

/// From the window's lower edge to the middle of the first line under it, and from line to line.
const TO_LINE: f64 = 27.0;
const LINE: f64 = 42.0;

/// The phases that have a window.
pub fn shown(rows: &[Row]) -> Vec<(&Row, Sight)> {
    let all = || rows.iter().filter_map(|row| Some((row, row.sight?)));
    match all().count() > MOST {
        true => all().filter(|(row, _)| row.phase.verb().is_none()).collect(),
        false => all().collect(),
    }
}

/// The middle of one of so many windows, from the left.
pub fn middle(index: usize, count: usize) -> f64 {
    MARGIN + (WIDTH - 2.0 * MARGIN) * (index as f64 + 0.5) / count as f64
}

pub fn drawn(shown: &[(&Row, Sight)]) -> String {
    let mut svg = String::new();
    for (index, (row, sight)) in shown.iter().enumerate() {
        let x = middle(index, shown.len());
        svg += &window(sight, (x - WINDOW / 2.0, TOP));
        let mut lines: Vec<String> = row.phase.name().split(' ').map(str::to_string).collect();
        lines.resize(2, String::new());
        lines.push(sight.moment.hour_minute_and_second());
        lines.push(format!("{} %", short_percent(sight.disks.share_millionths)));
        lines.push(format!("{}°", one_decimal(sight.sun.elevation_e8)));
        for (line, words) in lines.iter().enumerate().filter(|(_, words)| !words.is_empty()) {
            svg += &text("middle", (x, TOP + WINDOW + TO_LINE + LINE * line as f64), words);
        }
    }
    svg
}

fn window(sight: &Sight, (left, top): Spot) -> String {
    let half = WINDOW / 2.0;
    let square = |class: &str, (x, y): Spot| {
        format!("<rect class=\"{class}\" x=\"{x:.1}\" y=\"{y:.1}\" width=\"{WINDOW}\" height=\"{WINDOW}\"/>\n")
    };
    let ground = if sight.sun_is_up() { "light" } else { "dark" };
    let (right, up) = moon_from_sun(sight);
    let moon = (DEGREE * right, -DEGREE * up);
    let circle = |class: &str, (x, y): Spot, units_e8: i64| {
        format!("<circle class=\"{class}\" cx=\"{x:.1}\" cy=\"{y:.1}\" r=\"{:.1}\"/>\n", DEGREE * degrees(units_e8))
    };
    let Eclipse { sun_radius_e8, moon_radius_e8, .. } = sight.disks;
    // An inner sheet cuts off what of the Moon lies outside the window, and the rim lies under the Sun, so that it does not hide a ring.
    format!(
        "<svg x=\"{left:.1}\" y=\"{top:.1}\" width=\"{WINDOW}\" height=\"{WINDOW}\" viewBox=\"-{half} -{half} {WINDOW} {WINDOW}\">\n{}{}{}{}</svg>\n{}",
        square(ground, (-half, -half)),
        circle("rim", moon, moon_radius_e8),
        circle("sun", (0.0, 0.0), sun_radius_e8),
        circle("moon", moon, moon_radius_e8),
        square("frame", (left, top))
    )
}

/// A Sun without an azimuth has no side on which the zenith lies, so that north is up instead.
pub fn turned(sun: Place) -> Option<&'static str> {
    let words = match sun.elevation_e8 < 0 {
        false => "Sun straight overhead: north up, east left",
        true => "Sun straight underfoot: north up, east right",
    };
    sun.azimuth_e8.is_none().then_some(words)
}

/// Where one faces the Sun.
fn facing_e8(sun: Place) -> i64 {
    let with_north_up = if sun.elevation_e8 < 0 { 0 } else { 180 * DEGREE_E8 };
    sun.azimuth_e8.unwrap_or(with_north_up)
}

/// In degrees to the right and upward: as far as the separation, in the direction that the two places have. A Moon without an azimuth is right above the Sun or right below it.
fn moon_from_sun(sight: &Sight) -> (f64, f64) {
    let radians = |units_e8| degrees(units_e8).to_radians();
    let (sun_sine, sun_cosine) = radians(sight.sun.elevation_e8).sin_cos();
    let (moon_sine, moon_cosine) = radians(sight.moon.elevation_e8).sin_cos();
    let across_e8 = sight.moon.azimuth_e8.map_or(0, |azimuth_e8| azimuth_e8 - facing_e8(sight.sun));
    let (across_sine, across_cosine) = radians(across_e8).sin_cos();
    let (right, up) = (moon_cosine * across_sine, moon_sine * sun_cosine - moon_cosine * sun_sine * across_cosine);
    let length = right.hypot(up);
    let separation = degrees(sight.disks.separation_e8);
    if length > 0.0 {
        (right / length * separation, up / length * separation)
    } else {
        (0.0, 0.0)
    }
}

#[cfg(test)]
mod tests {
    use super::*;
    use crate::time::Moment;

    fn place((azimuth_e8, elevation_e8): (i64, i64)) -> Place {
        Place { azimuth_e8: Some(azimuth_e8), elevation_e8 }
    }

    fn sight(sun: (i64, i64), moon: (i64, i64), separation_e8: i64) -> Sight {
        let disks = Eclipse { separation_e8, ..Eclipse::default() };
        let moment = Moment::read("2026-08-12T20:29:09+02:00").unwrap();
        Sight { second: 0, moment, disks, sun: place(sun), moon: place(moon) }
    }

    fn is_near(found: (f64, f64), wanted: (f64, f64)) -> bool {
        (found.0 - wanted.0).hypot(found.1 - wanted.1) < 1e-4
    }

    #[test]
    fn the_moon_from_the_sun() {
        let above = sight((9_000_000_000, 1_000_000_000), (9_000_000_000, 1_050_000_000), 50_000_000);
        assert!(is_near(moon_from_sun(&above), (0.0, 0.5)));
        let over_north = sight((35_990_000_000, 0), (20_000_000, 0), 30_000_000);
        assert!(is_near(moon_from_sun(&over_north), (0.3, 0.0)));
        // Half a turn of azimuth at the zenith is over it, and not to the side.
        let over_zenith = sight((0, 8_980_000_000), (18_000_000_000, 8_970_000_000), 50_000_000);
        assert!(is_near(moon_from_sun(&over_zenith), (0.0, 0.5)));
        assert_eq!(moon_from_sun(&sight((0, 0), (0, 0), 0)), (0.0, 0.0));
    }

    // The Moon is in the north-west, or right above and right below.
    #[test]
    fn one_without_an_azimuth() {
        let none = |elevation_e8| Place { azimuth_e8: None, elevation_e8 };
        let half = 0.5 * 0.5f64.sqrt();
        for (overhead, sideways) in [(1, half), (-1, -half)] {
            let seen = sight((0, 0), (31_500_000_000, overhead * 8_950_000_000), 50_000_000);
            let seen = Sight { sun: none(overhead * 8_999_999_993), ..seen };
            assert!(is_near(moon_from_sun(&seen), (sideways, half)), "{overhead}");
            assert!(turned(seen.sun).is_some_and(|words| words.contains("north up")) && turned(seen.moon).is_none());
            let seen = sight((31_500_000_000, overhead * 8_950_000_000), (0, 0), 50_000_000);
            let seen = Sight { moon: none(overhead * 8_999_999_993), ..seen };
            assert!(is_near(moon_from_sun(&seen), (0.0, 0.5 * overhead as f64)), "{overhead}");
            let both = Sight { sun: seen.moon, disks: Eclipse::default(), ..seen };
            assert_eq!(moon_from_sun(&both), (0.0, 0.0));
        }
    }

    #[test]
    fn sunrise_and_sunset_give_way() {
        use crate::eclipse::phase::{Kind, Phase};
        let rows = |phases: &[Phase]| -> Vec<Row> {
            phases.iter().map(|&phase| Row { phase, sight: Some(sight((0, 0), (0, 0), 0)) }).collect()
        };
        let partial = [Phase::FirstContact, Phase::Sunset, Phase::Maximum, Phase::Sunrise, Phase::LastContact];
        assert_eq!(shown(&rows(&partial)).len(), 5);
        let inner = [Phase::InnerBegins(Kind::Total), Phase::InnerEnds(Kind::Total)];
        assert_eq!(shown(&rows(&[&partial[..], &inner].concat())).len(), 5);
        let unanswered = Row { phase: Phase::FirstContact, sight: None };
        assert!(shown(&[unanswered]).is_empty());
    }
}
