//! A day's eclipse as text, as JSON and as CSV.

use super::report::{Report, Row, Sight};
use crate::format::{self, angle, json_member, no_azimuth_words, percent, shown_place};
use crate::observer::scales_words;
use crate::rise_set::{passed_degrees, Stays};
use crate::sky::Body;

// ---- text

pub fn text(report: &Report) -> String {
    let (observer, midnight) = (report.watch.observer, report.watch.midnight);
    let mut text = format!(
        "Eclipse of the Sun on {}, times in {}\n{}\n{}{}\n",
        midnight.clock().date.written(),
        midnight.zone().words(),
        observer.words(),
        scales_words(observer.scales(midnight)),
        report.sentences().join("\n")
    );
    if report.passage.is_some() {
        text += &format!(
            "covered in per cent of the Sun's disk; azimuth in degrees from north over east\n\
             {}elevation in degrees above the horizon, without refraction; the Sun is up from {} degrees\n\
             to the second: what begins has its first second here, what ends its last\n\n{}",
            no_azimuth_words(report.sights().map(|sight| (Body::Sun, sight.sun))),
            passed_degrees(),
            table(report)
        );
    }
    text
}

fn table(report: &Report) -> String {
    let time = |row: &Row| row.sight.map_or(String::new(), |sight| report.time(sight.moment));
    let width = report.rows.iter().map(|row| time(row).len()).max().unwrap_or(0);
    let mut table =
        format!("{:15}  {:width$}  {:>8}  {:>11}  {:>13}  Sun is\n", "phase", "time", "covered", "Sun azimuth", "Sun elevation");
    for row in &report.rows {
        table += &match row.sight {
            Some(sight) => format!("{:15}  {:>width$}  {}\n", row.phase.name(), time(row), shown_figures(sight)),
            None => row.unanswered() + "\n",
        };
    }
    table
}

fn shown_figures(sight: Sight) -> String {
    let (azimuth, elevation) = shown_place(sight.sun);
    let side = if sight.sun_is_up() { Stays::Up } else { Stays::Down };
    format!("{:>8}  {azimuth:>11}  {elevation:>13}  {}", percent(sight.disks.share_millionths), side.key())
}

// ---- JSON and CSV

/// What a row has beside its phase and its time.
const FIGURES: [&str; 7] = [
    "covered_percent", "sun_azimuth_degrees", "sun_elevation_degrees", "sun_is_up", "separation_degrees", "sun_radius_degrees",
    "moon_radius_degrees",
];

// A phase that is not answered has none of them.
fn all_figures(sight: Option<Sight>) -> [Option<String>; 7] {
    let Some(sight) = sight else { return Default::default() };
    let Sight { disks, sun, .. } = sight;
    let [elevation, separation, sun_radius, moon_radius] =
        [sun.elevation_e8, disks.separation_e8, disks.sun_radius_e8, disks.moon_radius_e8].map(|units_e8| Some(angle(units_e8)));
    let [share, is_up] = [percent(disks.share_millionths), sight.sun_is_up().to_string()].map(Some);
    [share, format::azimuth(sun), elevation, is_up, separation, sun_radius, moon_radius]
}

/// What the day has as a whole: each name, what it is, and whether that is a word.
fn summary(report: &Report) -> [(&'static str, Option<String>, bool); 4] {
    let passage = report.passage.as_ref();
    let stays = passage.and_then(|passage| passage.stays()).map(|stays| stays.key().to_string());
    let maximum = passage.and_then(|passage| passage.maximum_up);
    [
        ("kind", Some(passage.map_or("none", |passage| passage.kind.name()).to_string()), true),
        ("sun_stays", stays, true),
        ("maximum_while_up_time", maximum.map(|sight| sight.moment.written()), true),
        ("maximum_while_up_covered_percent", maximum.map(|sight| percent(sight.disks.share_millionths)), false),
    ]
}

pub fn json(report: &Report) -> String {
    let (observer, midnight) = (report.watch.observer, report.watch.midnight);
    let rows: Vec<String> = report.rows.iter().map(json_row).collect();
    let summary = summary(report).map(|(name, value, is_word)| json_member(name, value, is_word));
    format::json_object(&[
        format!("\"date\": \"{}\", \"zone\": \"{}\"", midnight.clock().date.written(), midnight.zone().written()),
        format::json_spot(observer.spot),
        format::json_scales(observer.scales(midnight)),
        format::json_forecast(),
        format!("\"rise_set_elevation_degrees\": {}", passed_degrees()),
        "\"refraction_included\": false".to_string(),
        summary.join(", "),
        format!("\"phases\": {}", format::json_rows(&rows)),
    ])
}

fn json_row(row: &Row) -> String {
    let mut members = vec![
        json_member("phase", Some(row.phase.key()), true),
        json_member("time", row.sight.map(|sight| sight.moment.written()), true),
    ];
    members.extend(FIGURES.iter().zip(all_figures(row.sight)).map(|(name, figure)| json_member(name, figure, false)));
    format!("{{{}}}", members.join(", "))
}

// What is the same for the whole day stands on each line, so that each can be read alone.
pub fn csv(report: &Report) -> String {
    let (names, values): (Vec<&str>, Vec<String>) =
        summary(report).into_iter().map(|(name, value, _)| (name, value.unwrap_or_default())).unzip();
    let scales = format::csv_scales(report.watch.observer.scales(report.watch.midnight));
    let row = |row: &Row| {
        let time = row.sight.map_or(String::new(), |sight| sight.moment.written());
        let figures = all_figures(row.sight).map(Option::unwrap_or_default).join(",");
        format!("{},{time},{figures},{},{scales}", row.phase.key(), values.join(","))
    };
    let head = format!("phase,time,{},{},{}", FIGURES.join(","), names.join(","), format::CSV_SCALES);
    format::csv(&head, report.rows.iter().map(row))
}

#[cfg(test)]
mod tests {
    use super::*;
    use crate::eclipse::phase::Phase;

    #[test]
    fn a_phase_that_is_not_answered() {
        let row = Row { phase: Phase::FirstContact, sight: None };
        let json = json_row(&row);
        assert!(json.starts_with("{\"phase\": \"first_contact\", \"time\": null, \"covered_percent\": null, "), "{json}");
        assert_eq!(json.matches("null").count(), 1 + FIGURES.len());
        assert_eq!(row.unanswered(), "first contact outside the years 1900 to 2100");
    }
}
