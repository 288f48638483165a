//! `raddlehue day`: a table of the Sun and the Moon through a day.

use crate::delta_t::Scales;
use crate::failure::{quoted, Failure};
use crate::format::{self, format_help, no_azimuth_words, shown_place, Format};
use crate::observer::{self, observer_help, scales_words, zone_help, Observer};
use crate::rise_set::{passed_degrees, Day, Days};
use crate::sky::{self, Body, Place};
use crate::time::{Moment, MS_OF_MINUTE};
use crate::words::{Command, Words};

pub const COMMAND: Command = Command {
    name: "day",
    summary: "the Sun and the Moon through a day, rise and set",
    positional: &["DATE"],
    flags: &[observer::FLAGS, observer::ZONE, format::FLAGS, &[("--every", Some("whole minutes"))]],
    help: concat!(
        "raddlehue day DATE --lat DEG --lon DEG [flags]

A table of azimuth and elevation of the Sun and the Moon through a day, each
hour unless --every says otherwise, and above it when each first rises and sets
on that day, or that it does not: the centre passes -0.8333 degrees, as it does
at the usual sunrise. Elevations are without refraction. DATE is like
2026-11-15, a day of the zone. Delta-T is that of the day's beginning.

",
        observer_help!(),
        zone_help!(),
        "  --every MIN       whole minutes from line to line, 1 to 1440; 60 unless given
",
        format_help!(),
        "
  raddlehue day 2026-11-15 --lat 45.5S --lon 170.5E --zone +13:00
"
    ),
    run,
};

const MINUTES_OF_DAY: u32 = 24 * 60;

struct Row {
    moment: Moment,
    sun: Place,
    moon: Place,
}

/// All that is told of a day.
struct Table {
    observer: Observer,
    midnight: Moment,
    scales: Scales,
    /// The Sun's and the Moon's.
    days: [Day; 2],
    rows: Vec<Row>,
}

fn run(words: &Words) -> Result<String, Failure> {
    let format = Format::read(words)?;
    let observer = Observer::read(words)?;
    let zone = observer::zone(words)?;
    let every = words.value("--every").map_or(Ok(60), minutes)?;
    let midnight = Moment::midnight(words.positional(0), zone)?;
    let rows = rows(observer, midnight, every)?;
    let day = |body| Days::of(observer, body).day(midnight);
    let days = [day(Body::Sun)?, day(Body::Moon)?];
    let table = Table { observer, midnight, scales: observer.scales(midnight), days, rows };
    Ok(match format {
        Format::Text => text(&table),
        Format::Json => json(&table),
        Format::Csv => csv(&table),
    })
}

fn minutes(word: &str) -> Result<u32, Failure> {
    let minutes = observer::number(word, "step of --every", 0, "whole minutes like 10")?;
    match u32::try_from(minutes) {
        Ok(minutes @ 1..=MINUTES_OF_DAY) => Ok(minutes),
        _ => Err(Failure::Usage(format!("the step of --every {} is not 1 to {MINUTES_OF_DAY} minutes", quoted(word)))),
    }
}

fn rows(observer: Observer, midnight: Moment, every: u32) -> Result<Vec<Row>, Failure> {
    let offsets: Vec<u32> = (0..MINUTES_OF_DAY).step_by(every as usize).map(|minute| minute * MS_OF_MINUTE as u32).collect();
    let view = observer.view(midnight);
    let sun = sky::places(view, Body::Sun, &offsets)?;
    let moon = sky::places(view, Body::Moon, &offsets)?;
    let both = sun.into_iter().zip(moon).zip(&offsets);
    Ok(both.map(|((sun, moon), &offset)| Row { moment: midnight.later(offset), sun, moon }).collect())
}

// ---- the three forms

fn text(table: &Table) -> String {
    let mut text = format!(
        "Sun and Moon on {}, times in {}\n{}\n{}{}\n{}\n\
         rise and set when the centre passes {} degrees, without refraction, to the minute\n\
         azimuth in degrees from north over east\n{}elevation in degrees above the horizon, without refraction\n\n\
         time   Sun azimuth  Sun elevation  Moon azimuth  Moon elevation\n",
        table.midnight.clock().date.written(),
        table.midnight.zone().words(),
        table.observer.words(),
        scales_words(table.scales),
        table.days[0].sentence(),
        table.days[1].sentence(),
        passed_degrees(),
        no_azimuth_words(table.rows.iter().flat_map(|row| [(Body::Sun, row.sun), (Body::Moon, row.moon)]))
    );
    for Row { moment, sun, moon } in &table.rows {
        let (sun, moon) = (shown_place(*sun), shown_place(*moon));
        text += &format!("{}  {:>11}  {:>13}  {:>12}  {:>14}\n", moment.hour_and_minute(), sun.0, sun.1, moon.0, moon.1);
    }
    text
}

fn json(table: &Table) -> String {
    let row = |row: &Row| {
        let (sun, moon) = (format::json_place(row.sun), format::json_place(row.moon));
        format!("{{\"time\": \"{}\", \"sun\": {{{sun}}}, \"moon\": {{{moon}}}}}", row.moment.written())
    };
    let rows: Vec<String> = table.rows.iter().map(row).collect();
    let Table { midnight, .. } = table;
    let mut members = vec![
        format!("\"date\": \"{}\", \"zone\": \"{}\"", midnight.clock().date.written(), midnight.zone().written()),
        format::json_spot(table.observer.spot),
        format::json_scales(table.scales),
        format::json_forecast(),
        format!("\"rise_set_elevation_degrees\": {}", passed_degrees()),
    ];
    members.extend(table.days.iter().map(format::json_day));
    members.push("\"refraction_included\": false".to_string());
    members.push(format!("\"places\": {}", format::json_rows(&rows)));
    format::json_object(&members)
}

// What is the same for the whole day stands on each line, so that each can be read alone.
fn csv(table: &Table) -> String {
    let columns = "time,sun_azimuth_degrees,sun_elevation_degrees,moon_azimuth_degrees,moon_elevation_degrees";
    let rise_set = "sun_rise_time,sun_set_time,sun_stays,moon_rise_time,moon_set_time,moon_stays";
    let [sun_day, moon_day] = table.days.each_ref().map(format::csv_day);
    let scales = format::csv_scales(table.scales);
    let row = |row: &Row| {
        let (sun, moon) = (format::csv_place(row.sun), format::csv_place(row.moon));
        format!("{},{sun},{moon},{scales},{sun_day},{moon_day}", row.moment.written())
    };
    format::csv(&format!("{columns},{},{rise_set}", format::CSV_SCALES), table.rows.iter().map(row))
}

#[cfg(test)]
mod tests {
    use super::*;

    #[test]
    fn the_step_is_whole_minutes_of_a_day() {
        assert_eq!((minutes("1").unwrap(), minutes("1440").unwrap()), (1, 1440));
        for word in ["0", "1441", "-5", "2.5", "", "ten", "1e1", "010"] {
            assert!(minutes(word).unwrap_err().sentence().unwrap().contains(&quoted(word)), "{word:?}");
        }
    }
}
