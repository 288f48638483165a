//! `raddlehue batch`: a track on standard input, answered line by line.
//!
//! All lines are judged before the first is answered, so that a bad one leaves nothing half printed.

use crate::decimal::{self, Misread};
use crate::delta_t::Scales;
use crate::failure::Failure;
use crate::format::{self, angle, format_help, no_azimuth_words, Format, NONE};
use crate::input::{self, at_line};
use crate::observer::{self, observer_help, range_words, scales_words, Observer};
use crate::place::body;
use crate::sky::{self, Body, Place, SECOND_DECIMALS};
use crate::time::{Moment, TOO_FINE};
use crate::words::{Command, Words};

pub const COMMAND: Command = Command {
    name: "batch",
    summary: "a track on standard input, answered line by line",
    positional: &["sun|moon"],
    flags: &[observer::FLAGS, format::FLAGS, &[("--start", Some("a time"))]],
    help: concat!(
        "raddlehue batch sun|moon [--start TIME] --lat DEG --lon DEG [flags] < LINES

Azimuth and elevation, without refraction, for each line of standard input, in
the order of the lines. With --start a line is an offset after it in seconds,
with up to three decimals, of at most 4294967.295 (49.7 days), and delta-T is
the start's throughout; without it a line is a time of its own, of any day, like
2026-11-15T19:30:30.125Z, with that time's delta-T. All lines are judged before
anything is printed: one bad line, and there is no answer but a sentence with
its number. An empty input has an empty table.

",
        observer_help!(),
        "  --start TIME      the moment that the offsets count from
",
        format_help!(),
        "
  seq 0 60 600 | raddlehue batch sun --start 2026-11-15T09:30Z --lat 45 --lon 5
"
    ),
    run,
};

/// A line as it was written, and its answer.
struct Row {
    line: String,
    scales: Scales,
    place: Place,
}

struct Track {
    body: Body,
    observer: Observer,
    start: Option<Moment>,
    rows: Vec<Row>,
}

fn run(words: &Words) -> Result<String, Failure> {
    let format = Format::read(words)?;
    let body = body(words.positional(0))?;
    let observer = Observer::read(words)?;
    let start = words.value("--start").map(Moment::read).transpose()?;
    let lines = input::lines(&input::standard_input()?)?;
    let rows = match start {
        Some(start) => rows_after(start, body, observer, lines)?,
        None => rows_at_times(body, observer, lines)?,
    };
    let track = Track { body, observer, start, rows };
    Ok(match format {
        Format::Text => text(&track),
        Format::Json => json(&track),
        Format::Csv => csv(&track),
    })
}

// ---- lines

// What is wrong with the line itself is said with the line's number; what is wrong with the observer is left as it is.
fn of_line(index: usize, line: &str, failure: Failure) -> Failure {
    match failure {
        Failure::Usage(sentence) | Failure::Refused(1..=4 | 13, sentence) => at_line(index, line, &sentence),
        other => other,
    }
}

fn rows_after(start: Moment, body: Body, observer: Observer, lines: Vec<String>) -> Result<Vec<Row>, Failure> {
    let read = |(index, line): (usize, &String)| offset_ms(line).map_err(|sentence| at_line(index, line, sentence));
    let offsets: Vec<u32> = lines.iter().enumerate().map(read).collect::<Result<_, _>>()?;
    let scales = observer.scales(start);
    let places = sky::places(observer.view(start), body, &offsets).map_err(|refused| match refused.index {
        Some(index) => of_line(index, lines.get(index).map_or("", String::as_str), refused.failure),
        None => refused.failure,
    })?;
    Ok(lines.into_iter().zip(places).map(|(line, place)| Row { line, scales, place }).collect())
}

fn rows_at_times(body: Body, observer: Observer, lines: Vec<String>) -> Result<Vec<Row>, Failure> {
    let answer = |(index, line): (usize, String)| {
        let moment = Moment::read(&line).map_err(|failure| of_line(index, &line, failure))?;
        let place = sky::place(observer.view(moment), body).map_err(|failure| of_line(index, &line, failure))?;
        Ok(Row { line, scales: observer.scales(moment), place })
    };
    lines.into_iter().enumerate().map(answer).collect()
}

fn offset_ms(line: &str) -> Result<u32, &'static str> {
    let ms = decimal::read(line, SECOND_DECIMALS as usize).map_err(|misread| match misread {
        Misread::Form => "an offset is written in seconds, like 0, 12 or 12.125",
        Misread::Decimals => TOO_FINE,
        Misread::Size => TOO_FAR,
    })?;
    match u32::try_from(ms) {
        Ok(offset) => Ok(offset),
        Err(_) if ms < 0 => Err("an offset does not go back before the start"),
        Err(_) => Err(TOO_FAR),
    }
}

const TOO_FAR: &str = "an offset is at most 4294967.295 seconds (49.7 days); \
    for a longer track leave --start out and write each line as a time, like 2026-11-15T19:30:30.125Z";

// ---- the three forms

fn text(track: &Track) -> String {
    let (name, what) = (format::body_name(track.body), if track.start.is_some() { "offset" } else { "time" });
    let mut text = match track.start {
        Some(start) => format!("{name} at offsets in seconds after {}\n", start.written()),
        None => format!("{name} at times\n"),
    };
    text += &format!("{}\n{}", track.observer.words(), heading_scales(track));
    text += &format!(
        "azimuth in degrees from north over east\n{}elevation in degrees above the horizon, without refraction\n\n",
        no_azimuth_words(track.rows.iter().map(|row| (track.body, row.place)))
    );
    let width = track.rows.iter().map(|row| row.line.len()).max().unwrap_or(0).max(what.len());
    text += &format!("{what:>width$}  {:>12}  {:>12}\n", "azimuth", "elevation");
    for Row { line, place, .. } in &track.rows {
        let azimuth = format::azimuth(*place).unwrap_or(NONE.to_string());
        text += &format!("{line:>width$}  {azimuth:>12}  {:>12}\n", angle(place.elevation_e8));
    }
    text
}

// Times of their own may have several delta-Ts: the heading then says the least and the greatest.
fn heading_scales(track: &Track) -> String {
    if let Some(start) = track.start {
        return scales_words(track.observer.scales(start));
    }
    match Scales::range(track.rows.iter().map(|row| row.scales)) {
        Some((least, greatest)) => range_words(least, greatest),
        None => "no line, so that neither UT1 minus UTC nor delta-T is used\n".to_string(),
    }
}

fn json(track: &Track) -> String {
    let row = |row: &Row| {
        let key = if track.start.is_some() {
            format!("\"offset_seconds\": {}", row.line)
        } else {
            format!("\"time\": \"{}\"", row.line)
        };
        format!("{{{key}, {}, {}}}", format::json_place(row.place), format::json_scales(row.scales))
    };
    let rows: Vec<String> = track.rows.iter().map(row).collect();
    let start = track.start.map(|start| format!(", \"start\": \"{}\"", start.written())).unwrap_or_default();
    format::json_object(&[
        format!("\"body\": \"{}\"{start}", format::body_key(track.body)),
        format::json_spot(track.observer.spot),
        format::json_forecast(),
        "\"refraction_included\": false".to_string(),
        format!("\"places\": {}", format::json_rows(&rows)),
    ])
}

fn csv(track: &Track) -> String {
    let key = if track.start.is_some() { "offset_seconds" } else { "time" };
    let row = |row: &Row| format!("{},{},{}", row.line, format::csv_place(row.place), format::csv_scales(row.scales));
    let head = format!("{key},azimuth_degrees,elevation_degrees,{}", format::CSV_SCALES);
    format::csv(&head, track.rows.iter().map(row))
}

#[cfg(test)]
mod tests {
    use super::*;

    #[test]
    fn offsets_are_milliseconds() {
        for (line, ms) in [("0", 0), ("12.5", 12_500), ("12.25", 12_250), ("0.001", 1), ("4294967.295", u32::MAX)] {
            assert_eq!(offset_ms(line), Ok(ms));
        }
        for line in ["", " 1", "1 ", "1\r", "-1", "+1", "1e3", "1,5", "0x1", "nan", "2026-11-15T19:30Z"] {
            assert!(offset_ms(line).is_err(), "{line:?}");
        }
        assert_eq!((offset_ms("0.0001"), offset_ms("12.5000")), (Err(TOO_FINE), Err(TOO_FINE)));
        for line in ["4294967.296", "429496729.5", "99999999999999999999"] {
            assert_eq!(offset_ms(line), Err(TOO_FAR), "{line}");
        }
    }
}
