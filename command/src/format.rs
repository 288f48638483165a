//! The three forms of an answer: words for people, JSON and CSV for programs. Every figure's unit is in its name.
//!
//! No text here needs an escape in JSON or in CSV: it is figures, times and fixed words.

use crate::decimal;
use crate::delta_t::Scales;
use crate::failure::Failure;
use crate::rise_set::Day;
use crate::sky::{Body, Place, Spot, ANGLE_DECIMALS, POINT_DECIMALS, SHARE_DECIMALS};
use crate::time::Moment;
use crate::words::{Flag, Words};

pub const FLAGS: &[Flag] = &[("--json", None), ("--csv", None)];

macro_rules! format_help {
    () => {
        "  --json            one JSON object, units in the names; null for what is none
  --csv             CSV by RFC 4180 (lines end in CR LF), units in its head;
                    empty for what is none
"
    };
}
pub(crate) use format_help;

#[derive(Clone, Copy, Debug, PartialEq, Eq)]
pub enum Format {
    Text,
    Json,
    Csv,
}

impl Format {
    pub fn read(words: &Words) -> Result<Format, Failure> {
        match (words.has("--json"), words.has("--csv")) {
            (true, true) => Err(words.usage("of --json and --csv only one can be given")),
            (true, false) => Ok(Format::Json),
            (false, true) => Ok(Format::Csv),
            (false, false) => Ok(Format::Text),
        }
    }

    /// Nothing where a picture is asked for.
    pub fn read_or_picture(words: &Words) -> Result<Option<Format>, Failure> {
        match (words.has("--picture"), Format::read(words)?) {
            (false, format) => Ok(Some(format)),
            (true, Format::Text) => Ok(None),
            (true, _) => Err(words.usage("of --json, --csv and --picture only one can be given")),
        }
    }
}

// ---- figures

/// Degrees with all the decimals that the library gives.
pub fn angle(units_e8: i64) -> String {
    decimal::written(units_e8, ANGLE_DECIMALS)
}

/// The theory is good to some units of the fourth decimal, so that people need no more.
const SHOWN_DECIMALS: u32 = 4;
const TURN_SHOWN: i64 = 3_600_000;

fn shown_units(units_e8: i64) -> i64 {
    decimal::rounded(units_e8, ANGLE_DECIMALS - SHOWN_DECIMALS)
}

/// Degrees as people need them.
pub fn shown_angle(units_e8: i64) -> String {
    decimal::written(shown_units(units_e8), SHOWN_DECIMALS)
}

/// An azimuth as people need it; one that is rounded up to a whole turn is 0.
pub fn shown_azimuth(azimuth_e8: i64) -> String {
    decimal::written(shown_units(azimuth_e8) % TURN_SHOWN, SHOWN_DECIMALS)
}

/// Azimuth and elevation as people need them.
pub fn shown_place(place: Place) -> (String, String) {
    (place.azimuth_e8.map_or(NONE.to_string(), shown_azimuth), shown_angle(place.elevation_e8))
}

// ---- what has no azimuth

/// What people read where there is no azimuth; in JSON it is null, and in CSV it is empty.
pub const NONE: &str = "none";

/// An azimuth with all its decimals, where there is one.
pub fn azimuth(place: Place) -> Option<String> {
    place.azimuth_e8.map(angle)
}

/// Why a place has none: "the Sun stands straight overhead".
pub fn why_no_azimuth(body: Body, place: Place) -> String {
    let side = if place.elevation_e8 < 0 { "underfoot" } else { "overhead" };
    format!("the {} stands straight {side}", body_name(body))
}

/// The lines of a table's heading that say so, each reason once; none of them where every place has an azimuth.
pub fn no_azimuth_words(places: impl Iterator<Item = (Body, Place)>) -> String {
    let mut lines: Vec<String> = Vec::new();
    for (body, place) in places.filter(|(_, place)| place.azimuth_e8.is_none()) {
        let line = format!("azimuth {NONE} where {}\n", why_no_azimuth(body, place));
        if !lines.contains(&line) {
            lines.push(line);
        }
    }
    lines.concat()
}

// ---- other figures

/// Per cent of the Sun's disk, with all that the library gives.
pub fn percent(share_millionths: i64) -> String {
    decimal::written(share_millionths, SHARE_DECIMALS)
}

/// Per cent for the width of a picture, never rounded up: only the whole Sun is 100.
pub fn short_percent(share_millionths: i64) -> String {
    const SHORT_DECIMALS: u32 = 2;
    decimal::written(share_millionths.div_euclid(10i64.pow(SHARE_DECIMALS - SHORT_DECIMALS)), SHORT_DECIMALS)
}

/// Degrees of a double, which only refraction needs; to the same decimals, and never a zero with a minus.
pub fn angle_of_double(degrees: f64) -> String {
    let text = format!("{degrees:.8}");
    let is_zero = text.bytes().all(|byte| matches!(byte, b'-' | b'0' | b'.'));
    if is_zero {
        text.replace('-', "")
    } else {
        text
    }
}

pub fn body_name(body: Body) -> &'static str {
    match body {
        Body::Sun => "Sun",
        Body::Moon => "Moon",
    }
}

pub fn body_key(body: Body) -> &'static str {
    match body {
        Body::Sun => "sun",
        Body::Moon => "moon",
    }
}

// ---- JSON

/// A name and its word or its figure, null where there is none.
pub fn json_member(name: &str, value: Option<String>, is_word: bool) -> String {
    match value {
        Some(word) if is_word => format!("\"{name}\": \"{word}\""),
        Some(figure) => format!("\"{name}\": {figure}"),
        None => format!("\"{name}\": null"),
    }
}

/// The members that say where the observer stands.
pub fn json_spot(spot: Spot) -> String {
    format!("{}, \"height_metres\": {}", json_point(spot.latitude_e7, spot.longitude_e7), spot.height_metres)
}

pub fn json_point(latitude_e7: i64, longitude_e7: i64) -> String {
    let [latitude, longitude] = [latitude_e7, longitude_e7].map(|units_e7| decimal::written(units_e7, POINT_DECIMALS));
    format!("\"latitude_degrees\": {latitude}, \"longitude_degrees\": {longitude}")
}

/// The members that say both time scales and where they come from.
pub fn json_scales(scales: Scales) -> String {
    format!(
        "\"ut1_minus_utc_seconds\": {}, \"ut1_minus_utc_source\": \"{}\", \"delta_t_seconds\": {}, \"delta_t_source\": \"{}\"",
        scales.ut1_seconds(),
        scales.ut1_source.key(),
        scales.delta_t_seconds(),
        scales.delta_t_source.key()
    )
}

/// The member that says from which year on the table of delta-T is a forecast.
pub fn json_forecast() -> String {
    format!("\"delta_t_forecast_begins_about_year\": {}", crate::delta_t::OBSERVED_TO)
}

pub fn json_place(place: Place) -> String {
    format!("{}, \"elevation_degrees\": {}", json_azimuth(place), angle(place.elevation_e8))
}

pub fn json_azimuth(place: Place) -> String {
    json_member("azimuth_degrees", azimuth(place), false)
}

/// The members that say when a body rises and sets, null where it does not.
pub fn json_day(day: &Day) -> String {
    let names = ["rise_time", "set_time", "stays"].map(|name| format!("{}_{name}", body_key(day.body)));
    let members = names.iter().zip(day_words(day)).map(|(name, word)| json_member(name, word, true));
    members.collect::<Vec<String>>().join(", ")
}

// Rise, set, and what it does that has neither.
fn day_words(day: &Day) -> [Option<String>; 3] {
    [day.rise.map(Moment::written), day.set.map(Moment::written), day.stays().map(|stays| stays.key().to_string())]
}

/// One element a line.
pub fn json_rows(rows: &[String]) -> String {
    if rows.is_empty() {
        return "[]".to_string();
    }
    format!("[\n    {}\n  ]", rows.join(",\n    "))
}

/// One member, or one group of members, a line.
pub fn json_object(members: &[String]) -> String {
    format!("{{\n  {}\n}}\n", members.join(",\n  "))
}

// ---- CSV

pub const CSV_SCALES: &str = "ut1_minus_utc_seconds,ut1_minus_utc_source,delta_t_seconds,delta_t_source";

pub fn csv_scales(scales: Scales) -> String {
    let (ut1, delta_t) = (scales.ut1_seconds(), scales.delta_t_seconds());
    format!("{ut1},{},{delta_t},{}", scales.ut1_source.key(), scales.delta_t_source.key())
}

pub fn csv_place(place: Place) -> String {
    format!("{},{}", azimuth(place).unwrap_or_default(), angle(place.elevation_e8))
}

/// Rise, set and what it does that has neither, empty where there is none.
pub fn csv_day(day: &Day) -> String {
    day_words(day).map(Option::unwrap_or_default).join(",")
}

/// A head and its rows, each ended as the RFC has it.
pub fn csv(head: &str, rows: impl IntoIterator<Item = String>) -> String {
    let mut text = format!("{head}\r\n");
    for row in rows {
        text += &row;
        text += "\r\n";
    }
    text
}

#[cfg(test)]
mod tests {
    use super::*;

    #[test]
    fn no_zero_has_a_minus() {
        assert_eq!((angle_of_double(-1e-12), angle_of_double(-0.0)), ("0.00000000".into(), "0.00000000".into()));
        assert_eq!((angle_of_double(-0.00133), angle_of_double(39.888_378_0)), ("-0.00133000".into(), "39.88837800".into()));
        assert_eq!(angle_of_double(-10.0), "-10.00000000");
    }

    #[test]
    fn no_azimuth_is_shown_as_a_whole_turn() {
        let place = Place { azimuth_e8: Some(35_999_999_999), elevation_e8: -4_999 };
        assert_eq!(shown_place(place), ("0.0000".into(), "0.0000".into()));
        let place = Place { azimuth_e8: Some(19_434_024_073), elevation_e8: -3_987_204_605 };
        assert_eq!(shown_place(place), ("194.3402".into(), "-39.8720".into()));
    }

    #[test]
    fn a_place_without_an_azimuth() {
        let [over, under] = [8_999_999_993, -8_999_999_993].map(|elevation_e8| Place { azimuth_e8: None, elevation_e8 });
        let north = Place { azimuth_e8: Some(0), ..over };
        assert_eq!((shown_place(over), shown_place(under).0), (("none".into(), "90.0000".into()), "none".into()));
        assert_eq!((csv_place(over), csv_place(north)), (",89.99999993".into(), "0.00000000,89.99999993".into()));
        assert_eq!(json_place(under), "\"azimuth_degrees\": null, \"elevation_degrees\": -89.99999993");
        let said = no_azimuth_words([north, over, over].map(|place| (Body::Sun, place)).into_iter().chain([(Body::Moon, under)]));
        assert_eq!(
            said,
            "azimuth none where the Sun stands straight overhead\nazimuth none where the Moon stands straight underfoot\n"
        );
        assert_eq!(no_azimuth_words([(Body::Sun, north)].into_iter()), "");
    }

    #[test]
    fn a_share_is_per_cent() {
        assert_eq!((percent(1_000_000), percent(999_999), percent(1)), ("100.0000".into(), "99.9999".into(), "0.0001".into()));
        assert_eq!((short_percent(1_000_000), short_percent(999_999)), ("100.00".into(), "99.99".into()));
    }

    #[test]
    fn lists_may_be_empty() {
        assert_eq!(json_object(&["\"rows\": ".to_string() + &json_rows(&[])]), "{\n  \"rows\": []\n}\n");
        assert_eq!(csv("a,b", ["1,2".to_string()]), "a,b\r\n1,2\r\n");
    }
}
