//! What a strip says, in three forms.

use super::{air_key, air_words};
use crate::calendar::Date;
use crate::decimal;
use crate::format::{self, Format, NONE};
use crate::observer::point_words;
use crate::sky::{Strip, StripAir, StripStep, Which, POINT_DECIMALS, STRIP_HEADER};
use crate::time::Moment;

/// Which of two strips it is, and where its azimuths lie.
pub struct Found {
    pub which: Which,
    /// The file's name in quotes.
    pub name: String,
    /// Bytes of the azimuths.
    pub length: usize,
}

impl Found {
    fn key(&self) -> &'static str {
        match self.which {
            Which::First => "first",
            Which::Second => "second",
        }
    }

    fn words(&self) -> String {
        let Found { name, length, .. } = self;
        let part = format!("its azimuths are the {length} bytes behind the first {STRIP_HEADER}");
        format!("the {} strip, {name}, bears the date: {part}\n", self.key())
    }
}

pub fn told(format: Format, strip: Strip, found: Option<Found>) -> String {
    match format {
        Format::Text => text(strip, found),
        Format::Json => json(strip, found),
        Format::Csv => csv(strip, found),
    }
}

// ---- parts of all three

fn date(strip: Strip) -> Date {
    Date { year: strip.year(), month: strip.month(), day: strip.day() }
}

fn time(strip: Strip, step: StripStep) -> Moment {
    Moment::midnight_of(date(strip)).minutes_later(step.minute.into())
}

/// All seven decimals: the strip has been rounded down already.
fn azimuth(step: StripStep) -> Option<String> {
    step.azimuth_e7.map(|units_e7| decimal::written(units_e7.into(), POINT_DECIMALS))
}

fn absent(strip: Strip) -> usize {
    strip.iter().filter(|step| step.azimuth_e7.is_none()).count()
}

/// "144 azimuths, one every 10 minutes; none of them is absent".
pub fn counted(strip: Strip) -> String {
    let minutes = match strip.step_minutes() {
        1 => "minute".to_string(),
        many => format!("{many} minutes"),
    };
    let absent = match absent(strip) {
        0 => "none of them is absent".to_string(),
        1 => "1 of them is absent".to_string(),
        many => format!("{many} of them are absent"),
    };
    format!("{} azimuths, one every {minutes}; {absent}", strip.steps())
}

// ---- the three forms

fn text(strip: Strip, found: Option<Found>) -> String {
    let mut text = found.map_or(String::new(), |found| found.words());
    text += &format!(
        "Strip of the {} on {}, times in UTC\n{}\nair {}, which changes no azimuth\n{}\n\
         azimuth in degrees from north over east, rounded down\n{}\ntime       azimuth\n",
        format::body_name(strip.body()),
        date(strip).written(),
        point_words(strip.latitude_e7(), strip.longitude_e7()),
        air_words(strip.air()),
        counted(strip),
        none_words(strip)
    );
    for step in strip {
        let azimuth = azimuth(step).unwrap_or(NONE.to_string());
        text += &format!("{}  {azimuth:>11}\n", time(strip, step).hour_and_minute());
    }
    text
}

// A strip has no elevation, so that it does not tell overhead from underfoot.
fn none_words(strip: Strip) -> String {
    match absent(strip) {
        0 => String::new(),
        _ => format!("azimuth {NONE} where it is absent, as that of a body straight overhead or straight underfoot\n"),
    }
}

fn json_air(air: StripAir) -> String {
    let key = air_key(air);
    match air {
        StripAir::None => format!("\"air\": \"{key}\""),
        StripAir::Measured { pressure_mbar, temperature_celsius }
        | StripAir::CarriedOver { pressure_mbar, temperature_celsius } => {
            format!("\"air\": \"{key}\", \"pressure_mbar\": {pressure_mbar}, \"temperature_celsius\": {temperature_celsius}")
        }
    }
}

fn json(strip: Strip, found: Option<Found>) -> String {
    let row = |step: StripStep| {
        let azimuth = format::json_member("azimuth_degrees", azimuth(step), false);
        format!("{{\"time\": \"{}\", {azimuth}}}", time(strip, step).written())
    };
    let rows: Vec<String> = strip.iter().map(row).collect();
    let part = |found: Found| {
        let (key, length) = (found.key(), found.length);
        format!("\"found_in\": \"{key}\", \"azimuths_offset_bytes\": {STRIP_HEADER}, \"azimuths_length_bytes\": {length}")
    };
    let mut members: Vec<String> = found.map(part).into_iter().collect();
    members.extend([
        format!("\"date\": \"{}\", \"zone\": \"Z\", \"body\": \"{}\"", date(strip).written(), format::body_key(strip.body())),
        json_air(strip.air()),
        format::json_point(strip.latitude_e7(), strip.longitude_e7()),
        format!("\"step_minutes\": {}, \"steps\": {}, \"absent\": {}", strip.step_minutes(), strip.steps(), absent(strip)),
        format!("\"azimuths\": {}", format::json_rows(&rows)),
    ]);
    format::json_object(&members)
}

// What is the same for the whole day stands on each line, so that each can be read alone.
fn csv(strip: Strip, found: Option<Found>) -> String {
    let [latitude, longitude] = [strip.latitude_e7(), strip.longitude_e7()].map(|units| decimal::written(units, POINT_DECIMALS));
    let said = format!("{},{},{latitude},{longitude}", format::body_key(strip.body()), air_key(strip.air()));
    let step_minutes = strip.step_minutes();
    let (head, key) = match &found {
        Some(found) => {
            ("found_in,azimuths_offset_bytes,azimuths_length_bytes,", format!("{},{STRIP_HEADER},{},", found.key(), found.length))
        }
        None => ("", String::new()),
    };
    let row = |step: StripStep| {
        format!("{key}{},{},{said},{step_minutes}", time(strip, step).written(), azimuth(step).unwrap_or_default())
    };
    let columns = "time,azimuth_degrees,body,air,latitude_degrees,longitude_degrees,step_minutes";
    format::csv(&format!("{head}{columns}"), strip.iter().map(row))
}
