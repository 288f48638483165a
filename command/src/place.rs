//! `raddlehue place`: one body at one moment.

use crate::decimal;
use crate::delta_t::Scales;
use crate::failure::{quoted, Failure};
use crate::format::{self, angle, angle_of_double, format_help, Format, NONE};
use crate::observer::{self, observer_help, scales_words, Observer};
use crate::sky::{self, Body, Place, Shown, View, ANGLE_DECIMALS, LOWEST_REFRACTED_E8};
use crate::time::{Moment, UTC};
use crate::words::{Command, Words};

pub const COMMAND: Command = Command {
    name: "place",
    summary: "where the Sun or the Moon stands at a moment",
    positional: &["sun|moon", "TIME"],
    flags: &[observer::FLAGS, format::FLAGS, &[("--pressure", Some("mbar")), ("--temperature", Some("degrees Celsius"))]],
    help: concat!(
        "raddlehue place sun|moon TIME --lat DEG --lon DEG [flags]

Azimuth and elevation of the Sun or the Moon at a moment: without refraction,
or, where the air's pressure and temperature are given, as it is shown, with
refraction, which is worked from -0.83337 degrees up, where the last rim of
the Sun sets. TIME is like 2026-11-15T19:30:30.125Z, seconds with up to three
decimals, or 2026-11-16T08:30+13:00.

",
        observer_help!(),
        "  --pressure MBAR   the air's pressure where the observer stands, 0 to 1200
  --temperature C   the air's temperature in degrees Celsius, -80 to 80; both
                    of these two or neither
",
        format_help!(),
        "
  raddlehue place sun 2003-10-17T19:30:30Z --lat 39.742476 --lon 105.1786W
"
    ),
    run,
};

/// Decimals of a pressure and of a temperature: so few that the double is the nearest to what is written.
const AIR_DECIMALS: u32 = 6;

/// The air as it was given, and as doubles.
struct Air<'a> {
    pressure: (&'a str, f64),
    temperature: (&'a str, f64),
}

struct Answer<'a> {
    body: Body,
    view: View,
    scales: Scales,
    place: Place,
    shown: Option<(Air<'a>, Shown)>,
}

pub fn body(word: &str) -> Result<Body, Failure> {
    match word {
        "sun" => Ok(Body::Sun),
        "moon" => Ok(Body::Moon),
        _ => Err(Failure::Usage(format!("the body {} is unknown: write sun or moon", quoted(word)))),
    }
}

fn run(words: &Words) -> Result<String, Failure> {
    let format = Format::read(words)?;
    let body = body(words.positional(0))?;
    let observer = Observer::read(words)?;
    let air = air(words)?;
    let moment = Moment::read(words.positional(1))?;
    let (view, scales) = (observer.view(moment), observer.scales(moment));
    let place = sky::place(view, body)?;
    let shown = match air {
        Some(air) => Some((sky::shown_place(view, body, air.pressure.1, air.temperature.1)?, air)),
        None => None,
    };
    let answer = Answer { body, view, scales, place, shown: shown.map(|(shown, air)| (air, shown)) };
    Ok(match format {
        Format::Text => text(&answer, observer),
        Format::Json => json(&answer),
        Format::Csv => csv(&answer),
    })
}

fn air(words: &Words) -> Result<Option<Air<'_>>, Failure> {
    let read =
        |word, name, would_be| observer::number(word, name, AIR_DECIMALS, would_be).map(|units| (word, units as f64 / 1e6));
    match (words.value("--pressure"), words.value("--temperature")) {
        (None, None) => Ok(None),
        (Some(pressure), Some(temperature)) => Ok(Some(Air {
            pressure: read(pressure, "pressure", "mbar like 1013.2")?,
            temperature: read(temperature, "temperature", "degrees Celsius like -3.5")?,
        })),
        (Some(_), None) => Err(words.usage("the flag \"--temperature\" is missing: refraction needs it beside --pressure")),
        (None, Some(_)) => Err(words.usage("the flag \"--pressure\" is missing: refraction needs it beside --temperature")),
    }
}

// ---- the three forms

// The shown azimuth is the same whole number of units as the one without refraction.
fn text(answer: &Answer, observer: Observer) -> String {
    let moment = answer.view.moment;
    let utc = if moment.zone() == UTC { String::new() } else { format!(" ({})", moment.in_utc().written()) };
    let mut text = format!(
        "{} at {}{utc}\n{}\n{}azimuth {}\n",
        format::body_name(answer.body),
        moment.written(),
        observer.words(),
        scales_words(answer.scales),
        azimuth_words(answer)
    );
    match &answer.shown {
        None => {
            text += &format!("elevation {} degrees above the horizon, without refraction\n", angle(answer.place.elevation_e8))
        }
        Some((air, shown)) => {
            text += &format!(
                "elevation {} degrees above the horizon, with refraction\n\
                 refraction {} degrees at {} mbar and {} degrees Celsius{}\n",
                angle_of_double(shown.elevation_degrees),
                angle_of_double(shown.refraction_degrees),
                air.pressure.0,
                air.temperature.0,
                why_none(answer.place)
            )
        }
    }
    text
}

fn azimuth_words(answer: &Answer) -> String {
    match format::azimuth(answer.place) {
        Some(azimuth) => format!("{azimuth} degrees, from north over east"),
        None => format!("{NONE}: {}", format::why_no_azimuth(answer.body, answer.place)),
    }
}

/// Why an air that is given raises nothing, where it does not.
fn why_none(place: Place) -> String {
    if place.elevation_e8 >= LOWEST_REFRACTED_E8 {
        return String::new();
    }
    format!(", since there is none below {} degrees", decimal::short(LOWEST_REFRACTED_E8, ANGLE_DECIMALS, 0))
}

fn json(answer: &Answer) -> String {
    let mut members = vec![
        format!("\"body\": \"{}\", \"time\": \"{}\"", format::body_key(answer.body), answer.view.moment.written()),
        format::json_spot(answer.view.spot),
        format::json_scales(answer.scales),
        format::json_forecast(),
    ];
    match &answer.shown {
        None => members.extend(["\"refraction_included\": false".to_string(), format::json_place(answer.place)]),
        Some((air, shown)) => members.extend([
            format!("\"pressure_mbar\": {}, \"temperature_celsius\": {}", air.pressure.0, air.temperature.0),
            "\"refraction_included\": true".to_string(),
            format!(
                "{}, \"elevation_degrees\": {}, \"refraction_degrees\": {}",
                format::json_azimuth(answer.place),
                angle_of_double(shown.elevation_degrees),
                angle_of_double(shown.refraction_degrees)
            ),
        ]),
    }
    format::json_object(&members)
}

fn csv(answer: &Answer) -> String {
    let (elevation, refraction) = match &answer.shown {
        None => (angle(answer.place.elevation_e8), String::new()),
        Some((_, shown)) => (angle_of_double(shown.elevation_degrees), angle_of_double(shown.refraction_degrees)),
    };
    let row = format!(
        "{},{},{},{elevation},{refraction},{},{}",
        format::body_key(answer.body),
        answer.view.moment.written(),
        format::azimuth(answer.place).unwrap_or_default(),
        answer.shown.is_some(),
        format::csv_scales(answer.scales)
    );
    let head = "body,time,azimuth_degrees,elevation_degrees,refraction_degrees,refraction_included";
    format::csv(&format!("{head},{}", format::CSV_SCALES), [row])
}
