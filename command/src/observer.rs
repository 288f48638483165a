//! Where the observer stands and which time scales he asks for: the flags that most commands share, and how a heading says them.

use crate::decimal::{self, Misread};
use crate::delta_t::{Given, Scales, Source, OBSERVED_TO};
use crate::failure::{quoted, Failure};
use crate::sky::{Spot, View, POINT_DECIMALS, SECOND_DECIMALS};
use crate::time::{Moment, Zone, TOO_FINE, UTC};
use crate::words::{Flag, Words};

pub const FLAGS: &[Flag] = &[
    ("--lat", Some("a latitude in degrees")),
    ("--lon", Some("a longitude in degrees")),
    ("--height", Some("whole metres above the sea")),
    ("--ut1", Some("UT1 minus UTC in seconds")),
    ("--delta-t", Some("delta-T in seconds")),
];

/// The same in the words of a help page.
macro_rules! observer_help {
    () => {
        "  --lat DEG         latitude in degrees: 45.5, 45.5N, -45.5 or 45.5S
  --lon DEG         longitude in degrees: 5.2, 5.2E, -105.1786 or 105.1786W
  --height M        whole metres above the sea, -500 to 9000; 0 unless given
  --ut1 S           UT1 minus UTC in seconds, with up to three decimals; 0
                    unless given
  --delta-t S       delta-T (TT minus UT1) in seconds, with up to three
                    decimals; from a table of years unless given (see
                    raddlehue --help)
"
    };
}
pub(crate) use observer_help;

pub const ZONE: &[Flag] = &[("--zone", Some("a zone"))];

macro_rules! zone_help {
    () => {
        "  --zone ZONE       Z or like +13:00, the zone of dates and times; UTC unless
                    given
"
    };
}
pub(crate) use zone_help;

pub fn zone(words: &Words) -> Result<Zone, Failure> {
    words.value("--zone").map_or(Ok(UTC), Zone::read)
}

#[derive(Clone, Copy, Debug)]
pub struct Observer {
    pub spot: Spot,
    given: Given,
}

impl Observer {
    pub fn read(words: &Words) -> Result<Observer, Failure> {
        let latitude_e7 = degrees(words.required("--lat")?, &LATITUDE)?;
        let longitude_e7 = degrees(words.required("--lon")?, &LONGITUDE)?;
        let height_metres = words.value("--height").map_or(Ok(0), |word| number(word, "height", 0, "whole metres like 1830"))?;
        let ms = |flag: &str, name: &str| words.value(flag).map(|word| seconds_ms(word, name)).transpose();
        let given = Given { ut1_ms: ms("--ut1", "UT1 minus UTC")?, delta_t_ms: ms("--delta-t", "delta-T")? };
        Ok(Observer { spot: Spot { latitude_e7, longitude_e7, height_metres }, given })
    }

    pub fn scales(self, moment: Moment) -> Scales {
        self.given.at(moment)
    }

    pub fn view(self, moment: Moment) -> View {
        View { moment, offsets: self.scales(moment).offsets, spot: self.spot }
    }

    /// For a heading: "latitude 45.5 N, longitude 5.2 E, height 0 m".
    pub fn words(self) -> String {
        let Spot { latitude_e7, longitude_e7, height_metres } = self.spot;
        format!("{}, height {height_metres} m", point_words(latitude_e7, longitude_e7))
    }

    /// For a picture: "45.5° N, 5.2° E".
    pub fn short_words(self) -> String {
        let with_sign = |text: String| text.replace(' ', "° ");
        let Spot { latitude_e7, longitude_e7, .. } = self.spot;
        format!("{}, {}", with_sign(sided(latitude_e7, &LATITUDE)), with_sign(sided(longitude_e7, &LONGITUDE)))
    }
}

/// The lines of a heading that say both time scales and where they come from.
pub fn scales_words(scales: Scales) -> String {
    range_words(scales, scales)
}

/// The same of a range from the least delta-T to the greatest; what they share of UT1 is said once.
pub fn range_words(least: Scales, greatest: Scales) -> String {
    let ut1 = format!("UT1 minus UTC {} s ({})", least.ut1_seconds(), least.ut1_source.words());
    format!("{ut1}\ndelta-T {} ({})\n", delta_t_range(least, greatest), source_of_both(least, greatest).words())
}

/// Both lines short enough for the width of a picture.
pub fn short_range_words(least: Scales, greatest: Scales) -> [String; 2] {
    let source = match source_of_both(least, greatest) {
        source @ (Source::Given | Source::Assumed) => source.key().to_string(),
        Source::Observed => format!("table, observed to {OBSERVED_TO}"),
        Source::Forecast => format!("forecast since {OBSERVED_TO}"),
    };
    let ut1 = format!("UT1 minus UTC {} s ({})", least.ut1_seconds(), least.ut1_source.key());
    [ut1, format!("delta-T {} ({source})", delta_t_range(least, greatest))]
}

fn delta_t_range(least: Scales, greatest: Scales) -> String {
    let (from, to) = (least.delta_t_seconds(), greatest.delta_t_seconds());
    if from == to {
        format!("{from} s")
    } else {
        format!("{from} s to {to} s")
    }
}

fn source_of_both(least: Scales, greatest: Scales) -> Source {
    if least.delta_t_source == greatest.delta_t_source {
        least.delta_t_source
    } else {
        Source::Observed
    }
}

// ---- degrees

struct Side {
    name: &'static str,
    positive: char,
    negative: char,
    would_be: &'static str,
}

const LATITUDE: Side = Side { name: "latitude", positive: 'N', negative: 'S', would_be: "45.5, 45.5N, -45.5 or 45.5S" };
const LONGITUDE: Side = Side { name: "longitude", positive: 'E', negative: 'W', would_be: "5.2, 5.2E, -5.2 or 5.2W" };

fn degrees(word: &str, side: &Side) -> Result<i64, Failure> {
    let Side { name, positive, negative, would_be } = side;
    let what = format!("degrees with a point, like {would_be}");
    let Some(letter) = word.chars().last().filter(|last| "NSEW".contains(*last)) else {
        return number(word, name, POINT_DECIMALS, &what);
    };
    let digits = &word[..word.len() - letter.len_utf8()];
    let wrong = |reason: String| unread(word, name, &reason, &what);
    if letter != *positive && letter != *negative {
        return Err(wrong(format!("a {name} ends in {positive} or {negative}, not in {letter}")));
    }
    if digits.starts_with(['-', '+']) {
        return Err(wrong(format!("it has both a sign and the letter {letter}")));
    }
    match decimal::read(digits, POINT_DECIMALS as usize) {
        Ok(size) => Ok(if letter == *negative { -size } else { size }),
        Err(misread) => Err(misread_words(word, name, POINT_DECIMALS, &what, misread)),
    }
}

/// "latitude 45.5 N, longitude 5.2 E".
pub fn point_words(latitude_e7: i64, longitude_e7: i64) -> String {
    format!("latitude {}, longitude {}", sided(latitude_e7, &LATITUDE), sided(longitude_e7, &LONGITUDE))
}

fn sided(units_e7: i64, side: &Side) -> String {
    let letter = if units_e7 < 0 { side.negative } else { side.positive };
    format!("{} {letter}", decimal::short(units_e7.abs(), POINT_DECIMALS, 0))
}

// ---- numbers

/// A number of a flag in units of 10 to the minus `decimals`; `would_be` says how it is written.
pub fn number(word: &str, name: &str, decimals: u32, would_be: &str) -> Result<i64, Failure> {
    decimal::read(word, decimals as usize).map_err(|misread| misread_words(word, name, decimals, would_be, misread))
}

fn seconds_ms(word: &str, name: &str) -> Result<i64, Failure> {
    const WOULD_BE: &str = "seconds with up to three decimals, like 67 or -0.123";
    decimal::read(word, SECOND_DECIMALS as usize).map_err(|misread| match misread {
        Misread::Decimals => unread(word, name, TOO_FINE, WOULD_BE),
        other => misread_words(word, name, SECOND_DECIMALS, WOULD_BE, other),
    })
}

fn misread_words(word: &str, name: &str, decimals: u32, would_be: &str, misread: Misread) -> Failure {
    let reason = match misread {
        Misread::Form => "it is not digits with a point".to_string(),
        Misread::Decimals if decimals == 0 => "it is not whole, and the rest would be lost".to_string(),
        Misread::Decimals => format!("it has more than {decimals} decimals, and the rest would be lost"),
        Misread::Size => "it is too large".to_string(),
    };
    let reason = if word.is_empty() { "it is empty".to_string() } else { reason };
    unread(word, name, &reason, would_be)
}

fn unread(word: &str, name: &str, reason: &str, would_be: &str) -> Failure {
    Failure::Usage(format!("the {name} {} cannot be read: {reason}; write {would_be}", quoted(word)))
}

#[cfg(test)]
mod tests {
    use super::*;

    #[test]
    fn degrees_are_read() {
        for (word, e7) in [
            ("45.5N", 455_000_000),
            ("45.5S", -455_000_000),
            ("-45.5", -455_000_000),
            ("91", 910_000_000),
            ("0S", 0),
            ("-0.0000001", -1),
        ] {
            assert_eq!(degrees(word, &LATITUDE).unwrap(), e7, "{word}");
        }
        for (word, e7) in
            [("105.1786W", -1_051_786_000), ("-105.1786", -1_051_786_000), ("5.2E", 52_000_000), ("180", 1_800_000_000)]
        {
            assert_eq!(degrees(word, &LONGITUDE).unwrap(), e7, "{word}");
        }
    }

    #[test]
    fn what_is_no_degrees_is_not_read() {
        let words = [
            "", "N", "-45.5N", "+45.5N", "+45.5", "45.5E", "45.5W", "45.5n", "45.5 N", "45.5NN", "N45.5", "45,5", "45°", "45°30",
            "45°30'N", "45.5°N", "0x10", "1e1", "inf", "nan", "NaN", "-inf", "45.5N 5.2E", " 45", "45 ", "45.", ".5", "045",
            "45.12345678", "45.12345678N", "12345678901234", "north", "east", "NE", "é",
        ];
        for word in words {
            let failure = degrees(word, &LATITUDE).unwrap_err();
            assert!(matches!(failure, Failure::Usage(_)), "{word:?}");
            assert!(failure.sentence().unwrap().contains(&quoted(word)), "{word:?}");
        }
        assert!(degrees("45.12345678", &LATITUDE).unwrap_err().sentence().unwrap().contains("more than 7 decimals"));
        assert!(degrees("-45.5N", &LATITUDE).unwrap_err().sentence().unwrap().contains("both a sign and the letter"));
    }

    #[test]
    fn places_are_said() {
        assert_eq!(sided(-455_000_000, &LATITUDE), "45.5 S");
        assert_eq!(sided(0, &LONGITUDE), "0 E");
    }
}
