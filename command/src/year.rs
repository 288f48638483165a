//! `raddlehue year`: a year of sunrise and sunset for one place, as an SVG or as a table.

mod sheet;
mod story;

use crate::delta_t::Scales;
use crate::failure::{quoted, Failure};
use crate::format;
use crate::observer::{self, observer_help, zone_help, Observer};
use crate::rise_set::{Day, Days};
use crate::sky::{Body, DAY_MINUTES};
use crate::time::{Moment, Zone};
use crate::words::{Command, Words};

pub const COMMAND: Command = Command {
    name: "year",
    summary: "a year of sunrise and sunset, as an SVG",
    positional: &["YEAR"],
    flags: &[observer::FLAGS, observer::ZONE, &[("--csv", None)]],
    help: concat!(
        "raddlehue year YEAR --lat DEG --lon DEG [flags] > FILE.svg

A year of sunrise and sunset for one place, as an SVG on standard output: days
across, the hours of each day upward, day and night shaded. With --csv it is a
table, a line for each day: the first rise and the first set, empty where there
is none, and whether the Sun stays up or down where there is neither. The Sun
rises and sets when its centre passes -0.8333 degrees, without refraction. YEAR
is like 2026; its days are those of the zone, and must lie within 1900 to 2100
of UTC as a whole. Delta-T is that of each day's beginning. It takes seconds.

",
        observer_help!(),
        zone_help!(),
        "  --csv             CSV by RFC 4180 (lines end in CR LF), units in its head

  raddlehue year 2026 --lat 69.6496N --lon 18.956E --zone +01:00 > year.svg
"
    ),
    run,
};

/// A day of the year from its midnight on.
struct YearDay {
    midnight: Moment,
    scales: Scales,
    sun: Day,
}

fn run(words: &Words) -> Result<String, Failure> {
    let observer = Observer::read(words)?;
    let new_year = new_year(words.positional(0), observer::zone(words)?)?;
    let days = days(observer, new_year)?;
    Ok(match words.has("--csv") {
        true => csv(&days),
        false => sheet::drawn(&story::Story::of(observer, new_year, &days), &days),
    })
}

fn new_year(word: &str, zone: Zone) -> Result<Moment, Failure> {
    let is_year = word.len() == 4 && word.bytes().all(|byte| byte.is_ascii_digit());
    if !is_year {
        return Err(Failure::Usage(format!("the year {} cannot be read: a year is written like 2026", quoted(word))));
    }
    Moment::midnight(&format!("{word}-01-01"), zone)
}

fn days(observer: Observer, new_year: Moment) -> Result<Vec<YearDay>, Failure> {
    let year = new_year.clock().date.year;
    let mut days = Days::of(observer, Body::Sun);
    let midnights = (0..).map(|day| new_year.minutes_later(day * DAY_MINUTES));
    midnights
        .take_while(|midnight| midnight.clock().date.year == year)
        .map(|midnight| Ok(YearDay { midnight, scales: observer.scales(midnight), sun: days.day(midnight)? }))
        .collect()
}

fn csv(days: &[YearDay]) -> String {
    let row = |day: &YearDay| {
        let date = day.midnight.clock().date.written();
        format!("{date},{},{}", format::csv_day(&day.sun), format::csv_scales(day.scales))
    };
    format::csv(&format!("date,sun_rise_time,sun_set_time,sun_stays,{}", format::CSV_SCALES), days.iter().map(row))
}

#[cfg(test)]
mod tests {
    use super::*;
    use crate::time::UTC;

    #[test]
    fn a_year_has_four_digits() {
        assert_eq!(new_year("2026", UTC).unwrap().written(), "2026-01-01T00:00:00Z");
        let zone = Zone::read("+01:00").unwrap();
        assert_eq!(new_year("2026", zone).unwrap().in_utc().written(), "2025-12-31T23:00:00Z");
        for word in ["", "26", "02026", "2026 ", "+2026", "-2026", "2026-01", "202x", "２０２６", "MMXXVI"] {
            assert!(matches!(new_year(word, UTC), Err(Failure::Usage(_))), "{word:?}");
        }
    }
}
