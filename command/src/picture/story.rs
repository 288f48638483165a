//! What the picture says in words: its title, its description for those who cannot see it, and the lines under it.

use super::track::Track;
use crate::format::{why_no_azimuth, NONE};
use crate::observer::{scales_words, short_range_words, Observer};
use crate::rise_set::{passed_degrees, Day};
use crate::sky::Body;
use crate::svg::{degrees, one_decimal, Heading};
use crate::time::Moment;

pub struct Story {
    pub heading: Heading,
    /// Two lines for the Sun, two for the Moon.
    pub bodies: [[String; 2]; 2],
    pub notes: [String; 4],
}

impl Story {
    pub fn of(observer: Observer, midnight: Moment, tracks: &[Track; 2], days: &[Day; 2]) -> Story {
        let zone = midnight.zone().words();
        let scales = observer.scales(midnight);
        let [sun_highest, moon_highest] = tracks.each_ref().map(highest);
        let [sun_day, moon_day] = days.each_ref().map(Day::short_words);
        let sun = format!("{sun_day}; {}{}", sun_highest.words, sun_highest.why);
        let moon = format!("{moon_day}; {}{}", moon_highest.words, moon_highest.why);
        let bodies = [[sun_day, sun_highest.words], [moon_day, moon_highest.words]];
        let scales_line = scales_words(scales).trim_end().replace('\n', "; ");
        let description = format!(
            "Paths over the sky from {}, times in {zone}. Azimuth runs from left to right, {}; elevation runs upward from the horizon, \
             without refraction. {sun}. {moon}. Rise and set when the centre passes {} degrees. {scales_line}.",
            observer.words(),
            sides(observer),
            passed_degrees()
        );
        let title = format!("Sun and Moon on {}", midnight.clock().date.written());
        let place = format!("{}, {zone}", observer.short_words());
        let [ut1, delta_t] = short_range_words(scales, scales);
        let marks = "a mark each hour; without refraction".to_string();
        let passed = format!("rise and set when the centre passes {}°", passed_degrees());
        Story { heading: Heading { title, place, description }, bodies, notes: [marks, passed, ut1, delta_t] }
    }
}

fn sides(observer: Observer) -> &'static str {
    match observer.spot.latitude_e7 < 0 {
        true => "from south over west to north in the middle, and over east to south",
        false => "from north over east to south in the middle, and over west to north",
    }
}

fn clock(minute: usize) -> String {
    format!("{:02}:{:02}", minute / 60, minute % 60)
}

/// Where a body is highest, in words, and why they say no azimuth, for which the sheet has no room.
#[derive(Default)]
struct Highest {
    words: String,
    why: String,
}

fn highest(track: &Track) -> Highest {
    let minutes = track.minutes.iter().enumerate();
    let by_elevation = minutes.max_by_key(|(minute, place)| (place.elevation_e8, std::cmp::Reverse(*minute)));
    let Some((minute, &place)) = by_elevation else { return Highest::default() };
    let (azimuth, why) = match place.azimuth_e8 {
        Some(azimuth_e8) => (format!("{:.0}°", degrees(azimuth_e8).round() % 360.0), String::new()),
        None => (NONE.to_string(), format!(": {}", why_no_azimuth(track.body, place))),
    };
    Highest { words: format!("highest {}° at {}, azimuth {azimuth}", one_decimal(place.elevation_e8), clock(minute)), why }
}

pub fn class_of(body: Body) -> &'static str {
    match body {
        Body::Sun => "sun",
        Body::Moon => "moon",
    }
}

#[cfg(test)]
mod tests {
    use super::*;
    use crate::sky::Place;

    fn day(azimuth_e8: Option<i64>, highest_e8: i64) -> Track {
        let place = |minute: i64| Place { azimuth_e8, elevation_e8: highest_e8 - (minute - 61).abs() };
        Track { body: Body::Moon, minutes: (0..=1440).map(place).collect(), lines: Vec::new(), hours: Vec::new() }
    }

    #[test]
    fn the_highest_place() {
        let Highest { words, why } = highest(&day(Some(35_999_999_999), 4_550_000_000));
        assert_eq!((words.as_str(), why.as_str()), ("highest 45.5° at 01:01, azimuth 0°", ""));
        let Highest { words, why } = highest(&day(None, 8_999_999_993));
        assert_eq!(
            (words.as_str(), why.as_str()),
            ("highest 90.0° at 01:01, azimuth none", ": the Moon stands straight overhead")
        );
    }
}
