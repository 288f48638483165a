//! When a body rises and sets on a day of some zone. A day of UTC has the library's own answer; that of another zone covers two of those, and is read from their curves by
//! the same rule.

use crate::calendar::Date;
use crate::decimal;
use crate::failure::Failure;
use crate::format::body_name;
use crate::observer::Observer;
use crate::sky::{self, Body, Offsets, UtcDay, View, ANGLE_DECIMALS, DAY_MINUTES, RISE_SET_E8};
use crate::time::Moment;
use std::rc::Rc;

/// A body's day from a zone's midnight on: its first rise, its first set, and where it stands at each minute.
pub struct Day {
    pub body: Body,
    pub rise: Option<Moment>,
    pub set: Option<Moment>,
    elevations_e8: Vec<i64>,
}

/// What a body does that neither rises nor sets.
#[derive(Clone, Copy, Debug, PartialEq, Eq)]
pub enum Stays {
    Up,
    Down,
}

impl Stays {
    /// One word for tables that programs read.
    pub fn key(self) -> &'static str {
        match self {
            Stays::Up => "up",
            Stays::Down => "down",
        }
    }
}

/// By the rule of rise and set, of an elevation without refraction.
pub fn is_up(elevation_e8: i64) -> bool {
    elevation_e8 >= RISE_SET_E8
}

/// "-0.8333", where the centre of a body is when it rises or sets, in degrees.
pub fn passed_degrees() -> String {
    decimal::short(RISE_SET_E8, ANGLE_DECIMALS, 0)
}

impl Day {
    /// A day without rise and set lies on one side as a whole.
    pub fn stays(&self) -> Option<Stays> {
        let side = if self.is_up(0) { Stays::Up } else { Stays::Down };
        (self.rise.is_none() && self.set.is_none()).then_some(side)
    }

    pub fn is_up(&self, minute: usize) -> bool {
        self.elevations_e8.get(minute).is_some_and(|&elevation| is_up(elevation))
    }

    /// In words, the earlier of the two first.
    pub fn sentence(&self) -> String {
        let told = self.told(" at", " and", " on this day").unwrap_or_else(|| match self.is_up(0) {
            true => "does not set: it stays up all day".to_string(),
            false => "does not rise: it stays below the horizon all day".to_string(),
        });
        format!("the {} {told}", body_name(self.body))
    }

    /// The same, short enough for the width of a picture.
    pub fn short_words(&self) -> String {
        let told = self.told("", ",", "").unwrap_or_else(|| match self.is_up(0) {
            true => "does not set, up all day".to_string(),
            false => "does not rise, down all day".to_string(),
        });
        format!("{}: {told}", body_name(self.body))
    }

    fn told(&self, at: &str, and: &str, on_this_day: &str) -> Option<String> {
        let rises = self.rise.map(|rise| format!("rises{at} {}", rise.hour_and_minute()));
        let sets = self.set.map(|set| format!("sets{at} {}", set.hour_and_minute()));
        match (rises, sets) {
            (Some(rises), Some(sets)) if self.rise < self.set => Some(format!("{rises}{and} {sets}")),
            (Some(rises), Some(sets)) => Some(format!("{sets}{and} {rises}")),
            (Some(rises), None) => Some(format!("{rises}{and} does not set{on_this_day}")),
            (None, Some(sets)) => Some(format!("{sets}{and} does not rise{on_this_day}")),
            (None, None) => None,
        }
    }
}

// ---- from UTC days

/// One body's days, asked for one by one. The last UTC day is kept, since in a zone it is also the next day's first.
pub struct Days {
    observer: Observer,
    body: Body,
    kept: Option<((Date, Offsets), Rc<UtcDay>)>,
}

impl Days {
    pub fn of(observer: Observer, body: Body) -> Days {
        Days { observer, body, kept: None }
    }

    /// The day that begins at a midnight, with that midnight's UT1 minus UTC and delta-T.
    pub fn day(&mut self, midnight: Moment) -> Result<Day, Failure> {
        let view = self.observer.view(midnight);
        let first = self.utc_day(view)?;
        let begins = midnight.in_utc().minute_of_day();
        let (rise_minute, set_minute, elevations_e8) = if begins == 0 {
            let minute = |minute: Option<u16>| minute.map(usize::from);
            (minute(first.rise_set.rise_minute), minute(first.rise_set.set_minute), first.elevations_e8.to_vec())
        } else {
            let second = self.utc_day(View { moment: midnight.minutes_later(DAY_MINUTES), ..view })?;
            of_two(&first, &second, begins)
        };
        let at = |minute: Option<usize>| minute.map(|minute| midnight.minutes_later(minute));
        Ok(Day { body: self.body, rise: at(rise_minute), set: at(set_minute), elevations_e8 })
    }

    fn utc_day(&mut self, view: View) -> Result<Rc<UtcDay>, Failure> {
        let key = (view.moment.in_utc().clock().date, view.offsets);
        if let Some((_, day)) = self.kept.as_ref().filter(|(kept, _)| *kept == key) {
            return Ok(Rc::clone(day));
        }
        let day = Rc::new(sky::utc_day(view, self.body)?);
        self.kept = Some((key, Rc::clone(&day)));
        Ok(day)
    }
}

// The day that begins at a minute above 0 of the first: when it first rises and sets, and its curve.
fn of_two(first: &UtcDay, second: &UtcDay, begins: usize) -> (Option<usize>, Option<usize>, Vec<i64>) {
    let before = first.elevations_e8[begins - 1];
    let curve: Vec<i64> = first.elevations_e8[begins..].iter().chain(&second.elevations_e8[..begins]).copied().collect();
    let with_before = || std::iter::once(&before).chain(&curve).zip(&curve);
    let rise = with_before().position(|(&before, &now)| !is_up(before) && is_up(now));
    let set = with_before().position(|(&before, &now)| is_up(before) && !is_up(now));
    (rise, set, curve)
}

#[cfg(test)]
mod tests {
    use super::*;
    use crate::sky::{RiseSet, Spot};

    const NO: RiseSet = RiseSet { rise_minute: None, set_minute: None };

    fn curve(elevation_e8: impl Fn(usize) -> i64) -> UtcDay {
        UtcDay { rise_set: NO, elevations_e8: std::array::from_fn(elevation_e8) }
    }

    fn up_between(from: usize, to: usize) -> UtcDay {
        curve(|minute| if (from..to).contains(&minute) { RISE_SET_E8 } else { RISE_SET_E8 - 1 })
    }

    // A day that begins with the second's minute 0 is the second, and has the library's answer.
    #[test]
    fn two_curves_say_what_the_library_says() {
        let spots = [(696_492_000, 189_553_000), (-455_000_000, 1_705_000_000), (900_000_000, 0), (0, 902_000_000)];
        for (latitude_e7, longitude_e7) in spots {
            let spot = Spot { latitude_e7, longitude_e7, height_metres: 0 };
            let offsets = Offsets { ut1_ms: 0, delta_t_ms: 69_100 };
            for (body, word) in
                [(Body::Sun, "2026-01-10T00:00Z"), (Body::Sun, "2026-05-12T00:00Z"), (Body::Moon, "2026-11-01T00:00Z")]
            {
                let start = Moment::read(word).unwrap();
                let on = |day| View { moment: start.minutes_later(day * DAY_MINUTES), offsets, spot };
                let days: Vec<UtcDay> = (0..12).map(|day| sky::utc_day(on(day), body).unwrap()).collect();
                for pair in days.windows(2) {
                    let (rise, set, curve) = of_two(&pair[0], &pair[1], DAY_MINUTES);
                    let RiseSet { rise_minute, set_minute } = pair[1].rise_set;
                    assert_eq!((rise, set), (rise_minute.map(usize::from), set_minute.map(usize::from)));
                    assert_eq!(curve, pair[1].elevations_e8);
                }
            }
        }
    }

    #[test]
    fn a_zones_day_has_the_first_of_each() {
        let (first, second) = (up_between(300, 1000), up_between(310, 990));
        for (begins, rise, set) in [
            (1, Some(299), Some(999)),
            (300, Some(0), Some(700)), // the minute before is the first's
            (301, None, Some(699)),    // what rises at 310 of the second is too late
            (1000, Some(750), Some(0)),
            (1439, Some(311), Some(991)),
        ] {
            let found = of_two(&first, &second, begins);
            assert_eq!((found.0, found.1, found.2.len()), (rise, set, DAY_MINUTES), "{begins}");
        }
    }

    fn day(rise: Option<usize>, set: Option<usize>, elevation_e8: i64) -> Day {
        let midnight = Moment::read("2026-11-15T00:00+13:00").unwrap();
        let at = |minute: Option<usize>| minute.map(|minute| midnight.minutes_later(minute));
        Day { body: Body::Sun, rise: at(rise), set: at(set), elevations_e8: vec![elevation_e8; DAY_MINUTES] }
    }

    #[test]
    fn a_day_is_told() {
        for (rise, set, sentence, short) in [
            (Some(361), Some(1081), "the Sun rises at 06:01 and sets at 18:01", "Sun: rises 06:01, sets 18:01"),
            (Some(1439), Some(0), "the Sun sets at 00:00 and rises at 23:59", "Sun: sets 00:00, rises 23:59"),
            (Some(361), None, "the Sun rises at 06:01 and does not set on this day", "Sun: rises 06:01, does not set"),
            (None, Some(361), "the Sun sets at 06:01 and does not rise on this day", "Sun: sets 06:01, does not rise"),
        ] {
            let day = day(rise, set, 0);
            assert_eq!((day.sentence().as_str(), day.short_words().as_str(), day.stays()), (sentence, short, None));
        }
        for (elevation_e8, sentence, short, stays) in [
            (RISE_SET_E8, "the Sun does not set: it stays up all day", "Sun: does not set, up all day", Stays::Up),
            (
                RISE_SET_E8 - 1,
                "the Sun does not rise: it stays below the horizon all day",
                "Sun: does not rise, down all day",
                Stays::Down,
            ),
        ] {
            let day = day(None, None, elevation_e8);
            assert_eq!((day.sentence().as_str(), day.short_words().as_str(), day.stays()), (sentence, short, Some(stays)));
        }
        assert_eq!(passed_degrees(), "-0.8333");
    }
}
