//! Moments in ISO 8601: dates, times of the day with their zone, and what they are in UTC.

use crate::calendar::Date;
use crate::decimal;
use crate::failure::{quoted, Failure};
use crate::sky::{self, SECOND_DECIMALS, SECOND_MS};

pub const MS_OF_MINUTE: i64 = 60 * SECOND_MS;
pub const MS_OF_DAY: i64 = 24 * 60 * MS_OF_MINUTE;

const DATE_WOULD_BE: &str = "a date is written like 2026-11-15";
const TIME_WOULD_BE: &str = "a time is written like 2026-11-15T19:30Z, 2026-11-15T19:30:30.125Z or 2026-11-16T08:30+13:00";
const ZONE_WOULD_BE: &str = "a zone is written Z or like +13:00, from -12:00 to +14:00";

/// Of a time, and of seconds in an offset or a flag.
pub const TOO_FINE: &str = "it has more than three decimals of a second, and the rest would be lost";

// ---- zones

/// Minutes of a zone's clock ahead of UTC.
#[derive(Clone, Copy, Debug, PartialEq, Eq, PartialOrd)]
pub struct Zone {
    minutes: i64,
}

pub const UTC: Zone = Zone { minutes: 0 };

impl Zone {
    pub fn read(word: &str) -> Result<Zone, Failure> {
        Zone::parsed(word).ok_or_else(|| Failure::Usage(format!("the zone {} cannot be read: {ZONE_WOULD_BE}", quoted(word))))
    }

    // No clock on Earth is further from UTC than these, so that one that is has been mistyped.
    fn parsed(word: &str) -> Option<Zone> {
        if word == "Z" {
            return Some(UTC);
        }
        let &[sign, h1, h2, b':', m1, m2] = word.as_bytes() else { return None };
        let (hours, minutes) = (number(&[h1, h2])?, number(&[m1, m2])?);
        let minutes = match sign {
            b'+' => 60 * hours + minutes,
            b'-' if hours + minutes > 0 => -60 * hours - minutes,
            _ => return None,
        };
        let on_earth = number(&[m1, m2])? < 60 && (-12 * 60..=14 * 60).contains(&minutes);
        on_earth.then_some(Zone { minutes })
    }

    pub fn written(self) -> String {
        match self.minutes {
            0 => "Z".to_string(),
            ahead => format!("{}{:02}:{:02}", if ahead < 0 { '-' } else { '+' }, ahead.abs() / 60, ahead.abs() % 60),
        }
    }

    /// As a heading says it.
    pub fn words(self) -> String {
        if self == UTC {
            "UTC".to_string()
        } else {
            format!("UTC{}", self.written())
        }
    }
}

// ---- moments

/// A millisecond of UTC, counted from 2000-01-01 00:00, and the zone to write it in.
#[derive(Clone, Copy, Debug, PartialEq, Eq, PartialOrd)]
pub struct Moment {
    ms: i64,
    zone: Zone,
}

/// What a clock and a calendar in some zone show.
#[derive(Clone, Copy, Debug, PartialEq, Eq)]
pub struct Clock {
    pub date: Date,
    pub hour: i64,
    pub minute: i64,
    pub second: i64,
    pub millisecond: i64,
}

impl Clock {
    fn exists(self) -> bool {
        let Clock { date, hour, minute, second, millisecond } = self;
        date.exists()
            && (0..24).contains(&hour)
            && (0..60).contains(&minute)
            && (0..60).contains(&second)
            && (0..SECOND_MS).contains(&millisecond)
    }

    fn ms(self) -> i64 {
        let seconds = 3_600 * self.hour + 60 * self.minute + self.second;
        MS_OF_DAY * self.date.day_number() + SECOND_MS * seconds + self.millisecond
    }
}

impl Moment {
    /// A time that a zone's clock never shows is refused in the library's words.
    fn at(clock: Clock, zone: Zone) -> Result<Moment, Failure> {
        if !clock.exists() {
            return Err(sky::refused_clock(clock));
        }
        Ok(Moment { ms: clock.ms() - MS_OF_MINUTE * zone.minutes, zone })
    }

    /// A time with its zone, from one word.
    pub fn read(word: &str) -> Result<Moment, Failure> {
        let unread = || Failure::Usage(format!("the time {} cannot be read: {}", quoted(word), what_is_wrong(word)));
        let (clock, zone) = clock_and_zone(word).ok_or_else(unread)?;
        Moment::at(clock, zone)
    }

    /// The first moment of a date in a zone.
    pub fn midnight(word: &str, zone: Zone) -> Result<Moment, Failure> {
        let unread = || Failure::Usage(format!("the date {} cannot be read: {DATE_WOULD_BE}", quoted(word)));
        let date = date(word.as_bytes()).ok_or_else(unread)?;
        Moment::at(Clock { date, hour: 0, minute: 0, second: 0, millisecond: 0 }, zone)
    }

    /// The first moment of a date of UTC that exists.
    pub fn midnight_of(date: Date) -> Moment {
        Moment { ms: MS_OF_DAY * date.day_number(), zone: UTC }
    }

    pub fn later(self, ms: u32) -> Moment {
        Moment { ms: self.ms + i64::from(ms), ..self }
    }

    pub fn minutes_later(self, minutes: usize) -> Moment {
        Moment { ms: self.ms + MS_OF_MINUTE * minutes as i64, ..self }
    }

    /// Or earlier, where they are below zero.
    pub fn seconds_later(self, seconds: i64) -> Moment {
        Moment { ms: self.ms + SECOND_MS * seconds, ..self }
    }

    pub fn in_utc(self) -> Moment {
        Moment { zone: UTC, ..self }
    }

    /// What its zone's clock shows.
    pub fn clock(self) -> Clock {
        let local = self.ms + MS_OF_MINUTE * self.zone.minutes;
        let of_day = local.rem_euclid(MS_OF_DAY);
        Clock {
            date: Date::of_day_number(local.div_euclid(MS_OF_DAY)),
            hour: of_day / (60 * MS_OF_MINUTE),
            minute: of_day / MS_OF_MINUTE % 60,
            second: of_day / SECOND_MS % 60,
            millisecond: of_day % SECOND_MS,
        }
    }

    /// Whole minutes since the last midnight of its zone.
    pub fn minute_of_day(self) -> usize {
        let Clock { hour, minute, .. } = self.clock();
        (60 * hour + minute) as usize
    }

    pub fn zone(self) -> Zone {
        self.zone
    }

    /// Its UTC year, how much of it is over, and how long that year is, in milliseconds.
    pub fn of_year(self) -> (i64, i64, i64) {
        let year = self.in_utc().clock().date.year;
        let new_year = |year| MS_OF_DAY * Date { year, month: 1, day: 1 }.day_number();
        (year, self.ms - new_year(year), new_year(year + 1) - new_year(year))
    }

    /// In ISO 8601, with as many decimals of the second as it needs.
    pub fn written(self) -> String {
        let Clock { date, hour, minute, second, millisecond } = self.clock();
        // ".5" of "0.5", and nothing of "0".
        let decimals = decimal::short(millisecond, SECOND_DECIMALS, 0);
        let decimals = decimals.trim_start_matches('0');
        format!("{}T{hour:02}:{minute:02}:{second:02}{decimals}{}", date.written(), self.zone.written())
    }

    /// Hour and minute, for a table whose heading says the date and the zone.
    pub fn hour_and_minute(self) -> String {
        let Clock { hour, minute, .. } = self.clock();
        format!("{hour:02}:{minute:02}")
    }

    /// The same with the second.
    pub fn hour_minute_and_second(self) -> String {
        format!("{}:{:02}", self.hour_and_minute(), self.clock().second)
    }
}

// ---- reading

fn number(digits: &[u8]) -> Option<i64> {
    let all = digits.iter().all(u8::is_ascii_digit);
    all.then(|| digits.iter().fold(0, |sum, digit| 10 * sum + i64::from(digit - b'0')))
}

fn date(word: &[u8]) -> Option<Date> {
    let &[y1, y2, y3, y4, b'-', m1, m2, b'-', d1, d2] = word else { return None };
    Some(Date { year: number(&[y1, y2, y3, y4])?, month: number(&[m1, m2])?, day: number(&[d1, d2])? })
}

// Seconds, and decimals of them, may be left out.
fn clock_and_zone(word: &str) -> Option<(Clock, Zone)> {
    let (day, rest) = word.split_once('T')?;
    let date = date(day.as_bytes())?;
    let zone_at = rest.find(['Z', '+', '-'])?;
    let (time, zone) = rest.split_at(zone_at);
    let zone = Zone::parsed(zone)?;
    let (time, decimals) = time.split_once('.').map_or((time, None), |(time, decimals)| (time, Some(decimals)));
    let (h, m, s) = match *time.as_bytes() {
        [h1, h2, b':', m1, m2] if decimals.is_none() => ([h1, h2], [m1, m2], *b"00"),
        [h1, h2, b':', m1, m2, b':', s1, s2] => ([h1, h2], [m1, m2], [s1, s2]),
        _ => return None,
    };
    let millisecond = decimals.map_or(Some(0), milliseconds)?;
    Some((Clock { date, hour: number(&h)?, minute: number(&m)?, second: number(&s)?, millisecond }, zone))
}

fn milliseconds(decimals: &str) -> Option<i64> {
    decimal::read(&format!("0.{decimals}"), SECOND_DECIMALS as usize).ok()
}

// The two mistakes that are most easily made have sentences of their own.
fn what_is_wrong(word: &str) -> String {
    let tail = word.split_once('T').map_or("", |(_, tail)| tail);
    let decimals = tail.split_once('.').map_or(0, |(_, part)| part.bytes().take_while(u8::is_ascii_digit).count());
    if decimals > SECOND_DECIMALS as usize {
        format!("{TOO_FINE}; {TIME_WOULD_BE}")
    } else if !tail.is_empty() && !tail.contains(['Z', '+', '-']) {
        format!("it has no zone; {TIME_WOULD_BE}")
    } else {
        format!("{TIME_WOULD_BE}; {ZONE_WOULD_BE}")
    }
}

#[cfg(test)]
mod tests {
    use super::*;

    fn utc(word: &str) -> String {
        Moment::read(word).unwrap().in_utc().written()
    }

    fn sentence(word: &str) -> String {
        Moment::read(word).unwrap_err().sentence().unwrap()
    }

    #[test]
    fn times_are_read() {
        assert_eq!(utc("2026-11-15T19:30:30.5Z"), "2026-11-15T19:30:30.5Z");
        assert_eq!(utc("2026-11-15T19:30:30Z"), "2026-11-15T19:30:30Z");
        assert_eq!(utc("2026-11-15T19:30Z"), "2026-11-15T19:30:00Z");
        assert_eq!(utc("2026-11-16T08:30+13:00"), "2026-11-15T19:30:00Z");
        assert_eq!(utc("2026-12-31T23:59:59.999-00:30"), "2027-01-01T00:29:59.999Z");
        assert_eq!(utc("2101-01-01T05:00+13:00"), "2100-12-31T16:00:00Z");
        assert_eq!(Moment::read("2026-11-16T08:30+13:00").unwrap().written(), "2026-11-16T08:30:00+13:00");
    }

    #[test]
    fn decimals_of_a_second_are_kept() {
        for (decimals, millisecond, written) in [
            (".5", 500, ".5"),
            (".25", 250, ".25"),
            (".125", 125, ".125"),
            (".06", 60, ".06"),
            (".001", 1, ".001"),
            (".999", 999, ".999"),
            (".500", 500, ".5"),
            (".0", 0, ""),
            (".000", 0, ""),
        ] {
            let moment = Moment::read(&format!("2026-11-15T19:30:09{decimals}Z")).unwrap();
            assert_eq!((moment.clock().second, moment.clock().millisecond), (9, millisecond), "{decimals}");
            assert_eq!(moment.written(), format!("2026-11-15T19:30:09{written}Z"));
        }
        assert_eq!(Moment::read("1999-12-31T23:59:59.999Z").unwrap().later(1), Moment::read("2000-01-01T00:00Z").unwrap());
    }

    #[test]
    fn what_is_no_time_is_not_read() {
        let words = [
            "", "T", "Z", "2026-11-15", "2026-11-15T", "2026-11-15TZ", "2026-11-15T19Z", "2026-11-15 19:30Z",
            "2026-11-15t19:30z", "2026-11-15T19:30z", "2026-8-9T00:00Z", "26-11-15T19:30Z", "2026-11-15T9:30Z",
            "2026-11-15T19:30:30,5Z", "2026-11-15T19:30:30.Z", "2026-11-15T19:30:30.5", "2026-11-15T19:30+13",
            "2026-11-15T19:30.5Z", "2026-11-15T19:30:30.5.5Z", "2026-11-15T19:30:30.1234Z", "2026-11-15T19:30:30.0000Z",
            "2026-11-15T19:30:30.5 Z", "2026-11-15T19:30:30.1e1Z", "2026-11-15T19:30:30.٥Z", "2026-11-15T.5Z",
            "2026-11-15T19:30+1300", "2026-11-15T19:30-00:00", "2026-11-15T19:30+14:01", "2026-11-15T19:30-12:01",
            "2026-11-15T19:30+13:60", "2026-11-15T19:30Z ", " 2026-11-15T19:30Z", "2026-11-15T19:30ZZ", "2026-W46-7T19:30Z",
            "+2026-11-15T19:30Z",
        ];
        for word in words {
            assert!(matches!(Moment::read(word), Err(Failure::Usage(_))), "{word:?}");
            assert!(sentence(word).contains(&format!("{word:?}")), "{word:?}");
        }
        assert!(sentence("2026-11-15T19:30:30.1234Z").contains(TOO_FINE));
        assert!(sentence("2026-11-15T19:30:30").contains("no zone"));
    }

    #[test]
    fn what_no_clock_shows_is_refused_by_the_library() {
        let refusals = [
            ("2026-02-29T00:00Z", 3),
            ("2026-13-01T00:00Z", 2),
            ("2026-01-01T24:00Z", 4),
            ("2026-01-01T23:60Z", 4),
            ("2016-12-31T23:59:60Z", 4),
        ];
        for (word, number) in refusals {
            assert!(matches!(Moment::read(word), Err(Failure::Refused(..))), "{word}");
            assert!(sentence(word).contains(&format!("refused {number}:")), "{word}");
        }
        assert!(sentence("2101-02-30T00:00Z").contains("refused 1:"));
        assert!(sentence("2026-02-30T00:00+13:00").contains("refused 3:"));
    }

    #[test]
    fn zones_are_read() {
        for (word, minutes) in
            [("Z", 0), ("+00:00", 0), ("+13:00", 780), ("-12:00", -720), ("+05:45", 345), ("-03:30", -210), ("+14:00", 840)]
        {
            assert_eq!(Zone::read(word).unwrap(), Zone { minutes }, "{word}");
        }
        for word in ["", "13:00", "+13", "+1300", "UTC", "z", "+24:00", "-00:00", "+1:00", "+13:5", "NZDT", "\u{2212}03:00"] {
            assert!(matches!(Zone::read(word), Err(Failure::Usage(_))), "{word:?}");
        }
    }

    #[test]
    fn midnight_is_that_of_the_zone() {
        let midnight = Moment::midnight("2026-11-15", Zone::read("+13:00").unwrap()).unwrap();
        assert_eq!(midnight.in_utc().written(), "2026-11-14T11:00:00Z");
        assert_eq!(midnight.later(3_600_000).hour_and_minute(), "01:00");
        let later = midnight.minutes_later(61);
        assert_eq!((later.hour_and_minute(), later.minute_of_day(), later.in_utc().minute_of_day()), ("01:01".into(), 61, 721));
        let earlier = midnight.seconds_later(-1);
        assert_eq!(
            (earlier.hour_minute_and_second(), earlier.written()),
            ("23:59:59".into(), "2026-11-14T23:59:59+13:00".into())
        );
        for word in ["", "2026", "2026-8-9", "20261115", "2026-11-15T00:00Z", "15.11.2026", "2026-11-1x", "２０２６-11-15"] {
            assert!(matches!(Moment::midnight(word, UTC), Err(Failure::Usage(_))), "{word:?}");
        }
    }

    #[test]
    fn the_part_of_a_year() {
        let moment = Moment::read("2024-12-31T00:00Z").unwrap();
        assert_eq!(moment.of_year(), (2024, 365 * MS_OF_DAY, 366 * MS_OF_DAY));
    }
}
