//! `raddlehue plan` and `raddlehue judge`: a short strip, a few turning points that stand for a day's azimuths.

mod forms;
pub mod judge;
pub mod plan;
mod points;
mod round;
mod sheet;
mod story;

use crate::decimal;
use crate::delta_t::Scales;
use crate::failure::{quoted, Failure};
use crate::format::body_name;
use crate::observer::{self, scales_words, Observer};
use crate::place::body;
use crate::sky::{self, Body, Place, TurningPoint, View, ANGLE_DECIMALS, DAY_MINUTES};
use crate::time::{Moment, MS_OF_MINUTE, UTC};
use crate::words::{Flag, Words};

const FLAGS: &[Flag] = &[("--tolerance", Some("degrees"))];

macro_rules! tolerance_help {
    () => {
        "  --tolerance DEG   how far off a minute may be: degrees from 0 up, with at most
                    8 decimals, like 3 or 0.05
"
    };
}
use tolerance_help;

/// What both commands ask: whose azimuths, on which date of UTC, from where, and how near.
struct Question {
    body: Body,
    observer: Observer,
    midnight: Moment,
    /// In 1e-8 degree, never below 0.
    tolerance_e8: i64,
}

impl Question {
    fn read(words: &Words) -> Result<Question, Failure> {
        let body = body(words.positional(0))?;
        let observer = Observer::read(words)?;
        let tolerance_e8 = tolerance(words.required("--tolerance")?)?;
        let midnight = Moment::midnight(words.positional(1), UTC)?;
        Ok(Question { body, observer, midnight, tolerance_e8 })
    }

    fn view(&self) -> View {
        self.observer.view(self.midnight)
    }

    fn scales(&self) -> Scales {
        self.observer.scales(self.midnight)
    }

    fn date(&self) -> String {
        self.midnight.clock().date.written()
    }

    fn time(&self, minute: u32) -> Moment {
        self.midnight.minutes_later(minute as usize)
    }

    /// "3 degrees".
    fn tolerance_words(&self) -> String {
        format!("{} degrees", decimal::short(self.tolerance_e8, ANGLE_DECIMALS, 0))
    }

    /// The lines of a heading, the first of which says what it is.
    fn heading(&self, what: &str) -> String {
        let scales = scales_words(self.scales());
        format!("{what} for the {} on {}, times in UTC\n{}\n{scales}", body_name(self.body), self.date(), self.observer.words())
    }

    /// The day's places, minute by minute.
    fn places(&self) -> Result<Vec<Place>, Failure> {
        let offsets: Vec<u32> = (0..DAY_MINUTES as u32).map(|minute| minute * MS_OF_MINUTE as u32).collect();
        Ok(sky::places(self.view(), self.body, &offsets)?)
    }
}

/// The points, and what they are for.
struct Plan {
    question: Question,
    points: Vec<TurningPoint>,
}

fn tolerance(word: &str) -> Result<i64, Failure> {
    const WOULD_BE: &str = "degrees from 0 up, with at most 8 decimals, like 3 or 0.05";
    match observer::number(word, "tolerance", ANGLE_DECIMALS, WOULD_BE)? {
        below if below < 0 => Err(Failure::Usage(format!("the tolerance {} is below 0; write {WOULD_BE}", quoted(word)))),
        units_e8 => Ok(units_e8),
    }
}

#[cfg(test)]
mod tests {
    use super::*;

    #[test]
    fn tolerances_are_read() {
        for (word, e8) in [("0", 0), ("-0", 0), ("3", 300_000_000), ("0.00000001", 1), ("92233720368.54775807", i64::MAX)] {
            assert_eq!(tolerance(word).unwrap(), e8, "{word}");
        }
        for word in
            ["", "-1", "-0.00000001", "0.000000001", "3°", "3,5", "1e-3", "inf", "nan", "+3", ".5", "92233720368.54775808"]
        {
            let failure = tolerance(word).unwrap_err();
            assert!(matches!(failure, Failure::Usage(_)) && failure.sentence().unwrap().contains(&quoted(word)), "{word:?}");
        }
    }
}
