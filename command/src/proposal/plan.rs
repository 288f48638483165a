//! `raddlehue plan`: the turning points, as a table or as an SVG.

use super::round::HALF_TURN_E8;
use super::{forms, sheet, tolerance_help, Plan, Question, FLAGS};
use crate::failure::Failure;
use crate::format::{self, format_help, why_no_azimuth, Format};
use crate::observer::{self, observer_help};
use crate::sky::{self, Place};
use crate::words::{Command, Words};

pub const COMMAND: Command = Command {
    name: "plan",
    summary: "a day's azimuths as a few turning points; table or SVG",
    positional: &["sun|moon", "DATE"],
    flags: &[observer::FLAGS, FLAGS, format::FLAGS, &[("--picture", None)]],
    help: concat!(
        "raddlehue plan sun|moon DATE --lat DEG --lon DEG --tolerance DEG [flags]

Turning points that stand for a day's azimuths: minutes of the day, of which the
first is 0 and the last 1439, and the body's azimuth at each. From point to
point the azimuth goes in proportion to the time, the short way round. So at
every minute it lies within the tolerance of the body's own azimuth; without any
one inner point it would not. DATE is like 2026-11-15, a day of UTC. Delta-T is
that of the day's beginning. Where a minute of the day has no azimuth or two
adjacent minutes are exactly opposite, there is no plan, at any tolerance: that
gets a sentence and status 1.

",
        observer_help!(),
        tolerance_help!(),
        format_help!(),
        "  --picture         an SVG: the body's azimuth through the day, the tolerance as
                    a band about it, and the turning points

  raddlehue plan moon 2026-11-15 --lat 45.5S --lon 170.5E --tolerance 0.05
  raddlehue plan sun 2026-11-15 --lat 45 --lon 5 --tolerance 1 --picture > p.svg
"
    ),
    run,
};

fn run(words: &Words) -> Result<String, Failure> {
    let format = Format::read_or_picture(words)?;
    let question = Question::read(words)?;
    let tolerance_e8 = question.tolerance_e8.unsigned_abs();
    let Some(points) = sky::plan(question.view(), question.body, tolerance_e8)? else {
        return Err(sky::no_plan(&why(&question, &question.places()?)));
    };
    let plan = Plan { question, points };
    Ok(match format {
        None => sheet::drawn(&plan, &azimuths_e8(&plan.question.places()?)),
        Some(Format::Text) => forms::text(&plan),
        Some(Format::Json) => forms::json(&plan),
        Some(Format::Csv) => forms::csv(&plan),
    })
}

// Where there is a plan, every minute has one.
fn azimuths_e8(places: &[Place]) -> Vec<i64> {
    places.iter().filter_map(|place| place.azimuth_e8).collect()
}

/// The library gives both reasons for no plan; the day's places tell which it is, and when first.
fn why(question: &Question, places: &[Place]) -> String {
    let time = |minute: usize| question.midnight.minutes_later(minute).hour_and_minute();
    if let Some((minute, place)) = places.iter().enumerate().find(|(_, place)| place.azimuth_e8.is_none()) {
        return format!(" (at {} UTC {})", time(minute), why_no_azimuth(question.body, *place));
    }
    let opposite = |pair: &[i64]| (pair[1] - pair[0]).abs() == HALF_TURN_E8;
    match azimuths_e8(places).windows(2).position(opposite) {
        Some(minute) => format!(" (those of {} and {} UTC)", time(minute), time(minute + 1)),
        None => String::new(),
    }
}

#[cfg(test)]
mod tests {
    use super::*;
    use crate::words::Words;

    fn question() -> Question {
        let words = ["moon", "2026-11-15", "--lat", "5", "--lon", "5", "--tolerance", "0"].map(String::from);
        Question::read(&Words::read(&COMMAND, &words).unwrap_or_else(|_| panic!())).unwrap()
    }

    #[test]
    fn why_there_is_no_plan() {
        let place = |azimuth_e8| Place { azimuth_e8, elevation_e8: -8_999_999_993 };
        let underfoot = [Some(0), Some(HALF_TURN_E8), None, None].map(place);
        assert_eq!(why(&question(), &underfoot), " (at 00:02 UTC the Moon stands straight underfoot)");
        let opposite = [Some(7), Some(6), Some(HALF_TURN_E8 + 6), Some(6)].map(place);
        assert_eq!(why(&question(), &opposite), " (those of 00:01 and 00:02 UTC)");
        assert_eq!(why(&question(), &[Some(0), Some(HALF_TURN_E8 - 1)].map(place)), "");
    }
}
