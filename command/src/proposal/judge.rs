//! `raddlehue judge`: the watch's verdict on turning points.

use super::{points, tolerance_help, Question, FLAGS};
use crate::failure::Failure;
use crate::format::body_name;
use crate::input;
use crate::observer::{self, observer_help};
use crate::sky;
use crate::words::{Command, Words};

pub const COMMAND: Command = Command {
    name: "judge",
    summary: "the watch's verdict on turning points on standard input",
    positional: &["sun|moon", "DATE"],
    flags: &[observer::FLAGS, FLAGS],
    help: concat!(
        "raddlehue judge sun|moon DATE --lat DEG --lon DEG --tolerance DEG [flags]
                < POINTS

The watch's verdict on turning points, as plan --csv writes them: accepted where
at every minute they lie within the tolerance of the body's azimuth, the short
way round; a minute at which the body has no azimuth is not compared. Otherwise
a sentence says what is wrong, with the library's number and the first minute
out of tolerance, and the status is 1. DATE is like 2026-11-15, a day of UTC.

The first line of POINTS names the columns. Two are needed, minute (0 to 1439)
and azimuth_degrees; a time or a body that stands beside them has to agree with
them and with the words above. Other columns are not read.

",
        observer_help!(),
        tolerance_help!(),
        "
  raddlehue judge sun 2026-11-15 --lat 45 --lon 5 --tolerance 1 < points.csv
"
    ),
    run,
};

fn run(words: &Words) -> Result<String, Failure> {
    let question = Question::read(words)?;
    let lines = input::lines(&input::standard_input()?)?;
    let points = points::read(&lines, &question)?;
    sky::judge(question.view(), question.body, question.tolerance_e8.unsigned_abs(), &points)
        .map_err(|failure| points::at_fault(failure, &points, &lines))?;
    Ok(format!(
        "{}{} turning points, tolerance {}\naccepted: they lie within the tolerance at every minute at which the {} has an azimuth\n",
        question.heading("Verdict on a proposal"),
        points.len(),
        question.tolerance_words(),
        body_name(question.body)
    ))
}
