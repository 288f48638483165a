//! `raddlehue strip make`: a day's azimuths into a file.

use super::{air_words, file};
use crate::failure::{quoted, Failure};
use crate::format;
use crate::observer::{self, observer_help, scales_words, Observer};
use crate::place::body;
use crate::sky;
use crate::strip::forms::counted;
use crate::time::{Moment, UTC};
use crate::words::{Command, Flag, Words};

const FLAGS: &[Flag] = &[("--step", Some("minutes")), ("--out", Some("a file"))];

pub const COMMAND: Command = Command {
    name: "strip make",
    summary: "a day strip, the azimuths of a day, into a file",
    positional: &["sun|moon", "DATE"],
    flags: &[observer::FLAGS, FLAGS],
    help: concat!(
        "raddlehue strip make sun|moon DATE --lat DEG --lon DEG --out FILE [flags]

Writes a day strip: 18 bytes that say air, body, date, point and step, and an
azimuth for each step from 00:00 UTC on, in units of 1e-7 degree, rounded down.
DATE is like 2026-11-15, a day of UTC. Delta-T is that of the day's beginning;
it, UT1 minus UTC and the height are worked with, and are not in the file. The
air is none: no air changes an azimuth. A file that is there already is not
overwritten.

",
        observer_help!(),
        "  --step MIN        minutes from azimuth to azimuth: 1, 2, 5 or 10; 10 unless
                    given
  --out FILE        the file to write: 594 bytes at step 10, 5778 at step 1

  raddlehue strip make moon 2026-11-15 --lat 45.5S --lon 170.5E --out m.strip
"
    ),
    run,
};

fn run(words: &Words) -> Result<String, Failure> {
    let body = body(words.positional(0))?;
    let observer = Observer::read(words)?;
    let step_minutes = words.value("--step").map_or(Ok(10), |word| observer::number(word, "step", 0, "1, 2, 5 or 10"))?;
    let name = out(words)?;
    let midnight = Moment::midnight(words.positional(1), UTC)?;
    let bytes = sky::strip_of_day(observer.view(midnight), body, step_minutes)?;
    let strip = sky::strip(&bytes)?;
    file::write_new(name, &bytes)?;
    Ok(format!(
        "Strip of the {} on {} UTC, air {}\n{}\n{}{}\n{} bytes are written to {}\n",
        format::body_name(body),
        midnight.clock().date.written(),
        air_words(strip.air()),
        observer.words(),
        scales_words(observer.scales(midnight)),
        counted(strip),
        bytes.len(),
        quoted(name)
    ))
}

// A dash is the standard output to many programs, and would be a file here.
fn out(words: &Words) -> Result<&str, Failure> {
    match words.required("--out")? {
        word @ ("" | "-") => Err(words.usage(&format!("the flag \"--out\" needs a file after it, and {} is none", quoted(word)))),
        name => Ok(name),
    }
}
