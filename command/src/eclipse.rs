//! `raddlehue eclipse`: how much of the Sun the Moon covers through a day, as a table or as an SVG.

mod course;
mod disks;
mod forms;
mod phase;
mod report;
mod sheet;
mod story;
mod told;

use crate::failure::Failure;
use crate::format::{self, format_help, Format};
use crate::observer::{self, observer_help, zone_help, Observer};
use crate::time::Moment;
use crate::words::{Command, Words};
use report::Report;

pub const COMMAND: Command = Command {
    name: "eclipse",
    summary: "how much of the Sun is covered, and when; table or SVG",
    positional: &["DATE"],
    flags: &[observer::FLAGS, observer::ZONE, format::FLAGS, &[("--picture", None)]],
    help: concat!(
        "raddlehue eclipse DATE --lat DEG --lon DEG [flags]

Whether the Moon covers the Sun on a day, seen from one place: first contact,
maximum (the greatest cover, where the Moon's disk reaches deepest into the
Sun's), last contact, and where there is one the beginning and the end of
totality or of the ring; at each the covered share of the Sun's disk and where
the Sun stands. Above them is what kind it is, and the maximum while the Sun is
up: while its centre is at -0.8333 degrees or above, without refraction.

DATE is like 2026-08-12, a day of the zone. An eclipse of which any part falls
on that day is told as a whole; a time on the day before or after has its date.
Delta-T is that of the day's beginning. Times are worked to the second; against
JPL's DE431 the Moon is up to 0.002 degree off, which moves a contact by ten or
twenty seconds, and by more where the Moon only grazes the Sun.

",
        observer_help!(),
        zone_help!(),
        format_help!(),
        "  --picture         an SVG: the covered share through the eclipse, and the two
                    disks at each phase as one faces the Sun, the zenith up

  raddlehue eclipse 2026-08-12 --lat 42.34N --lon 3.7W --zone +02:00
  raddlehue eclipse 2026-08-12 --lat 42.34N --lon 3.7W --picture > eclipse.svg
"
    ),
    run,
};

fn run(words: &Words) -> Result<String, Failure> {
    let format = Format::read_or_picture(words)?;
    let observer = Observer::read(words)?;
    let midnight = Moment::midnight(words.positional(0), observer::zone(words)?)?;
    let report = Report::of(observer, midnight)?;
    Ok(match format {
        None => sheet::drawn(&report, &report.curve()?),
        Some(Format::Text) => forms::text(&report),
        Some(Format::Json) => forms::json(&report),
        Some(Format::Csv) => forms::csv(&report),
    })
}
