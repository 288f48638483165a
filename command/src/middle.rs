//! `raddlehue middle`: half way between two azimuths.

use crate::failure::{quoted, Failure};
use crate::format::{self, angle, format_help, Format, NONE};
use crate::observer::number;
use crate::sky;
use crate::words::{Command, Words};

pub const COMMAND: Command = Command {
    name: "middle",
    summary: "half way between two azimuths, the short way round",
    positional: &["A", "B"],
    flags: &[format::FLAGS],
    help: concat!(
        "raddlehue middle A B [flags]

The azimuth half way between two azimuths, the short way round. A and B are
whole numbers in units of 1e-8 degree, from 0 to 35999999999 (359.9 degrees is
35990000000); the answer is in the same unit, and in degrees.

",
        format_help!(),
        "
  raddlehue middle 35990000000 10000000
"
    ),
    run,
};

const WOULD_BE: &str = "a whole number of 1e-8 degree, like 35990000000 for 359.9 degrees";

// The word that the other commands print has a sentence of its own.
fn azimuth(word: &str) -> Result<i64, Failure> {
    if word == NONE {
        let why = "what stands straight overhead or straight underfoot has no direction";
        return Err(Failure::Usage(format!("the azimuth {} has no middle with another: {why}", quoted(word))));
    }
    number(word, "azimuth", 0, WOULD_BE)
}

fn run(words: &Words) -> Result<String, Failure> {
    let format = Format::read(words)?;
    let (a, b) = (azimuth(words.positional(0))?, azimuth(words.positional(1))?);
    let middle = sky::middle(a, b)?;
    let degrees = angle(middle);
    Ok(match format {
        Format::Text => format!("{middle} in units of 1e-8 degree\n{degrees} degrees\n"),
        Format::Json => format::json_object(&[format!("\"azimuth_e8\": {middle}, \"azimuth_degrees\": {degrees}")]),
        Format::Csv => format::csv("azimuth_e8,azimuth_degrees", [format!("{middle},{degrees}")]),
    })
}
