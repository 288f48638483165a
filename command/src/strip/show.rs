//! `raddlehue strip show`: what a strip says.

use super::{file, forms};
use crate::failure::Failure;
use crate::format::{self, format_help, Format};
use crate::sky;
use crate::words::{Command, Words};

pub const COMMAND: Command = Command {
    name: "strip show",
    summary: "what a day strip says, as a table",
    positional: &["FILE"],
    flags: &[format::FLAGS],
    help: concat!(
        "raddlehue strip show FILE [flags]

What a day strip says: body, date, air, point and step, how many azimuths it has
and how many are absent, and each of them with its time. Air is none; an old
strip, whose air byte is 1, says that it is measured at 1010 mbar and 10 degrees
Celsius, and carried over: carried_over in the other forms, with both numbers
beside it in JSON. A file that is no strip is refused, by the number and the
sentence of the library.

",
        format_help!(),
        "
  raddlehue strip show m.strip
"
    ),
    run,
};

fn run(words: &Words) -> Result<String, Failure> {
    let format = Format::read(words)?;
    let name = words.positional(0);
    let bytes = file::read(name)?;
    let strip = sky::strip(&bytes).map_err(|failure| failure.about(name))?;
    Ok(forms::told(format, strip, None))
}
