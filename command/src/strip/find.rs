//! `raddlehue strip find`: which of two strips bears a date, and its azimuths.

use super::{file, forms};
use crate::failure::{quoted, Failure};
use crate::format::{self, format_help, Format};
use crate::sky::{self, Which};
use crate::time::{Moment, UTC};
use crate::words::{Command, Words};
use forms::Found;

pub const COMMAND: Command = Command {
    name: "strip find",
    summary: "which of two day strips bears a date, and what it says",
    positional: &["FIRST", "SECOND", "DATE"],
    flags: &[format::FLAGS],
    help: concat!(
        "raddlehue strip find FIRST SECOND DATE [flags]

Which of two day strips bears a date of UTC, the first if both do, where its
azimuths lie in the file, and what it says, as strip show has it. Both files are
judged as a whole, whichever it is: the first one's refusal comes first, then
the second one's, then that neither bears the date. DATE is like 2026-11-15.

",
        format_help!(),
        "
  raddlehue strip find today.strip tomorrow.strip 2026-11-16
"
    ),
    run,
};

fn run(words: &Words) -> Result<String, Failure> {
    let format = Format::read(words)?;
    let names = [words.positional(0), words.positional(1)];
    let date = Moment::midnight(words.positional(2), UTC)?.clock().date;
    let [first, second] = [file::read(names[0])?, file::read(names[1])?];
    let found = sky::find_strip(&first, &second, date).map_err(|refused| match refused.at {
        Some(which) => refused.failure.about(of_both(which, names)),
        None => refused.failure.about(words.positional(2)),
    })?;
    let strip = sky::strip(of_both(found.which, [&first, &second]))?;
    let name = quoted(of_both(found.which, names));
    Ok(forms::told(format, strip, Some(Found { which: found.which, name, length: found.azimuth_bytes.len() })))
}

fn of_both<T>(which: Which, [first, second]: [T; 2]) -> T {
    match which {
        Which::First => first,
        Which::Second => second,
    }
}
