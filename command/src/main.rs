//! `raddlehue`: where the Sun and the Moon stand, for people.
//!
//! Answers go to the standard output, sentences to the standard error; the status is 0, 1 where an answer is refused or cannot be written, and 2 where the words of the
//! command line are not right. An answer is complete before the first byte of it is written. What is proved is the library below (`sky` has every call of it), not this
//! program: reading words, zones, the table of delta-T and the pictures are ordinary Rust with tests.
#![forbid(unsafe_code)]

mod batch;
mod blame;
mod calendar;
mod day;
mod decimal;
mod delta_t;
mod eclipse;
mod failure;
mod format;
mod input;
mod middle;
mod observer;
mod picture;
mod place;
mod proposal;
mod rise_set;
mod sky;
mod strip;
mod svg;
mod time;
mod words;
mod year;

use failure::{quoted, Failure};
use std::ffi::OsString;
use std::io::{self, Write};
use std::process::ExitCode;
use words::{Command, Words};

const COMMANDS: [&Command; 12] = [
    &day::COMMAND,
    &place::COMMAND,
    &batch::COMMAND,
    &middle::COMMAND,
    &eclipse::COMMAND,
    &picture::COMMAND,
    &year::COMMAND,
    &strip::make::COMMAND,
    &strip::show::COMMAND,
    &strip::find::COMMAND,
    &proposal::plan::COMMAND,
    &proposal::judge::COMMAND,
];

const ABOUT: &str = "raddlehue: where the Sun and the Moon stand
";

const NOTES: &str = "
raddlehue COMMAND --help says a command's words; there is raddlehue --version.

Dates are like 2026-11-15, times like 2026-11-15T19:30:30.125Z (seconds, with up
to three decimals, may be left out) or 2026-11-16T08:30+13:00, from 1900 to
2100. Degrees have a point and at most 7 decimals: 45.5, 45.5N, -105.1786 or
105.1786W. Azimuth counts from north over east, elevation from the horizon
upward. A body straight overhead or straight underfoot has no azimuth: there it
reads none, in JSON null, and in CSV it is empty.

UT1 minus UTC is 0 and delta-T (TT minus UT1) comes from a table of years unless
--ut1 and --delta-t give them, and every answer says both. The table (Swiss
Ephemeris 2.10, a straight line from 1 January to 1 January) is a convenience
outside the proofs: observed to about 2022, a forecast after that, from which
other models differ by tens of seconds in 2050 and by more than a minute in
2100. A second of delta-T moves the Moon by about 0.00015 degree.

Answers go to standard output, sentences to standard error. Status: 0; 1 where
an answer is refused or cannot be written; 2 where the words are not right.
";

fn help() -> String {
    let mut text = format!("{ABOUT}\n");
    for command in COMMANDS {
        text += &format!("  raddlehue {:<11} {}\n", command.name, command.summary);
    }
    text + NOTES
}

fn text_of(word: OsString) -> Result<String, Failure> {
    word.into_string()
        .map_err(|word| Failure::Usage(format!("the word {} is not text in UTF-8", quoted(&word.to_string_lossy()))))
}

fn is_help(word: &str) -> bool {
    matches!(word, "--help" | "-h")
}

// The words after a command's name, which has one word or two.
fn rest_after<'a>(name: &str, given: &'a [String]) -> Option<&'a [String]> {
    let (first, rest) = given.split_at_checked(name.split(' ').count())?;
    name.split(' ').eq(first).then_some(rest)
}

// A first word that names no command by itself: the pages of those whose names begin with it, or what is wrong.
fn family(first: &str, rest: &[String]) -> Result<String, Failure> {
    let begins = |command: &&Command| command.name.split(' ').next() == Some(first);
    let (names, pages): (Vec<&str>, Vec<&str>) =
        COMMANDS.into_iter().filter(begins).map(|command| (command.name, command.help)).unzip();
    if names.is_empty() {
        return Err(Failure::Usage(format!("the command {} is unknown; see raddlehue --help", quoted(first))));
    }
    if rest.iter().any(|word| is_help(word)) {
        return Ok(pages.join("\n"));
    }
    let wrong = match rest.first() {
        Some(word) => format!("the word {} after {first} is unknown", quoted(word)),
        None => format!("a word is missing after {first}"),
    };
    Err(Failure::Usage(format!("{wrong}: there are {}; see raddlehue {first} --help", names.join(", "))))
}

fn answer(given: impl Iterator<Item = OsString>) -> Result<String, Failure> {
    let given: Vec<String> = given.map(text_of).collect::<Result<_, _>>()?;
    let Some((first, rest)) = given.split_first() else {
        return Err(Failure::Usage("a command is missing; see raddlehue --help".to_string()));
    };
    if is_help(first) {
        return Ok(help());
    }
    if first == "--version" {
        if let Some(extra) = rest.first() {
            return Err(Failure::Usage(format!("the word {} is one too many after --version", quoted(extra))));
        }
        return Ok(format!("raddlehue {} (library {})\n", env!("CARGO_PKG_VERSION"), sky::VERSION));
    }
    let Some((command, rest)) = COMMANDS.into_iter().find_map(|command| Some((command, rest_after(command.name, &given)?)))
    else {
        return family(first, rest);
    };
    if rest.iter().any(|word| is_help(word)) {
        return Ok(command.help.to_string());
    }
    let words = Words::read(command, rest)?;
    (command.run)(&words).map_err(|failure| blame::named(failure, &words))
}

fn write(text: &str) -> Result<(), Failure> {
    let mut output = io::stdout().lock();
    output
        .write_all(text.as_bytes())
        .and_then(|()| output.flush())
        .map_err(|error| Failure::Broken("the answer cannot be written", error))
}

fn main() -> ExitCode {
    match answer(std::env::args_os().skip(1)).and_then(|text| write(&text)) {
        Ok(()) => ExitCode::SUCCESS,
        Err(failure) => {
            if let Some(sentence) = failure.sentence() {
                // Where even this cannot be written, the status is all that is left.
                let _ = writeln!(io::stderr(), "raddlehue: {sentence}");
            }
            ExitCode::from(failure.status())
        }
    }
}
