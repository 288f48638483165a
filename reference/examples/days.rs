//! Lines of days, read from standard input, with their answers worked anew; a comment stays as it is.
//!
//! `cargo run --release --example days < ../tests/vectors/days.txt` prints that file; its head says what a line holds.

use std::io::{self, Read, Write};
use std::process::ExitCode;

use raddlehue_reference::day::MINUTES;
use raddlehue_reference::{day, Body, Date, Point};

/// Minutes whose elevations a line shows.
const SHOWN: [usize; 3] = [0, 720, 1439];

fn digest(elevations: &[i64; MINUTES]) -> u64 {
    elevations
        .iter()
        .fold(0xcbf2_9ce4_8422_2325, |sum, &elevation| (sum ^ elevation as u64).wrapping_mul(0x100_0000_01b3))
}

/// The body and the eight numbers of a question, where it is one.
fn question(words: &[&str]) -> Option<(Body, Date, Point)> {
    let ["day", body, numbers @ ..] = words else { return None };
    let body = [("sun", Body::Sun), ("moon", Body::Moon)].into_iter().find(|(name, _)| name == body)?.1;
    let numbers = numbers.iter().map(|word| word.parse().ok()).collect::<Option<Vec<i64>>>()?;
    let [year, month, day, ut1, delta_t, longitude, latitude, height] = numbers[..] else { return None };
    Some((body, Date { year, month, day, ut1, delta_t }, Point { longitude, latitude, height }))
}

fn answer(body: Body, date: Date, point: Point) -> String {
    let mut elevations = [0; MINUTES];
    match day(date, body, point, &mut elevations) {
        Err(refusal) => refusal.to_string(),
        Ok(found) => {
            let minutes = [found.rise, found.set].map(|minute| minute.map_or("-".to_string(), |at| at.to_string()));
            let shown = SHOWN.map(|minute| elevations[minute].to_string());
            format!("0 {} {:016x} {}", minutes.join(" "), digest(&elevations), shown.join(" "))
        }
    }
}

/// The line with its answer, or nothing where it is no question.
pub fn answered(line: &str) -> Option<String> {
    if line.starts_with('#') {
        return Some(line.to_string());
    }
    let asked = line.split('|').next()?.trim_end();
    let (body, date, point) = question(&asked.split(' ').collect::<Vec<_>>())?;
    Some(format!("{asked} | {}", answer(body, date, point)))
}

fn run() -> Result<(), String> {
    let mut text = String::new();
    io::stdin().read_to_string(&mut text).map_err(|error| format!("standard input: {error}"))?;
    let mut lines = String::new();
    for line in text.lines() {
        lines += &answered(line).ok_or_else(|| format!("'{line}' is no day"))?;
        lines.push('\n');
    }
    io::stdout().write_all(lines.as_bytes()).map_err(|error| format!("standard output: {error}"))
}

fn main() -> ExitCode {
    match run() {
        Ok(()) => ExitCode::SUCCESS,
        Err(why) => {
            eprintln!("days: {why}");
            ExitCode::FAILURE
        }
    }
}
