//! The argument sheet: TT, L' and mean sidereal time for each line of nine whole numbers.

use crate::instant::{Instant, Time};
use crate::moon::mean_longitude;
use crate::request::Start;
use crate::sidereal::mean_sidereal;

/// The first line of every sheet.
pub const HEADER: &str = "TT LPRIME GMST";

/// Most bytes of a line, before its newline.
const LINE_BYTES: usize = 80;
/// Most digits of a number.
const DIGITS: usize = 9;

/// The whole sheet for an input, each of its lines ended by a newline.
pub fn sheet(input: &[u8]) -> String {
    let mut output = format!("{HEADER}\n");
    for line in lines(input) {
        output.push_str(&sheet_line(line));
        output.push('\n');
    }
    output
}

/// The answer to one line, both without a newline: TT (milliseconds), L' and mean sidereal time (10⁻⁸ degree), or
/// the refusal (16 for a line of another form, or 1 to 6).
pub fn sheet_line(line: &[u8]) -> String {
    match arguments(line) {
        Ok([tt, mean_longitude, sidereal]) => format!("{tt} {mean_longitude} {sidereal}"),
        Err(number) => format!("refused {number}"),
    }
}

/// The lines of an input; nothing follows a final newline.
fn lines(input: &[u8]) -> impl Iterator<Item = &[u8]> {
    input.split_inclusive(|&byte| byte == b'\n').map(|line| line.strip_suffix(b"\n").unwrap_or(line))
}

fn arguments(line: &[u8]) -> Result<[i64; 3], u8> {
    let start = parse(line).ok_or(16)?;
    let instant = Instant::new(&start)?;
    Ok([instant.tt, mean_longitude(&Time::new(instant.tt)), mean_sidereal(instant.ut)])
}

/// The nine numbers of a line with single spaces between them.
fn parse(line: &[u8]) -> Option<Start> {
    if line.len() > LINE_BYTES {
        return None;
    }
    let mut words = line.split(|&byte| byte == b' ');
    let mut numbers = [0; 9];
    for value in &mut numbers {
        *value = number(words.next()?)?;
    }
    if words.next().is_some() {
        return None;
    }
    let [year, month, day, hour, minute, second, millisecond, ut1, delta_t] = numbers;
    Some(Start { year, month, day, hour, minute, second, millisecond, ut1, delta_t })
}

/// A whole number: an optional minus and 1 to 9 digits.
fn number(word: &[u8]) -> Option<i64> {
    let (sign, digits) = match word.strip_prefix(b"-") {
        Some(digits) => (-1, digits),
        None => (1, word),
    };
    if digits.is_empty() || digits.len() > DIGITS || !digits.iter().all(u8::is_ascii_digit) {
        return None;
    }
    Some(sign * digits.iter().fold(0, |value, digit| 10 * value + i64::from(digit - b'0')))
}
