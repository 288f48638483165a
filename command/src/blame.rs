//! Which words of the command line a refusal of the library is about.

use crate::failure::{quoted, Failure};
use crate::words::Words;

/// The same failure, with the words at fault in front of the library's sentence.
pub fn named(failure: Failure, words: &Words) -> Failure {
    match failure {
        Failure::Refused(number, sentence) => match at_fault(number, words) {
            Some(word) => Failure::Refused(number, format!("{word}: {sentence}")),
            None => Failure::Refused(number, sentence),
        },
        other => other,
    }
}

// The moment is a track's --start, or else the last word that is no flag.
fn at_fault(number: u32, words: &Words) -> Option<String> {
    let flag = match number {
        1..=4 | 13 => "--start",
        5 => "--ut1",
        6 => "--delta-t",
        7 => "--lon",
        8 => "--lat",
        9 => "--height",
        10 => "--pressure",
        11 => "--temperature",
        25 => "--step",
        31 => "--tolerance",
        14 | 15 => return Some(words.all_positional().map(quoted).collect::<Vec<_>>().join(" and ")),
        _ => return None,
    };
    match words.value(flag) {
        // The library's sentence has these in milliseconds: 900 for 0.9 would seem to be within them.
        Some(value) if matches!(number, 5 | 6) => Some(format!("in seconds, {flag} {}", quoted(value))),
        Some(value) => Some(format!("{flag} {}", quoted(value))),
        None if flag == "--start" => words.all_positional().last().map(quoted),
        None => None,
    }
}
