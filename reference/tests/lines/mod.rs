//! The repository's lines of numbers, for the tests that read them.

use std::fs;
use std::path::Path;

use raddlehue_reference::{Point, Start};

/// A file of the repository's tests.
pub fn read(name: &str) -> String {
    let path = Path::new(env!("CARGO_MANIFEST_DIR")).join("../tests").join(name);
    fs::read_to_string(path).expect("the file is in the repository")
}

pub fn whole(word: &str) -> i64 {
    word.parse().unwrap_or_else(|_| panic!("not a whole number: {word}"))
}

pub fn wholes(text: &str) -> Vec<i64> {
    text.split_whitespace().map(whole).collect()
}

pub fn exactly<const N: usize>(text: &str) -> [i64; N] {
    wholes(text).try_into().unwrap_or_else(|_| panic!("not {N} numbers: {text}"))
}

/// A start and a point from twelve numbers.
pub fn start_and_point(text: &str) -> (Start, Point) {
    let [year, month, day, hour, minute, second, millisecond, ut1, delta_t, longitude, latitude, height] =
        exactly(text);
    let start = Start { year, month, day, hour, minute, second, millisecond, ut1, delta_t };
    (start, Point { longitude, latitude, height })
}
