// Every line of sums in tests/vectors/places.txt and milliseconds.txt, and instants out of reach, through the archive.
use std::env;
use std::fs;
use std::process::exit;

mod archive;
use archive::{mean_sidereal, moon_sums, nutation, sun_sums, POISON};

// 1.011 centuries, in milliseconds.
const FURTHEST: i64 = 36_525 * 86_400_000 * 1011 / 1000;

const OUT_OF_REACH: u32 = 104;

const VECTORS: usize = 65 + 50;

fn fail(why: String) -> ! {
    eprintln!("sums: {why}");
    exit(1)
}

fn number(word: &str) -> i64 {
    word.parse().unwrap_or_else(|_| fail(format!("'{word}' is no number")))
}

// What the archive answers at one instant, by export: the refusal, and what was written.
fn answers(n: i64) -> [(u32, Vec<i64>); 4] {
    let [moon, sun, nutation] = [moon_sums(n), sun_sums(n), nutation(n)].map(|(refusal, sums)| (refusal, sums.to_vec()));
    let (refusal, sidereal) = mean_sidereal(n);
    [moon, sun, nutation, (refusal, vec![sidereal])]
}

fn compare(n: i64, refusal: u32, expected: &[Vec<i64>]) {
    let answers = answers(n);
    if expected.len() != answers.len() {
        fail(format!("{n}: {} groups of values", expected.len()));
    }
    for ((number, values), wanted) in answers.iter().zip(expected) {
        if *number != refusal || values != wanted {
            fail(format!("{n}: refusal {number} and {values:?}, expected {refusal} and {wanted:?}"));
        }
    }
}

fn vectors(path: &str) -> usize {
    let text = fs::read_to_string(path).unwrap_or_else(|error| fail(format!("{path}: {error}")));
    let mut count = 0;
    for line in text.lines() {
        if let Some(rest) = line.strip_prefix("sums ") {
            let mut groups = rest.split(" | ");
            let n = number(groups.next().unwrap_or(""));
            let expected: Vec<Vec<i64>> =
                groups.map(|group| group.split_whitespace().map(number).collect()).collect();
            compare(n, 0, &expected);
            count += 1;
        }
    }
    count
}

// The last instants within reach are answered; those beyond are refused, and nothing is written.
fn reach() {
    for n in [-FURTHEST, FURTHEST] {
        if answers(n).iter().any(|(refusal, _)| *refusal != 0) {
            fail(format!("{n} is out of reach"));
        }
    }
    let nothing = [3, 3, 3, 1].map(|length| vec![POISON; length]);
    for n in [i64::MIN, i64::MIN + 1, -2 * FURTHEST, -FURTHEST - 1, FURTHEST + 1, 1 << 42, i64::MAX - 1, i64::MAX] {
        compare(n, OUT_OF_REACH, &nothing);
    }
}

fn main() {
    let count: usize = env::args().skip(1).map(|path| vectors(&path)).sum();
    if count != VECTORS {
        fail(format!("{count} vectors, expected {VECTORS}"));
    }
    reach();
    println!("sums: {count} vectors come out");
}
