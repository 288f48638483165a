// Rise and set against an outside ephemeris (tests/outside/riseset.csv: JPL's DE431), through the archive: a test of truth rather than of rules.
//
// The minute has to be the same. One minute of difference is allowed where the elevation at the earlier of the two lies within 0.0003 degree (Sun) or 0.005 degree
// (Moon) of the threshold. This is ours, as what tests/outside.rs allows for places, and came with the file; the reports state nothing of a minute.
use std::env;
use std::fs;
use std::process::exit;

mod archive;
use archive::{day, MINUTES, MOON, SUN, THRESHOLD};

const LINES: usize = 62;

// In 1e-8 degree.
const SUN_WITHIN: u64 = 30_000;
const MOON_WITHIN: u64 = 500_000;

fn fail(why: String) -> ! {
    eprintln!("riseset: {why}");
    exit(1)
}

fn number<T: std::str::FromStr>(word: &str) -> T {
    word.parse().unwrap_or_else(|_| fail(format!("'{word}' is no number")))
}

// A minute of the file, empty where there is none.
fn minute(word: &str) -> Option<usize> {
    if word.is_empty() {
        None
    } else {
        Some(number(word))
    }
}

// Whether a minute is the file's (`Some(true)`), or one beside it that is allowed.
fn agrees(ours: Option<usize>, theirs: Option<usize>, elevations: &[i64; MINUTES], within: u64) -> Option<bool> {
    match (ours, theirs) {
        _ if ours == theirs => Some(true),
        (Some(ours), Some(theirs)) if ours.abs_diff(theirs) == 1 => {
            (elevations[ours.min(theirs)].abs_diff(THRESHOLD) <= within).then_some(false)
        }
        _ => None,
    }
}

// How many of the line's two minutes are the file's own; where one is neither that nor allowed, the test ends.
fn same_minutes(line: &str) -> usize {
    let words: Vec<&str> = line.split(',').collect();
    let [_, numbers @ .., body, rise, set, _, _, _, _] = &words[..] else {
        fail(format!("'{line}' has too few words"))
    };
    let whole: Vec<i64> = numbers.iter().map(|word| number(word)).collect();
    let (body, within) = if *body == "moon" { (MOON, MOON_WITHIN) } else { (SUN, SUN_WITHIN) };
    let numbers = whole.first_chunk().unwrap_or_else(|| fail(format!("'{line}' has too few numbers")));
    let (refusal, day) = day(numbers, body);
    if refusal != 0 {
        fail(format!("{line}: refused {refusal}"));
    }
    let [has_rise, our_rise, has_set, our_set] = day.rise_set;
    let pairs = [(has_rise, our_rise, rise), (has_set, our_set, set)].map(|(has, ours, theirs)| {
        let ours = (has == 1).then_some(ours as usize);
        agrees(ours, minute(theirs), &day.elevations, within)
            .unwrap_or_else(|| fail(format!("{line}: ours is {ours:?}, of rise {:?} and set {:?}", minute(rise), minute(set))))
    });
    pairs.iter().filter(|same| **same).count()
}

fn main() {
    let path = env::args().nth(1).unwrap_or_else(|| fail("the file of days?".to_string()));
    let text = fs::read_to_string(&path).unwrap_or_else(|error| fail(format!("{path}: {error}")));
    let counts: Vec<usize> = text.lines().skip(1).map(same_minutes).collect();
    if counts.len() != LINES {
        fail(format!("{} lines, expected {LINES}", counts.len()));
    }
    let same: usize = counts.iter().sum();
    println!("riseset: {LINES} days, {same} of {} minutes the same, {} beside it and allowed", 2 * LINES, 2 * LINES - same);
}
