// Every sine, cosine, arctangent and root of tests/vectors/leaves.txt, roots at every edge of a number's digits, and every day from 1899 to 2101, through the archive.
use std::env;
use std::fs;

mod archive;
use archive::{day_count, raddlehue_arctangent, raddlehue_cosine, raddlehue_root, raddlehue_sine, NO_DIRECTION, POISON};

// A line's numbers; of two zeros the arctangent is `none`, which is one number for C.
fn numbers(text: &str) -> Vec<i64> {
    let number = |word: &str| if word == "none" { NO_DIRECTION } else { word.parse().unwrap() };
    text.split_whitespace().map(number).collect()
}

// What the archive answers to a line of a kind that it has.
fn answer(kind: &str, input: &[i64]) -> Option<Vec<i64>> {
    unsafe {
        match kind {
            "sine" => Some(vec![raddlehue_sine(input[0]), raddlehue_cosine(input[0])]),
            "atan" => Some(vec![raddlehue_arctangent(input[0], input[1])]),
            "root" => Some(vec![raddlehue_root(input[0] as u64) as i64]),
            _ => None,
        }
    }
}

fn is_leap(year: i64) -> bool {
    year % 4 == 0 && (year % 100 != 0 || year % 400 == 0)
}

// The calendar walked day by day, with numbers of every size around each month.
fn calendar() -> usize {
    let mut count = 0;
    let mut days = -36524;
    let lengths = [31, 28, 31, 30, 31, 30, 31, 31, 30, 31, 30, 31];
    for year in 1899..=2101 {
        let known = (1900..=2100).contains(&year);
        for month in 0..=13 {
            let length = if (1..=12).contains(&month) {
                lengths[month as usize - 1] + (month == 2 && is_leap(year)) as i64
            } else {
                0
            };
            for day in [i64::MIN, -1, 0].into_iter().chain(1..=32).chain([i64::MAX]) {
                let refusal = if !known {
                    1
                } else if length == 0 {
                    2
                } else if day < 1 || length < day {
                    3
                } else {
                    0
                };
                let written = if refusal == 0 { days } else { POISON };
                assert_eq!(day_count(year, month, day), (refusal, written), "{year}-{month}-{day}");
                days += (refusal == 0) as i64;
                count += 1;
            }
        }
    }
    assert_eq!(days, 36890);
    count
}

// The root by what it is, the greatest whole number whose square isn't above, where its digits change: small numbers, places where a pair of digits begins,
// powers of two, squares (of small numbers, of a digit or two and zeros, of the last ones that fit), each with its neighbours.
fn roots() -> usize {
    let tens = (0..=19).map(|places| 10_u128.pow(places));
    let near = |edge: u128| [edge.saturating_sub(1), edge, edge + 1];
    let two_digits = tens.clone().flat_map(|unit| (1..=99).map(move |digits| digits * unit));
    let squares = (0..=10_000).chain(4_294_957_296..=4_294_967_296).chain(two_digits).map(|root| root * root);
    let edges = (0..=10_000).chain(tens).chain((0..=64).map(|bits| 1 << bits)).chain(squares).flat_map(near);
    let mut count = 0;
    for square in edges.filter_map(|edge| u64::try_from(edge).ok()) {
        let root = u128::from(unsafe { raddlehue_root(square) });
        assert!(root * root <= square.into() && u128::from(square) < (root + 1) * (root + 1), "root {square} | {root}");
        count += 1;
    }
    count
}

fn main() {
    let path = env::args().nth(1).expect("the file of vectors");
    let mut count = 0;
    for line in fs::read_to_string(path).unwrap().lines().filter(|line| !line.starts_with('#')) {
        let (left, right) = line.split_once(" | ").unwrap();
        let (kind, input) = left.split_once(' ').unwrap();
        if !["sine", "atan", "root"].contains(&kind) {
            continue;
        }
        assert_eq!(answer(kind, &numbers(input)), Some(numbers(right)), "{line}");
        count += 1;
    }
    assert_eq!(count, 960);
    println!("leaves: {count} vectors, {} roots at edges and {} dates come out", roots(), calendar());
}
