// Every day of tests/vectors/days.txt, days whose every minute is asked again as a place, and requests that nobody should make, through the archive. A refused
// day writes nothing, neither to the 1,440 elevations nor to what is told of rise and set.
use std::env;
use std::fs;

mod archive;
use archive::*;

const LINES: usize = 81;

// A request that nothing refuses: the five numbers of a date and the three of a point.
const GOOD: [i64; 8] = [2024, 2, 29, -300, 69_200, 1_122_334_455, -455_443_322, 120];

// What refuses each of these numbers where it is out of all range.
const REFUSALS: [u32; 8] = [1, 2, 3, 5, 6, 7, 8, 9];

// ---- the vectors

// Every elevation in 64 bits, as the file's head says: a change of any one changes it.
fn digest(elevations: &[i64; MINUTES]) -> u64 {
    elevations.iter().fold(0xcbf2_9ce4_8422_2325, |sum, elevation| (sum ^ *elevation as u64).wrapping_mul(0x100_0000_01b3))
}

// A minute and its flag, as a line has them.
fn minute(flag: u32, minute: u32) -> String {
    match (flag, minute) {
        (0, 0) => "-".to_string(),
        (1, 0..=1439) => minute.to_string(),
        _ => panic!("the flag {flag} with minute {minute}"),
    }
}

// What a line has to say of the day.
fn said((refusal, day): Answer<Day>) -> String {
    if refusal != 0 {
        assert_eq!(day, UNWRITTEN_DAY, "refused {refusal}");
        return refusal.to_string();
    }
    let [has_rise, rise, has_set, set] = day.rise_set;
    let shown = [0, 720, 1439].map(|minute: usize| day.elevations[minute].to_string());
    format!("0 {} {} {:016x} {}", minute(has_rise, rise), minute(has_set, set), digest(&day.elevations), shown.join(" "))
}

fn vectors(path: &str) {
    let text = fs::read_to_string(path).unwrap();
    let lines = text.lines().filter(|line| !line.starts_with('#'));
    let mut count = 0;
    for line in lines {
        let (left, expected) = line.split_once(" | ").unwrap();
        let words: Vec<&str> = left.split(' ').collect();
        let body = match words[..2] {
            ["day", "sun"] => SUN,
            ["day", "moon"] => MOON,
            _ => panic!("{line} is no day"),
        };
        let numbers: Vec<i64> = words[2..].iter().map(|word| word.parse().unwrap()).collect();
        assert_eq!(said(day(&numbers.try_into().unwrap(), body)), expected, "{line}");
        count += 1;
    }
    assert_eq!(count, LINES);
}

// ---- minutes asked for one by one

// The elevation of a place at a minute of a day.
fn elevation(numbers: &[i64; 8], minute: usize, body: u32) -> i64 {
    let request = at_minute(numbers, minute);
    let (refusal, seen) = place(&request, body, NO_AIR);
    assert_eq!(refusal, 0, "{request:?}");
    seen.numbers[1]
}

// The day before is given, since a calendar is another test's matter; the first of all has none.
fn minutes(numbers: &[i64; 8], eve: Option<[i64; 8]>, body: u32) {
    let curve: Vec<i64> = (0..MINUTES).map(|minute| elevation(numbers, minute, body)).collect();
    let is_up = |elevation: i64| elevation >= THRESHOLD;
    let mut before = eve.map(|eve| is_up(elevation(&eve, 1439, body)));
    let mut told = [0; 4];
    for (minute, now) in curve.iter().map(|elevation| is_up(*elevation)).enumerate() {
        let at = if now { 0 } else { 2 };
        if before == Some(!now) && told[at] == 0 {
            (told[at], told[at + 1]) = (1, minute as u32);
        }
        before = Some(now);
    }
    let expected = Day { elevations: curve.try_into().unwrap(), rise_set: told };
    assert!(day(numbers, body) == (0, expected), "{numbers:?} {body}");
}

fn days() {
    let on = |[year, month, day]: [i64; 3]| {
        let mut numbers = GOOD;
        numbers[..3].copy_from_slice(&[year, month, day]);
        numbers
    };
    for body in [SUN, MOON] {
        minutes(&on([1900, 1, 1]), None, body);
        minutes(&on([1900, 3, 1]), Some(on([1900, 2, 28])), body);
        minutes(&on([2000, 3, 1]), Some(on([2000, 2, 29])), body);
        minutes(&on([2001, 1, 1]), Some(on([2000, 12, 31])), body);
        minutes(&on([2100, 12, 31]), Some(on([2100, 12, 30])), body);
    }
}

// ---- what no caller should ask for

fn refused(numbers: &[i64; 8], body: u32, refusal: u32) {
    let (given, left) = day(numbers, body);
    assert_eq!(given, refusal, "{numbers:?} {body}");
    assert!(left == UNWRITTEN_DAY, "{numbers:?} {body}: written to, and refused");
}

// The least and the greatest number in each field; before it all are good, and after it none need be.
fn fields() {
    for (field, refusal) in REFUSALS.into_iter().enumerate() {
        for extreme in [i64::MIN, i64::MAX] {
            let mut one = GOOD;
            one[field] = extreme;
            let mut rest = GOOD;
            rest[field..].fill(extreme);
            for numbers in [one, rest] {
                refused(&numbers, SUN, refusal);
                refused(&numbers, MOON, refusal);
            }
        }
    }
}

// An unknown code is refused before all else.
fn codes() {
    for body in [2, 3, 256, 1 << 31, u32::MAX] {
        refused(&GOOD, body, 101);
        refused(&[i64::MIN; 8], body, 101);
    }
}

fn main() {
    vectors(&env::args().nth(1).expect("the file of vectors"));
    days();
    fields();
    codes();
    println!("days: {LINES} vectors come out");
}
