// Days drawn at random: accepted ones, at the edges more often than chance, and damaged ones. A day's request is eight numbers: a date's three, UT1 minus UTC and
// delta-T, a point's three.
#![allow(dead_code)]

use raddlehue_reference as reference;

use crate::archive::{MOON, THRESHOLD};
use crate::{Random, FIELDS};

// The places of a day's numbers among a place's.
const AMONG: [usize; 8] = [0, 1, 2, 7, 8, 9, 10, 11];

// Longitudes and latitudes, in 1e-7 degree.
const HALF_TURN_E7: i64 = 1_800_000_000;
const TEN_DEGREES_E7: i64 = 100_000_000;
const POLAR_CIRCLE_E7: i64 = 665_600_000;

// Days that their month has not.
const NO_DATES: [[i64; 3]; 6] = [[1900, 2, 29], [2100, 2, 29], [2023, 2, 29], [2024, 2, 30], [2024, 4, 31], [2024, 12, 32]];

pub fn date_of(numbers: &[i64; 8]) -> reference::Date {
    let [year, month, day, ut1, delta_t, ..] = *numbers;
    reference::Date { year, month, day, ut1, delta_t }
}

pub fn point_of(numbers: &[i64; 8]) -> reference::Point {
    reference::Point { longitude: numbers[5], latitude: numbers[6], height: numbers[7] }
}

pub fn body_of(body: u32) -> reference::Body {
    if body == MOON {
        reference::Body::Moon
    } else {
        reference::Body::Sun
    }
}

// A date that exists: the first and the last of all, the end of February, and any other.
pub fn date(random: &mut Random) -> [i64; 3] {
    match random.below(12) {
        0 => [1900, 1, 1],
        1 => [1900, 1, 2],
        2 => [2100, 12, 31],
        3 => [1904 + 4 * random.between(0, 48), 2, 29],
        4 => [1900 + 100 * random.between(0, 2), 2, 28],
        5 => [random.between(1900, 2100), 3, 1],
        _ => [random.field(1900, 2100), random.field(1, 12), random.field(1, 28)],
    }
}

// Any latitude, a pole, or one about a polar circle.
fn latitude(random: &mut Random) -> i64 {
    let sign = if random.one_in(2) { 1 } else { -1 };
    match random.below(8) {
        0 => sign * 900_000_000,
        1 | 2 => sign * (POLAR_CIRCLE_E7 + random.between(-15_000_000, 15_000_000)),
        _ => random.field(-900_000_000, 900_000_000),
    }
}

// A request that nothing refuses, and its body.
pub fn drawn(random: &mut Random) -> ([i64; 8], u32) {
    let [year, month, day] = date(random);
    let (ut1, delta_t) = (random.field(FIELDS[7].0, FIELDS[7].1), random.field(FIELDS[8].0, FIELDS[8].1));
    let longitude = random.field(-HALF_TURN_E7, HALF_TURN_E7);
    let numbers = [year, month, day, ut1, delta_t, longitude, latitude(random), random.field(-500, 9_000)];
    (numbers, random.below(2) as u32)
}

// The same; one in three is moved to a point where the body crosses the threshold next to minute 0, to the minute before it, or to any other.
pub fn accepted(random: &mut Random) -> ([i64; 8], u32) {
    let (mut numbers, body) = drawn(random);
    if random.one_in(3) {
        let minute = if random.one_in(2) { random.between(-1, 0) } else { random.field(0, 1439) };
        let [before, after] = crossing_at(minute, &numbers, body);
        numbers[5] = if random.one_in(2) { before } else { after };
    }
    (numbers, body)
}

// One or two numbers outside their range, a day that its month has not, or a body that is none.
pub fn damaged(random: &mut Random) -> ([i64; 8], u32) {
    let (mut numbers, mut body) = drawn(random);
    match random.below(4) {
        0 => body = (random.next() as u32 >> random.below(31)).max(2),
        1 => numbers[..3].copy_from_slice(&NO_DATES[random.below(NO_DATES.len() as u64) as usize]),
        times => {
            for _ in 1..times {
                let at = random.below(8) as usize;
                let (lo, hi) = FIELDS[AMONG[at]];
                numbers[at] = random.outside(lo, hi);
            }
        }
    }
    (numbers, body)
}

// A longitude, from 180 degrees west up to but not 180 east.
pub fn reduced(longitude: i64) -> i64 {
    (longitude + HALF_TURN_E7).rem_euclid(2 * HALF_TURN_E7) - HALF_TURN_E7
}

// At minute -1 it is the day before, within the month: on its first day the body is never up then.
fn is_up(minute: i64, numbers: &[i64; 8], body: u32, longitude: i64) -> bool {
    let [year, month, day, ut1, delta_t, ..] = *numbers;
    let (day, minute) = if minute < 0 { (day - 1, 1439) } else { (day, minute) };
    let start = reference::Start { year, month, day, hour: minute / 60, minute: minute % 60, second: 0, millisecond: 0, ut1, delta_t };
    let point = reference::Point { longitude: reduced(longitude), ..point_of(numbers) };
    reference::place(start, body_of(body), point, reference::Air::None).is_ok_and(|place| place.elevation >= THRESHOLD)
}

// Two longitudes a unit apart, at one of which the body is up at the minute; where it is up, or down, all round, the one that is given.
fn crossing_at(minute: i64, numbers: &[i64; 8], body: u32) -> [i64; 2] {
    let up = |longitude| is_up(minute, numbers, body, longitude);
    let given = numbers[5];
    let mut steps = (0..36).map(|step| given + step * TEN_DEGREES_E7);
    let Some(mut before) = steps.find(|&west| up(west) != up(west + TEN_DEGREES_E7)) else {
        return [given; 2];
    };
    let mut after = before + TEN_DEGREES_E7;
    while after - before > 1 {
        let middle = (before + after) / 2;
        *if up(middle) == up(after) { &mut after } else { &mut before } = middle;
    }
    [before, after].map(reduced)
}
