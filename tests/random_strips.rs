// Strips drawn at random: accepted ones, at the edges more often than chance, and damaged ones, as bytes and as what a writer is handed.
use crate::archive::{Header, MINUTES, NO_AZIMUTH};
use crate::random_days::date;
use crate::Random;

pub const STEPS: [i64; 4] = [1, 2, 5, 10];

// From here up a number is no azimuth, in 1e-7 degree.
const TURN_E7: u32 = 3_600_000_000;
const GOOD_AZIMUTHS: [u32; 5] = [NO_AZIMUTH, TURN_E7 - 1, 0, 1, 1 << 31];
const BAD_AZIMUTHS: [u32; 3] = [TURN_E7, TURN_E7 + 1, NO_AZIMUTH - 1];

pub const HEADER_BYTES: usize = 18;

// What each number of a header is within; the step, which has gaps, from the least to the greatest.
const RANGES: [(i64, i64); 8] =
    [(0, 0), (0, 1), (1900, 2100), (1, 12), (1, 31), (-1_800_000_000, 1_800_000_000), (-900_000_000, 900_000_000), (1, 10)];

// The numbers of a strip's bytes: where each stands, its count of bytes, and those next to its edges. The year's are more than one, and the last of each is far out.
const NUMBERS: [(usize, usize, &[i64]); 9] = [
    (2, 1, &[1, 0, 2, 255]),
    (3, 1, &[0, 1, 2, 255]),
    (4, 1, &[0, 1, 2, 255]),
    (5, 2, &[1900, 2100, 1899, 2101, 0, 65_535]),
    (7, 1, &[1, 2, 12, 0, 13, 255]),
    (8, 1, &[1, 28, 29, 30, 31, 0, 32, 255]),
    (9, 4, &[0, -1, 1_800_000_000, -1_800_000_000, 1_800_000_001, -1_800_000_001, i32::MAX as i64, i32::MIN as i64]),
    (13, 4, &[0, -1, 900_000_000, -900_000_000, 900_000_001, -900_000_001, i32::MAX as i64, i32::MIN as i64]),
    (17, 1, &[1, 2, 5, 10, 0, 3, 4, 20, 255]),
];

fn one_of<T: Copy>(random: &mut Random, list: &[T]) -> T {
    list[random.below(list.len() as u64) as usize]
}

// The first of so many, the last, or any.
fn place(random: &mut Random, count: usize) -> usize {
    random.field(0, count as i64 - 1) as usize
}

// ---- what a writer is handed

// How many azimuths, and how many bytes, a strip of a step has.
pub fn steps(step: i64) -> usize {
    MINUTES / step as usize
}

pub fn strip_bytes(step: i64) -> usize {
    HEADER_BYTES + 4 * steps(step)
}

// A number of minutes that is no step.
pub fn no_step(random: &mut Random) -> i64 {
    if random.one_in(2) {
        one_of(random, &[0, 3, 4, 6, 9, 15, 20, -1, 257])
    } else {
        random.outside(1, 10)
    }
}

// A header that nothing refuses. Of long strips there are few: they cost ten times as much.
pub fn header(random: &mut Random) -> Header {
    let [year, month, day] = date(random);
    let step = STEPS[[0, 1, 2, 2].get(random.below(16) as usize).copied().unwrap_or(3)];
    let [longitude, latitude] = [RANGES[5], RANGES[6]].map(|(lo, hi)| random.field(lo, hi));
    [0, random.below(2) as i64, year, month, day, longitude, latitude, step]
}

// So many azimuths, round the sky from any on, some of them at an edge or absent.
pub fn azimuths(random: &mut Random, count: usize) -> Box<[u32]> {
    let [first, onward] = [(); 2].map(|()| random.below(u64::from(TURN_E7)));
    let mut azimuths: Vec<u32> = (0..count as u64).map(|at| ((first + at * onward) % u64::from(TURN_E7)) as u32).collect();
    for _ in 0..random.below(4) {
        azimuths[place(random, count)] = one_of(random, &GOOD_AZIMUTHS);
    }
    azimuths.into()
}

// A header with one or two numbers outside their range, or none, now and then measured air, carried over or not, or what standard air had.
pub fn damaged_header(random: &mut Random, header: &Header) -> Header {
    let mut damaged = *header;
    for _ in 0..random.below(3) {
        let at = random.below(8) as usize;
        damaged[at] = random.outside(RANGES[at].0, RANGES[at].1);
    }
    match random.below(8) {
        0 => damaged[0] = random.between(1, 3),
        1 => damaged[0] = random.between(2, 3),
        2 => damaged[7] = no_step(random),
        3 => damaged[4] = random.between(28, 32),
        _ => {}
    }
    damaged
}

// One too few or too many, a number that is no azimuth, or neither.
pub fn damaged_azimuths(random: &mut Random, azimuths: &[u32]) -> Box<[u32]> {
    let mut damaged = azimuths.to_vec();
    if random.one_in(4) {
        let at = place(random, damaged.len());
        damaged[at] = one_of(random, &BAD_AZIMUTHS);
    }
    match random.below(16) {
        0 => damaged.push(0),
        1 => damaged.truncate(azimuths.len() - 1),
        2 => damaged.truncate(random.below(azimuths.len() as u64) as usize),
        _ => {}
    }
    damaged.into()
}

// The size of a buffer: about a strip's, as short as there is, or any.
pub fn size(random: &mut Random, strip: usize) -> usize {
    match random.below(8) {
        0 => random.below(20) as usize,
        1 => random.below(strip as u64 + 9) as usize,
        2 => strip - 1,
        3 => strip,
        _ => strip + random.below(9) as usize,
    }
}

// ---- bytes

// The same strip as a version that had standard air wrote it.
pub fn old(strip: &[u8]) -> Box<[u8]> {
    let mut bytes: Box<[u8]> = strip.into();
    put(&mut bytes, 3, 1, 1);
    bytes
}

// A strip damaged once or twice, or bytes that never were one. In three of four the length is then put right, so that what is judged behind it is reached; else it is left or spoilt.
pub fn damaged(random: &mut Random, strip: &[u8]) -> Box<[u8]> {
    let mut bytes = if random.one_in(16) { noise(random) } else { strip.to_vec() };
    for _ in 0..1 + random.below(2) {
        damage(random, &mut bytes);
    }
    let own = bytes.len() as i64 - 2;
    match random.below(8) {
        0 => {}
        1 => put(&mut bytes, 0, 2, other_length(random, own)),
        _ => put(&mut bytes, 0, 2, own),
    }
    bytes.into()
}

fn noise(random: &mut Random) -> Vec<u8> {
    let length = if random.one_in(2) { random.below(40) } else { random.below(700) };
    (0..length).map(|_| random.next() as u8).collect()
}

// A number in so many bytes from a place on; those behind the end fall away.
fn put(bytes: &mut [u8], at: usize, count: usize, number: i64) {
    for (byte, new) in bytes.iter_mut().skip(at).zip(&number.to_be_bytes()[8 - count..]) {
        *byte = *new;
    }
}

fn damage(random: &mut Random, bytes: &mut Vec<u8>) {
    match random.below(7) {
        0 => cut(random, bytes),
        1 => bytes.extend((0..1 + random.below(8)).map(|at| (at * 85) as u8)),
        2 => flip(random, bytes, usize::MAX),
        3 => flip(random, bytes, HEADER_BYTES),
        4 => put(bytes, random.below(HEADER_BYTES as u64) as usize, 1, random.next() as u8 as i64),
        5 => azimuth(random, bytes),
        _ => {
            let (at, count, edges) = one_of(random, &NUMBERS);
            put(bytes, at, count, one_of(random, edges));
        }
    }
}

// To a few bytes, by a few bytes, to another step's length, or anywhere.
fn cut(random: &mut Random, bytes: &mut Vec<u8>) {
    let length = bytes.len() as u64;
    let left = match random.below(4) {
        0 => random.below(20),
        1 => length.saturating_sub(1 + random.below(8)),
        2 => strip_bytes(one_of(random, &STEPS)) as u64,
        _ => random.below(length + 1),
    };
    bytes.truncate(left as usize);
}

// A bit among the first so many bytes.
fn flip(random: &mut Random, bytes: &mut [u8], within: usize) {
    let within = within.min(bytes.len());
    if within > 0 {
        bytes[random.below(within as u64) as usize] ^= 1 << random.below(8);
    }
}

// The least length and next to it, next to the own, its bytes exchanged, or any.
fn other_length(random: &mut Random, own: i64) -> i64 {
    match random.below(4) {
        0 => random.between(14, 17),
        1 => own + random.between(-3, 3),
        2 => i64::from((own as u16).swap_bytes()),
        _ => random.between(0, 65_535),
    }
}

fn azimuth(random: &mut Random, bytes: &mut [u8]) {
    let count = bytes.len().saturating_sub(HEADER_BYTES) / 4;
    if count > 0 {
        let number = match random.below(3) {
            0 => one_of(random, &GOOD_AZIMUTHS),
            1 => one_of(random, &BAD_AZIMUTHS),
            _ => random.next() as u32,
        };
        put(bytes, HEADER_BYTES + 4 * place(random, count), 4, i64::from(number));
    }
}
