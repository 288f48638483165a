// Every place, batch, middle and refraction of the files of vectors, and requests that nobody should make, through the archive. A refused call writes nothing.
use std::env;
use std::fs;

mod archive;
mod vector_lines;
use archive::*;
use vector_lines::*;

// The kinds of lines that run here, with how many the files have.
const KINDS: [(&str, usize); 5] = [("sun", 309), ("moon", 354), ("batch", 6), ("middle", 240), ("refr", 285)];

// The cells of the buffers before a batch.
const AZIMUTH_BEFORE: i64 = -7;
const ELEVATION_BEFORE: i64 = -8;

// ---- the vectors

fn check_batch(input: &str, expected: &str) {
    let (left, offsets) = input.split_once(';').unwrap();
    let (name, left) = left.split_once(' ').unwrap();
    let given = numbers(left);
    let offsets: Vec<u32> = numbers(offsets).into_iter().map(|n| n as u32).collect();
    let mut azimuths = vec![AZIMUTH_BEFORE; given[12] as usize];
    let mut elevations = vec![ELEVATION_BEFORE; given[13] as usize];
    let answer = batch(&request(&given[..12]), body(name), &offsets, &mut azimuths, &mut elevations);
    let groups: Vec<Vec<i64>> = expected.split(';').map(numbers).collect();
    let [refusal, index, count] = groups[0][..] else { panic!("{expected}") };
    assert_eq!(answer, told(refusal as u32, index, count), "{input}");
    assert_eq!([azimuths, elevations], groups[1..], "{input}");
}

// What is told of a batch: the index where it is refused by 13, and nothing where by another number.
fn told(refusal: u32, index: i64, count: i64) -> Answer<[i64; 2]> {
    if refusal == 13 {
        assert_eq!(count, 0);
        (13, [index, 0])
    } else {
        assert_eq!(index, 0);
        written(refusal, [0, count])
    }
}

fn check_middle(input: &str, expected: &str) {
    let (ends, wanted) = (numbers(input), numbers(expected));
    let (refusal, [azimuth]) = written(wanted[0] as u32, [wanted[1]]);
    assert_eq!(middle(ends[0], ends[1]), (refusal, azimuth), "{input}");
}

fn check_refraction(input: &str, expected: &str) {
    let words: Vec<&str> = input.split_whitespace().collect();
    assert_eq!(refraction(words[0].parse().unwrap(), air(&words[1..])), (0, bits(expected.trim())), "{input}");
}

fn vectors(paths: impl Iterator<Item = String>) -> usize {
    let mut counts = [0; KINDS.len()];
    for path in paths {
        for line in fs::read_to_string(&path).unwrap().lines().filter(|line| !line.starts_with('#')) {
            let (left, expected) = line.split_once(" |").unwrap();
            let (kind, input) = left.split_once(' ').unwrap();
            match kind {
                "sun" | "moon" => PlaceLine::of(line).check(),
                "batch" => check_batch(input, expected),
                "middle" => check_middle(input, expected),
                "refr" => check_refraction(input, expected),
                _ => continue,
            }
            counts[KINDS.iter().position(|(name, _)| *name == kind).unwrap()] += 1;
        }
    }
    assert_eq!(counts, KINDS.map(|(_, count)| count), "of {:?}", KINDS.map(|(name, _)| name));
    counts.iter().sum()
}

// ---- what no caller should ask for

// A request is refused by this number, and nothing is written.
fn refused(n: &[i64; 12], body: u32, air: Air, refusal: u32) {
    assert_eq!(place(n, body, air), (refusal, Seen::UNWRITTEN), "{n:?} {body} {air:?}");
    assert_eq!(shown_place(n, body, air), (refusal, Seen::UNWRITTEN), "{n:?} {body} {air:?}");
}

// A batch into buffers of these lengths is refused, and neither buffer changes.
fn batch_refused(n: &[i64; 12], body: u32, offsets: &[u32], lengths: (usize, usize), refusal: u32, index: i64) {
    let mut azimuths = vec![AZIMUTH_BEFORE; lengths.0];
    let mut elevations = vec![ELEVATION_BEFORE; lengths.1];
    let answer = batch(n, body, offsets, &mut azimuths, &mut elevations);
    assert_eq!(answer, told(refusal, index, 0), "{n:?} {body} {offsets:?}");
    assert_eq!(azimuths, vec![AZIMUTH_BEFORE; lengths.0]);
    assert_eq!(elevations, vec![ELEVATION_BEFORE; lengths.1]);
}

fn fields() {
    for (request, refusal) in wrong_requests() {
        refused(&request, SUN, NO_AIR, refusal);
        refused(&request, MOON, measured(f64::NAN, f64::NAN), refusal);
        batch_refused(&request, MOON, &[0, 1], (3, 2), refusal, 0);
        batch_refused(&request, SUN, &[u32::MAX], (0, 0), refusal, 0);
        if refusal <= 6 {
            assert_eq!(instant(start_of(&request)), (refusal, [POISON; 2]), "{request:?}");
        }
    }
}

// An unknown code is refused before all else, the body's first.
fn codes() {
    let nowhere = [i64::MIN; 12];
    for code in [2, 3, 256, 1 << 31, u32::MAX] {
        for request in [GOOD_REQUEST, nowhere] {
            refused(&request, code, NO_AIR, 101);
            batch_refused(&request, code, &[0], (0, 1), 101, 0);
            batch_refused(&request, code, &[], (0, 0), 101, 0);
            refused(&request, code, Air { kind: 1, ..NO_AIR }, 101);
        }
    }
}

// A request's air is none or measured: not 1, which was standard, nor 3, which is a strip's alone.
fn kinds() {
    for kind in [1, 3, 4, 256, 258, 1 << 31, u32::MAX] {
        for (pressure, temperature) in [(0.0, 0.0), (1010.0, 10.0), (f64::NAN, 0.0)] {
            let air = Air { kind, pressure, temperature };
            for request in [GOOD_REQUEST, [i64::MIN; 12]] {
                refused(&request, 2, air, 101);
                refused(&request, SUN, air, 102);
                refused(&request, MOON, air, 102);
            }
            for elevation in [0, i64::MAX] {
                assert_eq!(refraction(elevation, air), (102, POISON));
            }
        }
    }
}

// A measured air out of range, or not a number, is refused; none has no pressure and no temperature.
fn airs() {
    for x in [f64::NAN, -f64::NAN, f64::INFINITY, f64::NEG_INFINITY, f64::MAX, -1e-300, 1200.0000000000002] {
        for t in [x, 10.0] {
            refused(&GOOD_REQUEST, SUN, measured(x, t), 10);
            assert_eq!(refraction(0, measured(x, t)), (10, POISON));
        }
    }
    for x in [f64::NAN, -f64::NAN, f64::INFINITY, f64::NEG_INFINITY, f64::MIN, 80.00000000000001, -80.00000000000001] {
        refused(&GOOD_REQUEST, MOON, measured(1010.0, x), 11);
        assert_eq!(refraction(0, measured(1010.0, x)), (11, POISON));
        let given = Air { pressure: x, temperature: x, ..NO_AIR };
        assert_eq!(shown_place(&GOOD_REQUEST, SUN, given), shown_place(&GOOD_REQUEST, SUN, NO_AIR));
        assert_eq!(refraction(500_000_000, given), refraction(500_000_000, NO_AIR));
    }
}

const MEASURED: Air = measured(1010.0, 10.0);

fn elevations() {
    for elevation in [i64::MIN, -9_000_000_001, 9_000_000_001, i64::MAX] {
        assert_eq!(refraction(elevation, MEASURED), (103, POISON));
        assert_eq!(refraction(elevation, measured(f64::NAN, 0.0)), (103, POISON));
    }
    assert_eq!(refraction(-9_000_000_000, MEASURED), (0, 0));
    assert_eq!(refraction(9_000_000_000, MEASURED).0, 0);
}

fn middles() {
    for x in [i64::MIN, -1, 36_000_000_000, i64::MAX] {
        for y in [x, 0, 18_000_000_000] {
            assert_eq!([middle(x, y), middle(y, x)], [(15, POISON); 2]);
        }
    }
    assert_eq!([middle(0, 18_000_000_000), middle(18_000_000_000, 0)], [(14, POISON); 2]);
}

// 12 and 13, and batches of nothing.
fn batches() {
    batch_refused(&GOOD_REQUEST, SUN, &[0, 1], (1, 2), 12, 0);
    batch_refused(&GOOD_REQUEST, MOON, &[u32::MAX, 1], (9, 1), 12, 0);
    let eve = [2100, 12, 31, 23, 59, 59, 0, 0, 0, 0, 0, 0];
    batch_refused(&eve, SUN, &[0, 999, 1000, u32::MAX], (4, 5), 13, 2);
    batch_refused(&eve, MOON, &[u32::MAX], (1, 1), 13, 0);
    assert_eq!(batch(&eve, SUN, &[], &mut [], &mut []), (0, [0, 0]));
    // a list of nothing with a pointer to something, too
    let (mut azimuths, mut elevations) = ([AZIMUTH_BEFORE], [ELEVATION_BEFORE]);
    assert_eq!(batch(&eve, MOON, &[], &mut azimuths, &mut elevations), (0, [0, 0]));
    assert_eq!((azimuths, elevations), ([AZIMUTH_BEFORE], [ELEVATION_BEFORE]));
}

// A day by the minute, each entry the place that a request of its own has.
fn day(body: u32) {
    let mut request = GOOD_REQUEST;
    request[3..7].fill(0);
    let offsets: Vec<u32> = (0..1440).map(|minute| minute * MINUTE_MS as u32).collect();
    let (mut azimuths, mut elevations) = (vec![AZIMUTH_BEFORE; 1441], vec![ELEVATION_BEFORE; 1442]);
    let answer = batch(&request, body, &offsets, &mut azimuths, &mut elevations);
    assert_eq!(answer, (0, [0, 1440]));
    for minute in 0..1440 {
        (request[3], request[4]) = (minute as i64 / 60, minute as i64 % 60);
        let seen = Seen { has_azimuth: 1, numbers: [azimuths[minute], elevations[minute]] };
        assert_eq!((0, seen), place(&request, body, NO_AIR), "minute {minute}");
    }
    assert_eq!((&azimuths[1440..], &elevations[1440..]), (&[AZIMUTH_BEFORE; 1][..], &[ELEVATION_BEFORE; 2][..]));
}

fn main() {
    let count = vectors(env::args().skip(1));
    fields();
    codes();
    kinds();
    airs();
    elevations();
    middles();
    batches();
    day(SUN);
    day(MOON);
    println!("places: {count} vectors come out");
}
