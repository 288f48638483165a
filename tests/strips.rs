// Day strips (02, Items 6 and 9) through the archive: every line of tests/vectors/strips.txt; whole days at each step, there and back, their bytes those of the ordinary Rust version
// (reference/); the days of tests/vectors/overhead.txt in which a body has no azimuth at a whole minute; and how long the largest strip takes.
use std::env;
use std::fs;
use std::hint::black_box;
use std::time::{Duration, Instant};

mod archive;
mod compared;
mod reference_strips;
mod strip_lines;
mod vector_lines;
use archive::*;
use strip_lines::{strip_lines, Said, StripLine};
use vector_lines::{absent_minutes, ABSENT};

// How many lines the file has that are read, written and looked up.
const LINES: [usize; 3] = [143, 95, 29];

const STEPS: [i64; 4] = [1, 2, 5, 10];
const HEADER_BYTES: usize = 18;

// What writing and reading the largest strip may take together.
const LIMIT: Duration = Duration::from_micros(100);

const POISON_BYTE: u8 = POISON as u8;

// ---- the vectors

// The kind of the line.
fn check_line(line: &StripLine) -> usize {
    match line {
        StripLine::Read { bytes, expected } => {
            check_read(bytes, expected);
            0
        }
        StripLine::Write { header, azimuths, size, expected } => {
            let mut buffer = vec![POISON_BYTE; *size];
            let found = strip_write(header, azimuths, &mut buffer);
            let count = expected.as_ref().map(|bytes| bytes.len() as i64).map_err(|refusal| *refusal);
            assert_eq!(found, compared::answer_one(count), "{line:?}");
            let mut left = expected.clone().unwrap_or_default();
            left.resize(*size, POISON_BYTE);
            assert_eq!(buffer, left, "{line:?}");
            1
        }
        StripLine::Find { first, second, date, expected } => {
            assert_eq!(strip_find(first, second, *date), compared::answer(*expected), "{line:?}");
            2
        }
    }
}

fn check_read(bytes: &[u8], expected: &Result<Said, u32>) {
    match expected {
        Ok(said) => {
            assert_eq!(strip_read(bytes), (0, as_read(&said.header)), "{bytes:?}");
            for (step, azimuth) in &said.azimuths {
                assert_eq!(strip_azimuth(&bytes[HEADER_BYTES..], *step), (0, *azimuth), "{bytes:?} {step}");
            }
            let azimuths = azimuths_of(bytes, said.header[7]);
            match said.header[0] {
                0 => assert_eq!(written(&said.header, &azimuths), bytes),
                _ => carried_over_alone(&said.header, &azimuths, bytes),
            }
        }
        Err(refusal) => assert_eq!(strip_read(bytes), (*refusal, [POISON; 10]), "{bytes:?}"),
    }
}

fn vectors(path: &str) {
    let mut counts = [0; 3];
    for line in strip_lines(&fs::read_to_string(path).unwrap()) {
        counts[check_line(&line)] += 1;
    }
    assert_eq!(counts, LINES);
}

// ---- there and back

// Into a buffer that it just fits.
fn written(header: &Header, azimuths: &[u32]) -> Vec<u8> {
    let length = HEADER_BYTES + 4 * azimuths.len();
    let mut bytes = vec![POISON_BYTE; length];
    assert_eq!(strip_write(header, azimuths, &mut bytes), (0, length as i64), "{header:?}");
    bytes
}

// A strip with air byte 1 says what the same strip says without air, but for its air; it is refused by 32, before a small buffer, and written without air.
fn carried_over_alone(header: &Header, azimuths: &[u32], bytes: &[u8]) {
    let mut bare = *header;
    bare[0] = 0;
    let mut without = written(&bare, azimuths);
    assert_eq!(strip_read(&without), (0, as_read(&bare)), "{header:?}");
    without[3] = 1;
    assert!(without == bytes && header[0] == CARRIED_OVER, "{header:?}: more than the air is another");
    assert!(azimuths_of(bytes, header[7]) == azimuths, "{header:?}: other azimuths are read");
    for size in [0, bytes.len() - 1, bytes.len(), bytes.len() + 1] {
        let mut buffer = vec![POISON_BYTE; size];
        assert_eq!(strip_write(header, azimuths, &mut buffer), (32, POISON), "{header:?}");
        assert!(buffer == vec![POISON_BYTE; size], "{header:?}: written to, and refused");
    }
}

// Each azimuth by its step, and none behind the last.
fn azimuths_of(bytes: &[u8], step: i64) -> Vec<u32> {
    let (part, count) = (&bytes[HEADER_BYTES..], MINUTES as u64 / step as u64);
    assert_eq!(strip_azimuth(part, count), (106, POISON as u32));
    let azimuth = |step| match strip_azimuth(part, step) {
        (0, azimuth) => azimuth,
        (refusal, _) => panic!("step {step} is refused by {refusal}"),
    };
    (0..count).map(azimuth).collect()
}

fn there_and_back(header: &Header, azimuths: &[u32]) {
    let bytes = written(header, azimuths);
    let mut expected = vec![POISON_BYTE; bytes.len()];
    reference_strips::strip_write(header, azimuths, &mut expected);
    assert!(bytes == expected, "{header:?}: other bytes than the reference's");
    assert_eq!(strip_read(&bytes), (0, as_read(header)));
    let again = azimuths_of(&bytes, header[7]);
    assert!(again == azimuths, "{header:?}: other azimuths are read");
    assert!(written(header, &again) == bytes, "{header:?}: what was read is written otherwise");
    // a larger buffer keeps its rest
    let mut larger = vec![POISON_BYTE; bytes.len() + 9];
    assert_eq!(strip_write(header, azimuths, &mut larger), (0, bytes.len() as i64));
    assert!(larger == [&bytes[..], &[POISON_BYTE; 9]].concat(), "{header:?}: another rest");
    assert_eq!(strip_read(&larger), (20, [POISON; 10]));
    let mut old = bytes;
    old[3] = 1;
    let mut carried_over = *header;
    carried_over[0] = CARRIED_OVER;
    assert_eq!(strip_read(&old), (0, as_read(&carried_over)));
    carried_over_alone(&carried_over, azimuths, &old);
}

// ---- days

// The azimuth of a place at a minute of a day, as a strip has it.
fn azimuth(numbers: &[i64; 8], minute: usize, body: u32) -> u32 {
    let (refusal, Seen { has_azimuth, numbers: [azimuth, _] }) = place(&at_minute(numbers, minute), body, NO_AIR);
    assert_eq!(refusal, 0, "{numbers:?}");
    if has_azimuth == 1 {
        (azimuth / 10) as u32
    } else {
        NO_AZIMUTH
    }
}

// A day's azimuths at a step, each a place's, and what is behind them left alone; then as a strip.
fn day(numbers: &[i64; 8], body: u32, step: i64) -> Vec<u32> {
    let count = MINUTES / step as usize;
    let mut azimuths = vec![POISON as u32; count + 3];
    assert_eq!(day_azimuths(numbers, body, step, &mut azimuths[..count]), (0, count as i64), "{numbers:?}");
    let exact = azimuths.clone();
    assert_eq!(day_azimuths(numbers, body, step, &mut azimuths), (0, count as i64), "{numbers:?}");
    assert!(azimuths == exact && azimuths.split_off(count) == [POISON as u32; 3], "{numbers:?}");
    for (at, found) in azimuths.iter().enumerate() {
        assert_eq!(*found, azimuth(numbers, at * step as usize, body), "{numbers:?} {body} {step} {at}");
    }
    let [year, month, day, _, _, longitude, latitude, _] = *numbers;
    there_and_back(&[0, body.into(), year, month, day, longitude, latitude, step], &azimuths);
    azimuths
}

fn days() {
    let days = [
        [2003, 10, 17, 0, 67_000, -1_051_786_000, 397_424_760, 1830],
        [2024, 2, 29, -300, 69_200, 1_122_334_455, -455_443_322, 120],
        [1900, 1, 1, -900, -8_000_000, 1_800_000_000, 900_000_000, 9_000],
        [2100, 12, 31, 900, 8_000_000, -1_800_000_000, -900_000_000, -500],
    ];
    for (numbers, body) in days.iter().flat_map(|numbers| [(numbers, SUN), (numbers, MOON)]) {
        for step in STEPS {
            day(numbers, body, step);
        }
    }
}

// At the minute there is none, at each step that comes by there.
fn absent(path: &str) {
    for (numbers, body, minute) in absent_minutes(&fs::read_to_string(path).unwrap()) {
        for step in STEPS.into_iter().filter(|&step| minute % step as usize == 0) {
            let azimuths = day(&numbers, body, step);
            assert_eq!(azimuths[minute / step as usize], NO_AZIMUTH, "{numbers:?}");
        }
    }
}

// ---- time

// The best of many runs: what else the machine does only adds to one.
fn best(mut run: impl FnMut()) -> Duration {
    let timed = |_| {
        let begun = Instant::now();
        run();
        begun.elapsed()
    };
    (0..200).map(timed).min().unwrap()
}

fn largest() -> [Duration; 2] {
    let header = [0, 1, 2003, 10, 17, -1_051_786_000, 397_424_760, 1];
    let azimuths: Vec<u32> = (0..MINUTES as u32).map(|minute| 2_500_000 * minute).collect();
    let mut bytes = vec![0; HEADER_BYTES + 4 * MINUTES];
    let writing = best(|| assert_eq!(strip_write(&header, black_box(&azimuths), &mut bytes).0, 0));
    let reading = best(|| assert_eq!(strip_read(black_box(&bytes)).0, 0));
    assert!(writing + reading < LIMIT, "written in {writing:?} and read in {reading:?}");
    [writing, reading]
}

fn main() {
    let [strips, overhead]: [String; 2] =
        env::args().skip(1).collect::<Vec<_>>().try_into().expect("the files of strips and of places without an azimuth");
    vectors(&strips);
    days();
    absent(&overhead);
    let [writing, reading] = largest().map(|time| time.as_nanos());
    let lines: usize = LINES.iter().sum();
    println!("strips: {lines} vectors come out; {ABSENT} days have an absent azimuth; the largest strip is written in {writing} ns and read in {reading} ns");
}
