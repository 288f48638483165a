//! Day strips: every line of the vectors, there and back at each step, old strips, whose air is carried over, the first
//! refusal in order, and a day's azimuths against its places one by one.

use raddlehue_reference::*;

mod random;
mod spoilt;
#[path = "../../tests/strip_codes.rs"]
mod strip_codes;
#[path = "../../tests/strip_lines.rs"]
mod strip_lines;
use random::Random;
use spoilt::spoilt_days;
use strip_codes::{strip_of, CARRIED_OVER, MEASURED};
use strip_lines::{strip_lines, StripLine};

const BODIES: [Body; 2] = [Body::Sun, Body::Moon];
const STEPS: [i64; 4] = [1, 2, 5, 10];
const TURN: u32 = 3_600_000_000;

const STRIP: Strip = Strip {
    air: StripAir::None,
    body: Body::Moon,
    year: 2003,
    month: 10,
    day: 17,
    longitude: -1_051_786_000,
    latitude: 397_424_760,
    step: 10,
};

fn written(strip: &Strip, azimuths: &[u32]) -> Vec<u8> {
    let mut bytes = [7; 6_000];
    let count = write_strip(strip, azimuths, &mut bytes).expect("accepted");
    assert!(bytes[count..].iter().all(|&byte| byte == 7));
    bytes[..count].to_vec()
}

// ---- the vectors

fn check_line(line: StripLine) {
    match line {
        StripLine::Read { bytes, expected } => match (read_strip(&bytes), expected) {
            (Ok((strip, part)), Ok(said)) => {
                assert_eq!(Ok(strip), strip_of(said.header));
                for (step, azimuth) in said.azimuths {
                    assert_eq!(strip_azimuth(part, step), Ok(azimuth), "{step}");
                }
            }
            (found, expected) => assert_eq!(found.err().map(u32::from), expected.err(), "{bytes:?}"),
        },
        StripLine::Write { header, azimuths, size, expected } => {
            let mut bytes = vec![7; size];
            let found =
                strip_of(header).and_then(|strip| write_strip(&strip, &azimuths, &mut bytes).map_err(u32::from));
            assert_eq!(found, expected.as_ref().map(Vec::len).map_err(|&refusal| refusal), "{header:?} {size}");
            let mut left = expected.unwrap_or_default();
            left.resize(size, 7);
            assert_eq!(bytes, left, "{header:?} {size}");
        }
        StripLine::Find { first, second, date, expected } => {
            let found = find_strip(&first, &second, date).map_err(u32::from);
            assert_eq!(found.map(|(which, part)| [which as i64, 18, part.len() as i64]), expected, "{date:?}");
        }
    }
}

#[test]
fn vectors() {
    let found = strip_lines(include_str!("../../tests/vectors/strips.txt"));
    assert_eq!(found.len(), 267);
    found.into_iter().for_each(check_line);
}

// ---- there and back

/// A strip at each step, for each body, with azimuths for it.
fn strips() -> Vec<(Strip, Vec<u32>)> {
    let mut random = Random(6);
    let strips = STEPS.into_iter().flat_map(|step| BODIES.map(|body| Strip { body, step, ..STRIP }));
    strips
        .map(|strip| {
            let mut azimuths: Vec<u32> =
                (0..1440 / strip.step).map(|_| random.within(0, TURN as i64 - 1) as u32).collect();
            azimuths[1..4].copy_from_slice(&[0, TURN - 1, NO_AZIMUTH]);
            (strip, azimuths)
        })
        .collect()
}

/// What a strip is read as, its azimuths step by step.
fn found(bytes: &[u8]) -> (Strip, Vec<u32>) {
    let (strip, part) = read_strip(bytes).expect("accepted");
    let azimuths = (0..1440 / strip.step).map(|at| strip_azimuth(part, at as u64).expect("a step"));
    (strip, azimuths.collect())
}

#[test]
fn what_was_written_is_read_and_written_again() {
    for (strip, azimuths) in strips() {
        let bytes = written(&strip, &azimuths);
        assert_eq!((bytes.len(), bytes[3]), (18 + 4 * azimuths.len(), 0));
        let (again, by_step) = found(&bytes);
        assert_eq!((again, &by_step), (strip, &azimuths));
        assert_eq!(written(&again, &by_step), bytes);
    }
}

/// An old strip, which has air byte 1, is read; what was read is not written, but without its air it is, with byte 0.
#[test]
fn what_is_carried_over_is_not_written_again() {
    for (strip, azimuths) in strips() {
        let bytes = written(&strip, &azimuths);
        let mut old = bytes.clone();
        old[3] = 1;
        let (carried_over, by_step) = found(&old);
        assert_eq!((carried_over, &by_step), (Strip { air: CARRIED_OVER, ..strip }, &azimuths));
        for size in [0, bytes.len() - 1, bytes.len(), 6_000] {
            let mut buffer = vec![7; size];
            assert_eq!(write_strip(&carried_over, &by_step, &mut buffer), Err(32), "{size}");
            assert!(buffer.iter().all(|&byte| byte == 7), "{size}");
        }
        assert_eq!(written(&Strip { air: StripAir::None, ..carried_over }, &by_step), bytes);
    }
}

#[test]
fn two_air_bytes_there_are() {
    let mut bytes = written(&STRIP, &[1; 144]);
    for byte in 0..=255 {
        bytes[3] = byte;
        let expected = [StripAir::None, CARRIED_OVER].get(usize::from(byte)).copied().ok_or(22);
        assert_eq!(read_strip(&bytes).map(|(strip, _)| strip.air), expected, "{byte}");
    }
}

#[test]
fn the_air_of_a_request() {
    assert_eq!([StripAir::None, MEASURED].map(Air::from), [Air::None, Air::Measured(820.0, 11.0)]);
    assert_eq!(Air::from(CARRIED_OVER), Air::Measured(1010.0, 10.0));
    assert_eq!(Air::from(StripAir::CarriedOver(820.0, 11.0)), Air::from(MEASURED));
}

/// The bytes of one strip, by hand.
#[test]
fn header_by_hand() {
    let bytes = written(&STRIP, &[1; 144]);
    let header = [2, 80, 1, 0, 1, 7, 211, 10, 17, 0xc1, 0x4f, 0x04, 0xf0, 0x17, 0xb0, 0x38, 0x78, 10, 0, 0, 0, 1];
    assert_eq!(bytes[..22], header);
}

// ---- the order of refusals

/// Wrong in every way from the given place of the order on.
fn spoilt_from(first: usize) -> Vec<u8> {
    let mut bytes = written(&STRIP, &[1; 144]);
    let spoils: [(usize, u8); 6] = [(2, 2), (4, 2), (7, 0), (9, 0x7f), (17, 3), (18, 0xff)];
    for &(at, byte) in &spoils[first.saturating_sub(1)..] {
        bytes[at] = byte;
    }
    if first == 0 {
        bytes.pop();
    }
    bytes
}

#[test]
fn the_reader_s_first_refusal() {
    let refusals = [20, 21, 22, 23, 24, 25, 26].map(Err);
    assert_eq!([0, 1, 2, 3, 4, 5, 6].map(|first| read_strip(&spoilt_from(first)).map(|_| ())), refusals);
    // against the step the length is judged behind the step and before the azimuths
    for (first, refusal) in [(5, 25), (6, 20)] {
        let mut cut = spoilt_from(first);
        cut.truncate(590);
        cut[1] -= 4;
        assert_eq!(read_strip(&cut), Err(refusal));
    }
}

#[test]
fn every_cut_is_refused() {
    let bytes = written(&STRIP, &[1; 144]);
    for length in 0..bytes.len() {
        assert_eq!(read_strip(&bytes[..length]), Err(20), "{length}");
        let mut repaired = bytes[..length].to_vec();
        if length >= 2 {
            repaired[..2].copy_from_slice(&(length as u16 - 2).to_be_bytes());
        }
        assert_eq!(read_strip(&repaired), Err(20), "{length}");
    }
}

/// What the writer is handed: a strip, its azimuths, and a buffer of some size.
struct Handed {
    strip: Strip,
    azimuths: Vec<u32>,
    size: usize,
}

/// Spoils what the writer is handed in one way.
type Fault = fn(&mut Handed);

/// In the order in which the writer refuses them; no fault mends another.
const FAULTS: [(u8, Fault); 20] = [
    (23, |handed| handed.strip.year = i64::MAX),
    (23, |handed| handed.strip.month = 0),
    (23, |handed| handed.strip.day = 32),
    (24, |handed| handed.strip.longitude = 1_800_000_001),
    (24, |handed| handed.strip.latitude = i64::MIN),
    (25, |handed| handed.strip.step = 11),
    (25, |handed| handed.strip.step = i64::MIN),
    (20, |handed| handed.azimuths.truncate(143)),
    (20, |handed| handed.azimuths.extend([1; 144])),
    (26, |handed| handed.azimuths[0] = TURN),
    (26, |handed| handed.azimuths[142] = NO_AZIMUTH - 1),
    (32, |handed| handed.strip.air = MEASURED),
    (32, |handed| handed.strip.air = StripAir::Measured(1010.0, 10.0)),
    (32, |handed| handed.strip.air = StripAir::Measured(f64::NAN, f64::NAN)),
    (32, |handed| handed.strip.air = CARRIED_OVER),
    (32, |handed| handed.strip.air = StripAir::CarriedOver(820.0, 11.0)),
    (32, |handed| handed.strip.air = StripAir::CarriedOver(f64::NAN, f64::NAN)),
    (28, |handed| handed.size = 593),
    (28, |handed| handed.size = 3),
    (28, |handed| handed.size = 0),
];

/// The writer's answer to what has these faults. Where it refuses, it writes nothing.
fn answer(faults: &[(u8, Fault)]) -> Result<usize, u8> {
    let mut handed = Handed { strip: STRIP, azimuths: vec![1; 144], size: 594 };
    faults.iter().for_each(|(_, fault)| fault(&mut handed));
    let mut buffer = vec![7; handed.size];
    let found = write_strip(&handed.strip, &handed.azimuths, &mut buffer);
    assert!(found.is_ok() || buffer.iter().all(|&byte| byte == 7));
    found
}

/// Of any two faults, and of all from one on.
#[test]
fn the_writer_s_first_refusal() {
    assert_eq!(answer(&[]), Ok(594));
    let mut order = FAULTS.map(|(number, _)| number).to_vec();
    order.dedup();
    assert_eq!(order, [23, 24, 25, 20, 26, 32, 28]);
    for (at, &first) in FAULTS.iter().enumerate() {
        let (number, _) = first;
        assert_eq!([answer(&[first]), answer(&FAULTS[at..])], [Err(number); 2], "{at}");
        for (behind, &second) in FAULTS.iter().enumerate().skip(at) {
            assert_eq!(answer(&[first, second]), Err(number), "{at} {behind}");
        }
    }
}

// ---- steps and lookups

#[test]
fn steps_that_there_are() {
    let bytes = [[0, 0, 0, 9], [255; 4], [0xd6, 0x93, 0xa4, 0x00]].concat();
    let of = |length: usize, step| strip_azimuth(&bytes[..length], step);
    assert_eq!([of(12, 0), of(12, 1), of(12, 2), of(12, 3)], [Ok(9), Ok(NO_AZIMUTH), Err(26), Err(106)]);
    assert_eq!(
        [of(0, 0), of(3, 0), of(4, 0), of(7, 1), of(8, 1)],
        [Err(106), Err(106), Ok(9), Err(106), Ok(NO_AZIMUTH)]
    );
    assert_eq!([1 << 62, u64::MAX / 4, u64::MAX].map(|step| of(12, step)), [Err(106); 3]);
}

/// Which strip bears that day of October 2003, and the length of its part.
fn which(first: &[u8], second: &[u8], day: i64) -> Result<(usize, usize), u8> {
    find_strip(first, second, [2003, 10, day]).map(|(which, part)| (which, part.len()))
}

#[test]
fn the_first_if_both_bear_the_date() {
    let today = written(&STRIP, &[1; 144]);
    let tomorrow = written(&Strip { day: 18, step: 5, ..STRIP }, &[2; 288]);
    assert_eq!([17, 18, 19].map(|day| which(&today, &tomorrow, day)), [Ok((1, 576)), Ok((2, 1152)), Err(27)]);
    assert_eq!([17, 18].map(|day| which(&tomorrow, &today, day)), [Ok((2, 576)), Ok((1, 1152))]);
    assert_eq!(find_strip(&today, &today, [2003, 10, 17]), Ok((1, &today[18..])));
    assert_eq!([which(&today, &[], 17), which(&[], &spoilt_from(1), 17)], [Err(20); 2]);
    assert_eq!([which(&today, &spoilt_from(2), 17), which(&spoilt_from(3), &[], 17)], [Err(22), Err(23)]);
}

// ---- a day's azimuths

const DATE: Date = Date { year: 2003, month: 10, day: 17, ut1: -347, delta_t: 67_183 };
const POINT: Point = Point { longitude: -1_051_786_000, latitude: 397_424_760, height: 1830 };

fn azimuth_at(minute: i64, date: &Date, body: Body, point: Point) -> Option<i64> {
    let Date { year, month, day, ut1, delta_t } = *date;
    let (hour, minute) = (minute / 60, minute % 60);
    let start = Start { year, month, day, hour, minute, second: 0, millisecond: 0, ut1, delta_t };
    place(start, body, point, Air::None).expect("accepted").azimuth
}

fn check_day(date: Date, body: Body, point: Point, step: i64) -> Vec<u32> {
    let mut azimuths = vec![7; 1441];
    let count = day_azimuths(date, body, point, step, &mut azimuths).expect("accepted");
    assert_eq!(count as i64, 1440 / step);
    assert!(azimuths.split_off(count).into_iter().all(|entry| entry == 7));
    for (at, &found) in azimuths.iter().enumerate() {
        let expected = azimuth_at(at as i64 * step, &date, body, point);
        assert_eq!(i64::from(found), expected.map_or(4_294_967_295, |azimuth| azimuth.div_euclid(10)), "{at}");
    }
    azimuths
}

#[test]
fn each_step_is_a_place() {
    for body in BODIES {
        for step in STEPS {
            check_day(DATE, body, POINT, step);
            check_day(Date { year: 1900, month: 1, day: 1, ..DATE }, body, POINT, step);
            check_day(Date { year: 2100, month: 12, day: 31, ..DATE }, body, POINT, step);
        }
    }
}

/// Minute 0 of the first day straight below the Sun (tests/vectors/overhead.txt).
#[test]
fn straight_overhead_is_absent() {
    let date = Date { year: 1900, month: 1, day: 1, ut1: -900, delta_t: -7_999_900 };
    let point = Point { longitude: -1_792_408_461, latitude: -230_700_717, height: -500 };
    for step in STEPS {
        let azimuths = check_day(date, Body::Sun, point, step);
        assert_eq!((azimuths[0], azimuths.iter().filter(|&&azimuth| azimuth == NO_AZIMUTH).count()), (NO_AZIMUTH, 1));
    }
}

#[test]
fn a_day_s_first_refusal() {
    let refused = |date, point, step, length: usize| {
        let mut azimuths = vec![7; length];
        let found = day_azimuths(date, Body::Sun, point, step, &mut azimuths);
        assert!(found.is_ok() || azimuths.iter().all(|&entry| entry == 7));
        found
    };
    assert_eq!([143, 144].map(|length| refused(DATE, POINT, 10, length)), [Err(28), Ok(144)]);
    assert_eq!([0, 3, -1, 266, i64::MIN, i64::MAX].map(|step| refused(DATE, POINT, step, 0)), [Err(25); 6]);
    for (number, date, point) in spoilt_days(DATE, POINT) {
        assert_eq!(refused(date, point, 3, 0), Err(number));
    }
}
