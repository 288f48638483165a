// How long each call takes through the archive, beside the ordinary Rust version (reference/) in the same run.
//
//     figures                  a row for each call: nanoseconds of both, and their ratio
//     figures SIDE CALL COUNT  so many calls of one side and nothing else, to be counted by callgrind
use std::env;
use std::hint::black_box;
use std::sync::OnceLock;
use std::time::Instant;

use raddlehue_reference as reference;

mod archive;
use archive::*;

const POINT: [i64; 3] = [-1_051_786_000, 397_424_760, 1830];
const AIR: Air = Air { kind: 2, pressure: 820.0, temperature: 11.0 };

// A different minute of a different day for each call.
fn numbers(call: u64) -> [i64; 9] {
    let [year, month, day] = [1900 + call % 201, 1 + call % 12, 1 + call % 28];
    [year, month, day, call * 7 % 24, call * 13 % 60, call * 17 % 60, 0, 0, 67_000].map(|number| number as i64)
}

fn reference_start(numbers: [i64; 9]) -> reference::Start {
    let [year, month, day, hour, minute, second, millisecond, ut1, delta_t] = numbers;
    reference::Start { year, month, day, hour, minute, second, millisecond, ut1, delta_t }
}

fn reference_point([longitude, latitude, height]: [i64; 3]) -> reference::Point {
    reference::Point { longitude, latitude, height }
}

fn reference_air() -> reference::Air {
    reference::Air::Measured(AIR.pressure, AIR.temperature)
}

fn reference_body(body: u32) -> reference::Body {
    if body == 0 {
        reference::Body::Sun
    } else {
        reference::Body::Moon
    }
}

fn place_of(body: u32, call: u64) -> i64 {
    let (mut flag, mut place) = (0, [0; 2]);
    unsafe { raddlehue_place(&numbers(call), body, &POINT, AIR.kind, AIR.pressure, AIR.temperature, &mut flag, &mut place) };
    i64::from(flag) ^ place[0] ^ place[1]
}

fn reference_place(body: u32, call: u64) -> i64 {
    let place = reference::place(reference_start(numbers(call)), reference_body(body), reference_point(POINT), reference_air());
    place.map_or(0, |place| i64::from(place.azimuth.is_some()) ^ place.azimuth.unwrap_or(0) ^ place.elevation)
}

fn shown_of(body: u32, call: u64) -> i64 {
    let (mut flag, mut shown) = (0, [0.0; 3]);
    unsafe { raddlehue_shown_place(&numbers(call), body, &POINT, AIR.kind, AIR.pressure, AIR.temperature, &mut flag, &mut shown) };
    i64::from(flag) ^ (shown[0].to_bits() ^ shown[1].to_bits()) as i64
}

fn reference_shown(body: u32, call: u64) -> i64 {
    let shown = reference::shown_place(reference_start(numbers(call)), reference_body(body), reference_point(POINT), reference_air());
    let bits = |azimuth: f64, elevation: f64| (azimuth.to_bits() ^ elevation.to_bits()) as i64;
    shown.map_or(0, |shown| i64::from(shown.azimuth.is_some()) ^ bits(shown.azimuth.unwrap_or(0.0), shown.elevation))
}

fn offsets() -> Vec<u32> {
    (0..MINUTES as u32).map(|minute| minute * MINUTE_MS as u32).collect()
}

fn batch_of_a_day(body: u32, call: u64) -> i64 {
    let offsets = offsets();
    let (mut azimuths, mut elevations) = (vec![0; MINUTES], vec![0; MINUTES]);
    let mut at = numbers(call);
    at[3..6].fill(0);
    let (length, mut told) = (MINUTES as u64, [0; 2]);
    unsafe {
        raddlehue_batch_ms(
            &at,
            body,
            &POINT,
            offsets.as_ptr(),
            length,
            azimuths.as_mut_ptr(),
            length,
            elevations.as_mut_ptr(),
            length,
            &mut told,
        )
    };
    azimuths.iter().chain(&elevations).fold(0, |sum, entry| sum ^ entry)
}

fn reference_batch_of_a_day(body: u32, call: u64) -> i64 {
    let (mut azimuths, mut elevations) = (vec![0; MINUTES], vec![0; MINUTES]);
    let at = reference::Start { hour: 0, minute: 0, second: 0, ..reference_start(numbers(call)) };
    let _ = reference::batch(at, reference_body(body), reference_point(POINT), &offsets(), &mut azimuths, &mut elevations);
    azimuths.iter().chain(&elevations).fold(0, |sum, entry| sum ^ entry)
}

fn day_of(body: u32, call: u64) -> i64 {
    let [year, month, day, .., ut1, delta_t] = numbers(call);
    let (mut elevations, mut rise_set) = ([0; MINUTES], [0; 4]);
    unsafe { raddlehue_day(&[year, month, day, ut1, delta_t], body, &POINT, &mut elevations, &mut rise_set) };
    let [has_rise, rise, has_set, set] = rise_set.map(i64::from);
    elevations.iter().fold(has_rise + 2 * has_set + 4 * rise + 8192 * set, |sum, entry| sum ^ entry)
}

fn reference_day(body: u32, call: u64) -> i64 {
    let [year, month, day, .., ut1, delta_t] = numbers(call);
    let date = reference::Date { year, month, day, ut1, delta_t };
    let mut elevations = [0; MINUTES];
    let found = reference::day(date, reference_body(body), reference_point(POINT), &mut elevations);
    let [rise, set] = found.map_or([None; 2], |found| [found.rise, found.set]);
    let told = [(rise, 1, 4), (set, 2, 8192)].map(|(minute, flag, scale)| minute.map_or(0, |minute| flag + scale * minute as i64));
    elevations.iter().fold(told[0] + told[1], |sum, entry| sum ^ entry)
}

// The open Pacific on 22 July 2009 (003, Table 4), and another second of it for each call, 01:06:00 to 03:52:39, at all of which something is covered.
const PACIFIC: [i64; 3] = [1_433_617_000, 246_117_000, 0];

fn eclipse_second(call: u64) -> [i64; 9] {
    let second = 3_960 + (call * 37 % 10_000) as i64;
    [2009, 7, 22, second / 3600, second / 60 % 60, second % 60, 0, 0, 66_400]
}

fn eclipse_of(call: u64) -> i64 {
    let mut eclipse = [0; 4];
    unsafe { raddlehue_eclipse(&eclipse_second(call), &PACIFIC, &mut eclipse) };
    eclipse.iter().fold(0, |sum, entry| sum ^ entry)
}

fn reference_eclipse(call: u64) -> i64 {
    let eclipse = reference::eclipse(reference_start(eclipse_second(call)), reference_point(PACIFIC));
    eclipse.map_or(0, |eclipse| eclipse.separation ^ eclipse.sun_radius ^ eclipse.moon_radius ^ eclipse.share)
}

// The radii of that eclipse, and a separation between inner contact and outer.
const SUN_RADIUS: i64 = 26_236_064;
const MOON_RADIUS: i64 = 28_346_192;

fn separation(call: u64) -> i64 {
    MOON_RADIUS - SUN_RADIUS + 1 + (call * 700_001) as i64 % (2 * SUN_RADIUS - 1)
}

fn share_of(call: u64) -> i64 {
    let mut share = 0;
    unsafe { raddlehue_covered_share(separation(call), SUN_RADIUS, MOON_RADIUS, &mut share) };
    share
}

// The azimuths of a day at a step, all of them in one number.
fn azimuths_of(step: i64, body: u32, call: u64) -> i64 {
    let [year, month, day, .., ut1, delta_t] = numbers(call);
    let (mut azimuths, mut count) = ([0; MINUTES], 0);
    unsafe { raddlehue_day_azimuths(&[year, month, day, ut1, delta_t], body, &POINT, step, azimuths.as_mut_ptr(), MINUTES as u64, &mut count) };
    azimuths.iter().fold(count as i64, |sum, &entry| sum ^ i64::from(entry))
}

fn reference_azimuths(step: i64, body: u32, call: u64) -> i64 {
    let [year, month, day, .., ut1, delta_t] = numbers(call);
    let date = reference::Date { year, month, day, ut1, delta_t };
    let mut azimuths = [0; MINUTES];
    let count = reference::day_azimuths(date, reference_body(body), reference_point(POINT), step, &mut azimuths);
    azimuths.iter().fold(count.map_or(0, |count| count as i64), |sum, &entry| sum ^ i64::from(entry))
}

const STRIP_BYTES: usize = STRIP_HEADER + 4 * MINUTES;
const STRIP_HEADER: usize = 18;

// A strip of step 1, of another date for each call.
fn strip_at(call: u64) -> reference::Strip {
    let ([year, month, day, ..], [longitude, latitude, _]) = (numbers(call), POINT);
    reference::Strip { air: reference::StripAir::None, body: reference::Body::Sun, year, month, day, longitude, latitude, step: 1 }
}

// Azimuths once round the sky, and two strips of them, of two days.
struct Strips {
    azimuths: [u32; MINUTES],
    bytes: [[u8; STRIP_BYTES]; 2],
}

fn strips() -> &'static Strips {
    static STRIPS: OnceLock<Strips> = OnceLock::new();
    STRIPS.get_or_init(|| {
        let azimuths = std::array::from_fn(|minute| 2_499_999 * minute as u32);
        let bytes = [0, 1].map(|call| {
            let mut bytes = [0; STRIP_BYTES];
            reference::write_strip(&strip_at(call), &azimuths, &mut bytes).expect("a good strip");
            bytes
        });
        Strips { azimuths, bytes }
    })
}

// What is written is not read again; the buffer is shown, so that it is written all the same.
fn shown_bytes(written: i64, bytes: &[u8; STRIP_BYTES]) -> i64 {
    black_box(bytes);
    written ^ i64::from(bytes[8]) ^ i64::from(bytes[STRIP_BYTES - 1])
}

fn written_strip(call: u64) -> i64 {
    let reference::Strip { year, month, day, longitude, latitude, step, .. } = strip_at(call);
    let (mut bytes, mut written, azimuths) = ([0; STRIP_BYTES], 0, &strips().azimuths);
    let header = [0, 0, year, month, day, longitude, latitude, step];
    unsafe { raddlehue_strip_write(&header, azimuths.as_ptr(), MINUTES as u64, bytes.as_mut_ptr(), STRIP_BYTES as u64, &mut written) };
    shown_bytes(written as i64, &bytes)
}

fn reference_written_strip(call: u64) -> i64 {
    let mut bytes = [0; STRIP_BYTES];
    let written = reference::write_strip(&strip_at(call), &strips().azimuths, &mut bytes);
    shown_bytes(written.map_or(0, |written| written as i64), &bytes)
}

// One of the two strips, by turns.
fn strip_bytes(call: u64) -> &'static [u8; STRIP_BYTES] {
    &strips().bytes[call as usize % 2]
}

fn strip_read_of(call: u64) -> i64 {
    let (mut header, mut measured) = ([0; 8], [0.0; 2]);
    unsafe { raddlehue_strip_read(strip_bytes(call).as_ptr(), STRIP_BYTES as u64, &mut header, &mut measured) };
    header.iter().fold(0, |sum, number| sum ^ number)
}

fn reference_strip_read(call: u64) -> i64 {
    let found = reference::read_strip(black_box(&strip_bytes(call)[..]));
    found.map_or(0, |(strip, _)| strip.year ^ strip.month ^ strip.day ^ strip.longitude ^ strip.latitude ^ strip.step)
}

// The date is the first's or the second's, by turns.
fn strip_found(call: u64) -> i64 {
    let ([year, month, day, ..], [first, second]) = (numbers(call % 2), &strips().bytes);
    let (length, mut part) = (STRIP_BYTES as u64, [0; 3]);
    unsafe { raddlehue_strip_find(first.as_ptr(), length, second.as_ptr(), length, year, month, day, &mut part) };
    (part[0] ^ part[2]) as i64
}

fn reference_strip_found(call: u64) -> i64 {
    let ([year, month, day, ..], [first, second]) = (numbers(call % 2), &strips().bytes);
    let found = reference::find_strip(black_box(&first[..]), black_box(&second[..]), [year, month, day]);
    found.map_or(0, |(strip, azimuths)| (strip ^ azimuths.len()) as i64)
}

fn strip_azimuth_of(call: u64) -> i64 {
    let (azimuths, mut azimuth) = (&strip_bytes(call)[STRIP_HEADER..], 0);
    unsafe { raddlehue_strip_azimuth(azimuths.as_ptr(), azimuths.len() as u64, call * 37 % MINUTES as u64, &mut azimuth) };
    i64::from(azimuth)
}

fn reference_strip_azimuth(call: u64) -> i64 {
    reference::strip_azimuth(black_box(&strip_bytes(call)[STRIP_HEADER..]), call * 37 % MINUTES as u64).map_or(0, i64::from)
}

// Turning points at every hour, once round the sky.
struct Hours {
    minutes: [u32; 25],
    azimuths: [i64; 25],
}

const HOURS: Hours = hours();

const fn hours() -> Hours {
    let mut hours = Hours { minutes: [MINUTES as u32 - 1; 25], azimuths: [0; 25] };
    let mut hour = 0;
    while hour < 24 {
        hours.minutes[hour] = 60 * hour as u32;
        hours.azimuths[hour] = 1_499_999_999 * hour as i64;
        hour += 1;
    }
    hours
}

// Within half a turn every minute is accepted, so that every one is worked.
const HALF_TURN: u64 = 18_000_000_000;

fn judged(body: u32, call: u64) -> i64 {
    let [year, month, day, .., ut1, delta_t] = numbers(call);
    let (Hours { minutes, azimuths }, mut out_minute) = (&HOURS, 0);
    let (date, count) = ([year, month, day, ut1, delta_t], minutes.len() as u64);
    let refusal =
        unsafe { raddlehue_judge(&date, body, &POINT, black_box(HALF_TURN), minutes.as_ptr(), count, azimuths.as_ptr(), count, &mut out_minute) };
    assert_eq!(refusal, 0, "not every minute is worked");
    i64::from(out_minute)
}

fn reference_judged(body: u32, call: u64) -> i64 {
    let [year, month, day, .., ut1, delta_t] = numbers(call);
    let date = reference::Date { year, month, day, ut1, delta_t };
    let proposal = reference::Proposal { minutes: &HOURS.minutes, azimuths: &HOURS.azimuths };
    let verdict = reference::judge(date, reference_body(body), reference_point(POINT), proposal, black_box(HALF_TURN));
    verdict.map_or_else(|(refusal, minute)| i64::from(refusal) + i64::from(minute), |()| 0)
}

// A sum's answer, one of its numbers.
fn sums(export: unsafe extern "C" fn(i64, *mut [i64; 3]) -> u32, call: u64, at: usize) -> i64 {
    let mut sums = [0; 3];
    unsafe { export(instant_at(call), &mut sums) };
    sums[at]
}

fn middle_of(a: i64, b: i64) -> i64 {
    let mut azimuth = 0;
    unsafe { raddlehue_middle(a, b, &mut azimuth) };
    azimuth
}

fn instant_at(call: u64) -> i64 {
    (call * 1_000_003 % 63_000_000_000) as i64 - 31_500_000_000
}

fn angle(call: u64) -> i64 {
    (call * 7_000_003) as i64 % 36_000_000_000
}

struct Call {
    name: &'static str,
    places: u64,
    ours: fn(u64) -> i64,
    reference: fn(u64) -> i64,
}

const CALLS: [Call; 27] = [
    Call { name: "place of the Sun", places: 1, ours: |call| place_of(0, call), reference: |call| reference_place(0, call) },
    Call { name: "place of the Moon", places: 1, ours: |call| place_of(1, call), reference: |call| reference_place(1, call) },
    Call { name: "shown place of the Sun", places: 1, ours: |call| shown_of(0, call), reference: |call| reference_shown(0, call) },
    Call { name: "shown place of the Moon", places: 1, ours: |call| shown_of(1, call), reference: |call| reference_shown(1, call) },
    Call {
        name: "a batch of a day's minutes, Sun, each",
        places: 1440,
        ours: |call| batch_of_a_day(0, call),
        reference: |call| reference_batch_of_a_day(0, call),
    },
    Call {
        name: "a batch of a day's minutes, Moon, each",
        places: 1440,
        ours: |call| batch_of_a_day(1, call),
        reference: |call| reference_batch_of_a_day(1, call),
    },
    Call { name: "a day with rise and set, Sun, each minute", places: 1440, ours: |call| day_of(0, call), reference: |call| reference_day(0, call) },
    Call { name: "a day with rise and set, Moon, each minute", places: 1440, ours: |call| day_of(1, call), reference: |call| reference_day(1, call) },
    Call { name: "an eclipse", places: 1, ours: eclipse_of, reference: reference_eclipse },
    Call {
        name: "a covered share",
        places: 1,
        ours: share_of,
        reference: |call| reference::covered_share(separation(call), SUN_RADIUS, MOON_RADIUS),
    },
    Call {
        name: "a day's azimuths at step 1, Sun, each",
        places: 1440,
        ours: |call| azimuths_of(1, 0, call),
        reference: |call| reference_azimuths(1, 0, call),
    },
    Call {
        name: "a day's azimuths at step 1, Moon, each",
        places: 1440,
        ours: |call| azimuths_of(1, 1, call),
        reference: |call| reference_azimuths(1, 1, call),
    },
    Call {
        name: "a day's azimuths at step 10, Sun, each",
        places: 144,
        ours: |call| azimuths_of(10, 0, call),
        reference: |call| reference_azimuths(10, 0, call),
    },
    Call {
        name: "a day's azimuths at step 10, Moon, each",
        places: 144,
        ours: |call| azimuths_of(10, 1, call),
        reference: |call| reference_azimuths(10, 1, call),
    },
    Call { name: "a strip of step 1 written", places: 1, ours: written_strip, reference: reference_written_strip },
    Call { name: "a strip of step 1 read", places: 1, ours: strip_read_of, reference: reference_strip_read },
    Call { name: "a date looked up in two strips of step 1", places: 1, ours: strip_found, reference: reference_strip_found },
    Call { name: "an azimuth of a strip", places: 1, ours: strip_azimuth_of, reference: reference_strip_azimuth },
    Call { name: "a proposal of 25 points judged, Sun, each minute", places: 1440, ours: |call| judged(0, call), reference: |call| reference_judged(0, call) },
    Call { name: "a proposal of 25 points judged, Moon, each minute", places: 1440, ours: |call| judged(1, call), reference: |call| reference_judged(1, call) },
    Call {
        name: "sums of the Sun",
        places: 1,
        ours: |call| sums(raddlehue_sun_sums_ms, call, 0),
        reference: |call| reference::sun(instant_at(call)).longitude,
    },
    Call {
        name: "sums of the Moon",
        places: 1,
        ours: |call| sums(raddlehue_moon_sums_ms, call, 2),
        reference: |call| reference::moon(instant_at(call)).metres,
    },
    Call {
        name: "nutation",
        places: 1,
        ours: |call| sums(raddlehue_nutation_ms, call, 2),
        reference: |call| reference::nutation(instant_at(call)).true_obliquity,
    },
    Call {
        name: "sine",
        places: 1,
        ours: |call| unsafe { raddlehue_sine(angle(call)) },
        reference: |call| reference::sine(angle(call)),
    },
    Call {
        name: "arctangent",
        places: 1,
        ours: |call| unsafe { raddlehue_arctangent(angle(call) - 18_000_000_000, angle(call + 1)) },
        reference: |call| reference::arctangent(angle(call) - 18_000_000_000, angle(call + 1)).unwrap_or(NO_DIRECTION),
    },
    Call {
        name: "root",
        places: 1,
        ours: |call| unsafe { raddlehue_root(call.wrapping_mul(0x9e37_79b9_7f4a_7c15)) } as i64,
        reference: |call| reference::root(call.wrapping_mul(0x9e37_79b9_7f4a_7c15)) as i64,
    },
    Call {
        name: "middle of two azimuths",
        places: 1,
        ours: |call| middle_of(angle(call), angle(call + 1)),
        reference: |call| reference::middle(angle(call), angle(call + 1)).unwrap_or(0),
    },
];

// Nanoseconds of one call, the best of many short runs: what else the machine does only adds to a run.
fn nanoseconds(call: fn(u64) -> i64, places: u64) -> f64 {
    let turns = 1 + 400 / places;
    let mut best = f64::INFINITY;
    for run in 0..60 {
        let begun = Instant::now();
        for turn in 0..turns {
            black_box(call(black_box(run * turns + turn)));
        }
        best = best.min(begun.elapsed().as_nanos() as f64 / (turns * places) as f64);
    }
    best
}

// The time of one call in that of another, run by turns, so that what else the machine does falls on both.
fn ratio(call: fn(u64) -> i64, other: fn(u64) -> i64) -> f64 {
    let mut best = [f64::INFINITY; 2];
    for run in 0..60 {
        for (best, side) in best.iter_mut().zip([call, other]) {
            let begun = Instant::now();
            black_box(side(black_box(run)));
            *best = best.min(begun.elapsed().as_nanos() as f64);
        }
    }
    best[0] / best[1]
}

fn table() {
    println!("| Call | archive, ns | ordinary Rust, ns | ratio |");
    println!("|---|---:|---:|---:|");
    for call in CALLS {
        for turn in 0..50 {
            assert_eq!((call.ours)(turn), (call.reference)(turn), "{} {turn}", call.name);
        }
        let ours = nanoseconds(call.ours, call.places);
        let reference = nanoseconds(call.reference, call.places);
        println!("| {} | {ours:.0} | {reference:.0} | {:.2} |", call.name, ours / reference);
    }
    let (sun, moon) = (ratio(|call| day_of(0, call), |call| batch_of_a_day(0, call)), ratio(|call| day_of(1, call), |call| batch_of_a_day(1, call)));
    println!("\nA day with rise and set takes {sun:.3} (Sun) and {moon:.3} (Moon) of the time of 1,440 samples of the batch.");
}

fn main() {
    let words: Vec<String> = env::args().skip(1).collect();
    let [side, at, count] = &words[..] else {
        return table();
    };
    let call = &CALLS[at.parse::<usize>().expect("the number of a call")];
    let side = if side == "archive" { call.ours } else { call.reference };
    for turn in 0..count.parse::<u64>().expect("a count") {
        black_box(side(black_box(turn)));
    }
}
