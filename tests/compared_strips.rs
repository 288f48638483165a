// The archive's strips against the ordinary Rust version's, on strips drawn at random: written, read, read by a step, looked up, and a day's azimuths for one. Each list of bytes and of
// azimuths has an allocation of its own and ends where that ends, so that valgrind sees what is read or written outside of it.
use raddlehue_reference as reference;

use crate::archive::*;
use crate::compared::{all_drawn, answer_one, complete, same};
use crate::random_days::{self, body_of, date_of, point_of};
use crate::random_overhead::without_azimuth;
use crate::random_strips::*;
use crate::{reference_strips, Random};

// How many damaged copies of each strip are read.
pub const DAMAGED: u64 = 8;

// How often each refusal was given, by the kind of the call, and what else has to be drawn.
pub struct Tally {
    reads: [u64; 256],
    writes: [u64; 256],
    azimuths: [u64; 256],
    lookups: [u64; 256],
    days: [u64; 256],
    // of the reads that were refused by 20, those at once and those against the step
    lengths: [u64; 2],
    // of the strips that were read, those of each step, without air and with air that was carried over
    steps: [u64; 4],
    carried_over: [u64; 4],
    // of the lookups, those that found the first strip, where both bear the date or only it does, and the second
    found: [u64; 3],
    // absent azimuths, at the first step, at one between and at the last; and in a day
    absent: [u64; 4],
}

pub const NO_TALLY: Tally = Tally {
    reads: [0; 256],
    writes: [0; 256],
    azimuths: [0; 256],
    lookups: [0; 256],
    days: [0; 256],
    lengths: [0; 2],
    steps: [0; 4],
    carried_over: [0; 4],
    found: [0; 3],
    absent: [0; 4],
};

// One strip with all that is done to it: DAMAGED + 2 strips are read. Days cost a place for each step, so that few are accepted.
pub fn draw(random: &mut Random, turn: u64, seen: &mut Tally) {
    let header = header(random);
    let azimuths = azimuths(random, steps(header[7]));
    let exact = (strip_bytes(header[7]), random.next() as u8);
    let Some(bytes) = write_of(&header, &azimuths, exact, seen) else { panic!("{header:?} is refused") };
    read_of(&bytes, seen);
    read_of(&old(&bytes), seen);
    for _ in 0..DAMAGED {
        let strip = maybe_old(random, &bytes);
        read_of(&damaged(random, &strip), seen);
    }
    let buffer = (size(random, bytes.len()), random.next() as u8);
    write_of(&damaged_header(random, &header), &damaged_azimuths(random, &azimuths), buffer, seen);
    write_of(&header, &azimuths, buffer, seen);
    step_of(random, &bytes[HEADER_BYTES..], seen);
    lookup_of(random, &header, &bytes, seen);
    refused_day(random, seen);
    if turn % 512 == 0 {
        accepted_day(random, seen);
        absent_day(random, seen);
    }
}

// ---- bytes

// The strip that the archive wrote, where it did; the buffer is of that size and filled with that byte.
fn write_of(header: &Header, azimuths: &[u32], (size, fill): (usize, u8), seen: &mut Tally) -> Option<Box<[u8]>> {
    let [mut ours, mut theirs]: [Box<[u8]>; 2] = [(); 2].map(|()| vec![fill; size].into());
    let found = strip_write(header, azimuths, &mut ours);
    let expected = reference_strips::strip_write(header, azimuths, &mut theirs);
    let input = (header, azimuths, size);
    same("strip that is written", input, found, expected, &mut seen.writes);
    same("buffer of a strip", input, (found.0, &ours), (found.0, &theirs), &mut [0; 256]);
    (found.0 == 0).then_some(ours)
}

fn read_of(bytes: &[u8], seen: &mut Tally) {
    let (refusal, found) = strip_read(bytes);
    same("strip that is read", bytes, (refusal, found), reference_strips::strip_read(bytes), &mut seen.reads);
    let [header @ .., _, _] = found;
    match refusal {
        0 => again(bytes, &header, seen),
        20 => seen.lengths[usize::from(is_of_its_length(bytes))] += 1,
        _ => {}
    }
}

fn is_of_its_length(bytes: &[u8]) -> bool {
    bytes.len() >= HEADER_BYTES && usize::from(u16::from_be_bytes([bytes[0], bytes[1]])) == bytes.len() - 2
}

// What was read, written again: each azimuth by its step, and the same bytes of them. What was carried over is refused by 32, and is written without air.
fn again(bytes: &[u8], header: &Header, seen: &mut Tally) {
    let part: Box<[u8]> = bytes[HEADER_BYTES..].into();
    let last = steps(header[7]) as u64 - 1;
    let azimuths: Box<[u32]> = (0..=last).map(|step| azimuth_of(&part, step, seen)).collect();
    for (step, _) in (0..).zip(&azimuths).filter(|(_, azimuth)| **azimuth == NO_AZIMUTH) {
        let case = match step {
            0 => 0,
            _ if step < last => 1,
            _ => 2,
        };
        seen.absent[case] += 1;
    }
    let step = STEPS.iter().position(|step| *step == header[7]).expect("a step");
    let written = write_of(header, &azimuths, (bytes.len(), !bytes[0]), seen);
    if header[0] == 0 {
        assert_eq!(written.as_deref(), Some(bytes), "what was read is written otherwise");
        seen.steps[step] += 1;
    } else {
        let mut bare = *header;
        bare[0] = 0;
        let without = write_of(&bare, &azimuths, (bytes.len(), !bytes[0]), seen).map(|bytes| old(&bytes));
        assert_eq!((header[0], written, without.as_deref()), (CARRIED_OVER, None, Some(bytes)), "byte 1 is read otherwise");
        seen.carried_over[step] += 1;
    }
}

fn azimuth_of(part: &[u8], step: u64, seen: &mut Tally) -> u32 {
    let (refusal, azimuth) = strip_azimuth(part, step);
    same("azimuth of a step", (part, step), (refusal, azimuth), reference_strips::strip_azimuth(part, step), &mut seen.azimuths);
    azimuth
}

// A few bytes of any, and any step: next to the last, or one whose bytes, counted in 64 bits, begin anew.
fn step_of(random: &mut Random, part: &[u8], seen: &mut Tally) {
    let from = random.below(part.len() as u64 + 1) as usize;
    let length = random.below(20).min((part.len() - from) as u64);
    let mut bytes: Box<[u8]> = part[from..from + length as usize].into();
    if let (Some(byte), true) = (bytes.first_mut(), random.one_in(4)) {
        *byte = 0xff;
    }
    let step = match random.below(4) {
        0 => random.next() >> random.below(64),
        1 => (random.below(4) << 62) + random.below(5),
        _ => random.below(length / 4 + 2),
    };
    azimuth_of(&bytes, step, seen);
}

// ---- two strips

// The strip, or the same with air byte 1.
fn maybe_old(random: &mut Random, strip: &[u8]) -> Box<[u8]> {
    if random.one_in(2) { old(strip) } else { strip.into() }
}

// A strip of that date, and else any.
fn another(random: &mut Random, date: [i64; 3]) -> Box<[u8]> {
    let mut header = header(random);
    header[2..5].copy_from_slice(&date);
    let azimuths = azimuths(random, steps(header[7]));
    let mut bytes: Box<[u8]> = vec![0; strip_bytes(header[7])].into();
    assert_eq!(reference_strips::strip_write(&header, &azimuths, &mut bytes).0, 0, "{header:?}");
    maybe_old(random, &bytes)
}

// Of a strip and another, on another date or on its own, either of them damaged now and then. The date asked for is one of theirs, has only the same low bytes, or is
// far from both.
fn lookup_of(random: &mut Random, header: &Header, bytes: &[u8], seen: &mut Tally) {
    let [_, _, year, month, day, ..] = *header;
    let own = [year, month, day];
    let other = if random.one_in(4) { own } else { random_days::date(random) };
    let mut pair = [maybe_old(random, bytes), another(random, other)];
    if random.one_in(2) {
        pair.reverse();
    }
    for strip in &mut pair {
        if random.one_in(4) {
            *strip = damaged(random, strip);
        }
    }
    let date = match random.below(5) {
        0 | 1 => own,
        2 | 3 => other,
        _ => own.map(|number| match random.below(4) {
            0 => number + (1 << [8, 16, 32][random.below(3) as usize]),
            1 => random.outside(number, number),
            _ => number,
        }),
    };
    let [first, second] = &pair;
    let (refusal, part) = strip_find(first, second, date);
    same("lookup", (&pair, date), (refusal, part), reference_strips::strip_find(first, second, date), &mut seen.lookups);
    if refusal == 0 {
        let [other_way, ..] = strip_find(second, first, date).1;
        let case = match [part[0], other_way] {
            [1, 1] => 0,
            [1, _] => 1,
            _ => 2,
        };
        seen.found[case] += 1;
    }
}

// ---- a day's azimuths

fn day_of(numbers: &[i64; 8], body: u32, step: i64, length: usize, seen: &mut Tally) -> Option<Box<[u32]>> {
    let [mut ours, mut theirs]: [Box<[u32]>; 2] = [(); 2].map(|()| vec![POISON as u32; length].into());
    let found = day_azimuths(numbers, body, step, &mut ours);
    let (date, point) = (date_of(numbers), point_of(numbers));
    let known = if body <= MOON { Ok(()) } else { Err(101) };
    let worked = known.and_then(|()| reference::day_azimuths(date, body_of(body), point, step, &mut theirs).map_err(u32::from));
    let input = (numbers, body, step, length);
    same("azimuths of a day", input, found, answer_one(worked.map(|count| count as i64)), &mut seen.days);
    same("list of a day", input, (found.0, &ours), (found.0, &theirs), &mut [0; 256]);
    (found.0 == 0).then_some(ours)
}

// A request that is damaged or not, a step or none, and a list that is too short.
fn refused_day(random: &mut Random, seen: &mut Tally) {
    let (numbers, body) = if random.one_in(2) { random_days::drawn(random) } else { random_days::damaged(random) };
    let known = STEPS[random.below(4) as usize];
    let step = if random.one_in(2) { known } else { no_step(random) };
    let length = if random.one_in(2) { steps(known) - 1 } else { random.below(144) as usize };
    day_of(&numbers, body, step, length, seen);
}

// Mostly of the longest step, since each costs a place.
fn accepted_day(random: &mut Random, seen: &mut Tally) {
    let (numbers, body) = random_days::accepted(random);
    let step = STEPS[if random.one_in(8) { random.below(4) as usize } else { 3 }];
    day_of(&numbers, body, step, steps(step) + random.below(3) as usize, seen);
}

// A day with the body straight overhead, or underfoot, at one of its minutes; one in three minutes has such a point.
fn absent_day(random: &mut Random, seen: &mut Tally) {
    loop {
        let (mut numbers, body) = random_days::drawn(random);
        let step = random.field(0, 143) as usize;
        let [year, month, day, hour, minute, second, millisecond, ut1, delta_t, _, _, height] = at_minute(&numbers, 10 * step);
        let start = reference::Start { year, month, day, hour, minute, second, millisecond, ut1, delta_t };
        let Some(point) = without_azimuth(start, body_of(body), height, random.one_in(2)) else { continue };
        numbers[5..7].copy_from_slice(&[point.longitude, point.latitude]);
        let azimuths = day_of(&numbers, body, 10, 144, seen).expect("an accepted day");
        assert_eq!(azimuths[step], NO_AZIMUTH, "{numbers:?} {step}");
        seen.absent[3] += 1;
        return;
    }
}

// What was drawn, a line for each kind.
pub fn summary(seen: &Tally) -> Vec<String> {
    vec![
        complete("strips that were read", &seen.reads, 20..=26),
        all_drawn("    refused by 20,", &["at once", "against the step"], &seen.lengths),
        all_drawn("    accepted without air, of step", &["1:", "2:", "5:", "10:"], &seen.steps),
        all_drawn("    accepted with air byte 1, of step", &["1:", "2:", "5:", "10:"], &seen.carried_over),
        all_drawn("    absent azimuths,", &["at the first step", "between", "at the last", "in a day"], &seen.absent),
        complete("strips that were written", &seen.writes, [20, 23, 24, 25, 26, 28, 32, 101, 102]),
        complete("azimuths of a step", &seen.azimuths, [26, 106]),
        complete("lookups", &seen.lookups, 20..=27),
        all_drawn("    found", &["the first, as both bear the date", "the first", "the second"], &seen.found),
        complete("azimuths of a day", &seen.days, [1, 2, 3, 5, 6, 7, 8, 9, 25, 28, 101]),
    ]
}
