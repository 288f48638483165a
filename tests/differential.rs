// The archive against the ordinary Rust version (reference/), on seeded random requests, valid and damaged.
//
//     differential COUNT [SEED]
//
// COUNT requests for a place, each asked for plainly and as shown, and with them instants, batches, middles, refractions (many of them at the limit below which there is
// none), covered shares of three numbers, the leaves and the sums at an instant; for every fourth an eclipse, half of these near one that was; for every sixteenth a place is
// moved east or west to where the body stands at that limit, and asked for on both sides, and to where it stands straight overhead or underfoot, if there is such a point then,
// and asked for there, a unit beside and within a batch; of whole days, which are 1,440 places each, one for every 200 requests, and damaged ones, which cost nothing, for
// every eighth; with these a strip that is written, read, damaged, looked up and written again (compared_strips.rs), and proposals that are refused; for every 4096th the day's
// proposals are judged about their tolerance, and plans of it (compared_proposals.rs).
// A refused call writes nothing: its memory stays poisoned. The first mismatch ends the run with the request that gave it, and so does a refusal that no request
// of the run was given, a side of that limit, a body without an azimuth, a mark in a batch, a case of the share or a kind of strip or of proposal that none had (in a run of
// some thousands all are).
use std::env;

use raddlehue_reference as reference;

mod archive;
mod compared;
mod compared_proposals;
mod compared_strips;
mod random;
mod random_days;
mod random_eclipses;
mod random_overhead;
mod random_proposals;
mod random_strips;
mod reference_proposals;
mod reference_strips;
use archive::*;
use compared::*;
use random::{Random, FIELDS};

const FULL_TURN: i64 = 36_000_000_000;
const QUARTER_TURN: i64 = 9_000_000_000;
const DEGREE: i64 = 100_000_000;

// The furthest instant that the sums answer.
const FURTHEST: i64 = 3_190_473_360_000;

#[derive(Clone, Copy, Debug)]
struct Request {
    numbers: [i64; 12],
    body: u32,
    air: Air,
}

fn double(random: &mut Random, lo: f64, hi: f64) -> f64 {
    let part = random.below(1 << 53) as f64 / (1u64 << 53) as f64;
    match random.below(24) {
        0 => lo,
        1 => hi,
        2 => f64::from_bits(lo.to_bits() + 1),
        3 => f64::from_bits(hi.to_bits() + 1),
        4 => f64::INFINITY,
        5 => f64::NEG_INFINITY,
        // a NaN of either sign, quiet or signalling, with any payload
        6 => f64::from_bits(random.next() | 0x7ff0_0000_0000_0001),
        7 => -0.0,
        8 => f64::from_bits(random.next()),
        _ => lo + (hi - lo) * part,
    }
}

fn request(random: &mut Random) -> Request {
    let mut numbers = [0; 12];
    for (number, (lo, hi)) in numbers.iter_mut().zip(FIELDS) {
        *number = random.field(lo, hi);
    }
    let months_are_short = random.below(10) > 0;
    if months_are_short {
        numbers[2] = numbers[2].min(28);
    }
    let damaged = match random.below(4) {
        0 => 1 + random.below(2),
        _ => 0,
    };
    for _ in 0..damaged {
        damage(random, &mut numbers);
    }
    let air = match random.below(16) {
        0 => carried_over(),
        _ => Air { kind: kind(random), pressure: double(random, 0.0, 1200.0), temperature: double(random, -80.0, 80.0) },
    };
    Request { numbers, body: code(random, 2), air }
}

// One number outside its range.
fn damage(random: &mut Random, numbers: &mut [i64; 12]) {
    let at = random.below(12) as usize;
    numbers[at] = random.outside(FIELDS[at].0, FIELDS[at].1);
}

// A code below so many, and now and then one that is not.
fn code(random: &mut Random, known: u32) -> u32 {
    match random.below(64) {
        0 => known,
        1 => u32::MAX,
        2 => (random.next() as u32).max(known),
        _ => random.below(u64::from(known)) as u32,
    }
}

// None or measured, and now and then a kind that is neither: 1, which was standard, 3, which is a strip's alone, or any.
fn kind(random: &mut Random) -> u32 {
    match random.below(64) {
        0 => 1,
        1 => 3,
        2 => u32::MAX,
        3 => random.next() as u32 >> random.below(32),
        _ => 2 * random.below(2) as u32,
    }
}

impl Request {
    fn reference_start(&self) -> reference::Start {
        let [year, month, day, hour, minute, second, millisecond, ut1, delta_t, ..] = self.numbers;
        reference::Start { year, month, day, hour, minute, second, millisecond, ut1, delta_t }
    }

    fn reference_point(&self) -> reference::Point {
        reference::Point { longitude: self.numbers[9], latitude: self.numbers[10], height: self.numbers[11] }
    }

    fn reference_body(&self) -> reference::Body {
        random_days::body_of(self.body)
    }
}

fn reference_air(air: Air) -> reference::Air {
    match air.kind {
        0 => reference::Air::None,
        _ => reference::Air::Measured(air.pressure, air.temperature),
    }
}

// The codes are C's, which the reference has none of: the body is judged first, then the air, then the request.
fn body_refusal(body: u32) -> Result<(), u32> {
    if body <= MOON { Ok(()) } else { Err(101) }
}

fn kind_refusal(kind: u32) -> Result<(), u32> {
    if kind == 0 || kind == 2 { Ok(()) } else { Err(102) }
}

fn answer_seen<T, const N: usize>(found: Result<(Option<T>, [i64; N]), u32>) -> Answer<Seen<N>> {
    answer_or(found.map(|(azimuth, numbers)| Seen { has_azimuth: u32::from(azimuth.is_some()), numbers }), Seen::UNWRITTEN)
}

// How often each refusal was given, by the kind of the call.
struct Tally {
    places: [u64; 256],
    instants: [u64; 256],
    batches: [u64; 256],
    middles: [u64; 256],
    refractions: [u64; 256],
    sums: [u64; 256],
    days: [u64; 256],
    eclipses: [u64; 256],
    shares: [u64; 256],
    // of the accepted places, those at a whole 0.1 s of each of the three times, and the others
    milliseconds: [u64; 2],
    // of the places next to the limit of refraction, those below it and those that are not
    limits: [u64; 2],
    // of the places at a point without an azimuth and beside it, by OVERHEAD; of the batches that have such a place, by MARKS
    overhead: [u64; OVERHEAD.len()],
    marks: [u64; MARKS.len()],
    // arctangents of two zeros
    origins: u64,
    // of the accepted days, those without a rise, without a set, and with one of them at minute 0
    crossings: [u64; 3],
    // of the accepted eclipses that were drawn near one, and of the accepted triples, those of each case of the share
    eclipse_cases: [u64; 4],
    share_cases: [u64; 4],
    strips: compared_strips::Tally,
    proposals: compared_proposals::Tally,
}

fn place_of(asked: &Request, seen: &mut Tally) -> Answer<Seen<2>> {
    let (start, body, point) = (asked.reference_start(), asked.reference_body(), asked.reference_point());
    let air = reference_air(asked.air);
    let known = body_refusal(asked.body).and_then(|()| kind_refusal(asked.air.kind));
    let plain = known.and_then(|()| reference::place(start, body, point, air).map_err(u32::from));
    let expected = answer_seen(plain.map(|place| (place.azimuth, [place.azimuth.unwrap_or(0), place.elevation])));
    same("place", asked, place(&asked.numbers, asked.body, asked.air), expected, &mut seen.places);
    if expected.0 == 0 {
        seen.milliseconds[usize::from(asked.numbers[6..9].iter().any(|ms| ms % 100 != 0))] += 1;
    }
    let shown = known.and_then(|()| reference::shown_place(start, body, point, air).map_err(u32::from));
    let doubles = shown.map(|shown| {
        let doubles = [shown.azimuth.unwrap_or(0.0), shown.elevation, shown.refraction];
        (shown.azimuth, doubles.map(|x| x.to_bits() as i64))
    });
    same("shown place", asked, shown_place(&asked.numbers, asked.body, asked.air), answer_seen(doubles), &mut seen.places);
    expected
}

// The place where refraction begins: of two longitudes that lie on both sides of the limit, the two neighbours between them that do, where the elevation changes by some
// ten units. Nothing where the request is refused, or the body is on one side of the limit from both.
fn limit_of(random: &mut Random, asked: &Request, seen: &mut Tally) {
    let (start, body, point) = (asked.reference_start(), asked.reference_body(), asked.reference_point());
    let is_refracted = |longitude| {
        let found = reference::place(start, body, reference::Point { longitude, ..point }, reference::Air::None);
        found.map(|place| place.elevation >= LOWEST_REFRACTED)
    };
    let [mut on_one, mut on_other] = [0; 2].map(|_| random.field(FIELDS[9].0, FIELDS[9].1));
    let Ok(side) = is_refracted(on_one) else { return };
    if is_refracted(on_other) == Ok(side) {
        return;
    }
    while (on_one - on_other).abs() > 1 {
        let between = (on_one + on_other) / 2;
        if is_refracted(between) == Ok(side) {
            on_one = between;
        } else {
            on_other = between;
        }
    }
    for longitude in [on_one, on_other] {
        let mut beside = *asked;
        beside.numbers[9] = longitude;
        place_of(&beside, seen);
        seen.limits[usize::from(is_refracted(longitude) == Ok(true))] += 1;
    }
}

// What is asked for about a point without an azimuth: the Sun's and the Moon's, each overhead and underfoot; a unit beside it, where there is an azimuth; and what is refused.
const OVERHEAD: [&str; 6] = ["the Sun's overhead", "underfoot", "the Moon's overhead", "underfoot", "beside one and with an azimuth", "refused"];

// The place moved to where its body stands straight overhead or underfoot, and to the four points a unit away; then within a batch. Nothing where the request is refused
// or the instant has no such point. Of an eclipse the elevation counts there all the same.
fn overhead_of(random: &mut Random, asked: &Request, seen: &mut Tally) {
    let is_overhead = random.one_in(2);
    let (start, body, height) = (asked.reference_start(), asked.reference_body(), asked.numbers[11]);
    let Some(point) = random_overhead::without_azimuth(start, body, height, is_overhead) else { return };
    let mut moved = *asked;
    for [east, north] in [[-1, 0], [1, 0], [0, -1], [0, 1], [0, 0]] {
        moved.numbers[9..11].copy_from_slice(&[random_days::reduced(point.longitude + east), point.latitude + north]);
        let case = match place_of(&moved, seen) {
            (0, Seen { has_azimuth: 0, .. }) => 2 * asked.body as usize + usize::from(!is_overhead),
            (0, _) => 4,
            _ => 5,
        };
        seen.overhead[case] += 1;
    }
    plain_eclipse(&moved, seen);
    marked_batch(random, &moved, seen);
}

// Where a batch has the mark.
const MARKS: [&str; 4] = ["at the first entry", "at one between", "at the last", "and was refused"];

// A batch from midnight on, the request's own moment, which has no azimuth, at one of its entries; any other offset may be too late.
fn marked_batch(random: &mut Random, asked: &Request, seen: &mut Tally) {
    let mut from_midnight = *asked;
    from_midnight.numbers[3..7].fill(0);
    let mut offsets: Vec<u32> = (0..3 + random.below(4)).map(|_| random.between(0, 2 * LAST_OF_DAY_MS) as u32).collect();
    let place = random.below(3) as usize;
    let entry = [0, offsets.len() / 2, offsets.len() - 1][place];
    offsets[entry] = clock_ms(&asked.numbers) as u32;
    let case = match asked_batch(random, &from_midnight, &offsets, seen) {
        Some(azimuths) if azimuths[entry] == NO_DIRECTION => place,
        Some(azimuths) => panic!("no mark at entry {entry} of {azimuths:?}, of {asked:?}"),
        None => 3,
    };
    seen.marks[case] += 1;
}

// UT is UTC with UT1 minus UTC added, TT is UT with delta-T added, both from noon.
fn instant_of(asked: &Request, seen: &mut Tally) {
    let found = reference::instant::Instant::new(&asked.reference_start()).map_err(u32::from);
    let expected = answer(found.map(|found| [found.ut, found.tt]));
    same("instant", asked, instant(start_of(&asked.numbers)), expected, &mut seen.instants);
}

fn batch_of(random: &mut Random, asked: &mut Request, seen: &mut Tally) {
    let late = random.one_in(4);
    if late {
        asked.numbers[..3].copy_from_slice(&[2100, 12, 31]);
        asked.numbers[3] = 23;
    }
    let count = random.below(7) as usize;
    let offsets: Vec<u32> = (0..count).map(|_| if late { late_offset(random, &asked.numbers) } else { random.next() as u32 }).collect();
    asked_batch(random, asked, &offsets, seen);
}

// To the last moment of the day, a millisecond beyond it, or anywhere in an hour and more. (A clock that is refused may give any offset.)
fn late_offset(random: &mut Random, numbers: &[i64; 12]) -> u32 {
    let is_clock = numbers[3..7].iter().all(|number| (0..1000).contains(number));
    let left = if is_clock { LAST_OF_DAY_MS - clock_ms(numbers) } else { 0 };
    match random.below(4) {
        0 => left as u32,
        1 => (left + 1) as u32,
        _ => random.below(4_000_000) as u32,
    }
}

// The batch into buffers of about the list's length; what the azimuths' holds after, where it is accepted.
fn asked_batch(random: &mut Random, asked: &Request, offsets: &[u32], seen: &mut Tally) -> Option<Vec<i64>> {
    let mut lengths =
        [offsets.len(); 2].map(|count| (count + random.below(3) as usize).saturating_sub(usize::from(random.one_in(8))));
    if random.one_in(10) {
        lengths[0] = 0;
    }
    let fresh = lengths.map(|length| (0..length).map(|_| random.next() as i64).collect::<Vec<i64>>());
    let (mut ours, mut theirs) = (fresh.clone(), fresh);
    let [azimuths, elevations] = &mut ours;
    let found = batch(&asked.numbers, asked.body, offsets, azimuths, elevations);
    let [azimuths, elevations] = &mut theirs;
    let (start, body, point) = (asked.reference_start(), asked.reference_body(), asked.reference_point());
    let expected = match body_refusal(asked.body) {
        Err(refusal) => answer(Err(refusal)),
        Ok(()) => match reference::batch(start, body, point, offsets, azimuths, elevations) {
            Ok(count) => (0, [0, count as i64]),
            Err((13, index)) => (13, [index as i64, 0]),
            Err((refusal, _)) => answer(Err(u32::from(refusal))),
        },
    };
    let input = (asked, offsets, lengths);
    same("batch", input, found, expected, &mut seen.batches);
    // the buffers, each as it is left
    same("buffers of a batch", input, (found.0, &ours), (found.0, &theirs), &mut [0; 256]);
    let [azimuths, _] = ours;
    (found.0 == 0).then_some(azimuths)
}

fn reference_day(numbers: &[i64; 8], body: u32) -> Result<Day, u32> {
    let mut elevations = UNWRITTEN_DAY.elevations;
    let (date, point) = (random_days::date_of(numbers), random_days::point_of(numbers));
    let found = reference::day(date, random_days::body_of(body), point, &mut elevations).map_err(u32::from)?;
    let [rise, set] = [found.rise, found.set].map(|minute| minute.map_or([0, 0], |minute| [1, minute as u32]));
    Ok(Day { elevations, rise_set: [rise[0], rise[1], set[0], set[1]] })
}

// Of two curves that differ, the first minute that does says more than both of them.
fn day_of((numbers, body): ([i64; 8], u32), seen: &mut Tally) {
    let (refusal, ours) = day(&numbers, body);
    let found = body_refusal(body).and_then(|()| reference_day(&numbers, body));
    let expected_refusal = found.err().unwrap_or(0);
    let expected = found.unwrap_or(UNWRITTEN_DAY);
    let differs = (0..MINUTES).find(|&minute| ours.elevations[minute] != expected.elevations[minute]);
    let of = |day: &Day| (day.rise_set, differs.map(|minute| (minute, day.elevations[minute])));
    same("day", (numbers, body), (refusal, of(&ours)), (expected_refusal, of(&expected)), &mut seen.days);
    if refusal == 0 {
        let [rises, rise, sets, set] = ours.rise_set;
        let at_0 = (rises == 1 && rise == 0) || (sets == 1 && set == 0);
        for (count, is_so) in seen.crossings.iter_mut().zip([rises == 0, sets == 0, at_0]) {
            *count += u64::from(is_so);
        }
    }
}

fn eclipse_of(random: &mut Random, asked: &Request, seen: &mut Tally) {
    let is_near = random.one_in(2);
    let numbers = if is_near { random_eclipses::near(random) } else { asked.numbers };
    let found = plain_eclipse(&Request { numbers, ..*asked }, seen);
    if let (0, [separation, sun, moon, _], true) = (found.0, found.1, is_near) {
        seen.eclipse_cases[random_eclipses::case_of([separation, sun, moon])] += 1;
    }
}

fn plain_eclipse(asked: &Request, seen: &mut Tally) -> Answer<[i64; 4]> {
    let found = reference::eclipse(asked.reference_start(), asked.reference_point()).map_err(u32::from);
    let expected = answer(found.map(|found| [found.separation, found.sun_radius, found.moon_radius, found.share]));
    same("eclipse", asked.numbers, eclipse(&asked.numbers), expected, &mut seen.eclipses);
    expected
}

fn share_of(random: &mut Random, seen: &mut Tally) {
    let disks = random_eclipses::triple(random);
    let [separation, sun, moon] = disks;
    let judged = if reference::eclipse::are_disks(separation, sun, moon) { Ok(()) } else { Err(105) };
    let expected = answer_one(judged.map(|()| reference::covered_share(separation, sun, moon)));
    same("covered share", disks, covered_share(separation, sun, moon), expected, &mut seen.shares);
    if judged.is_ok() {
        seen.share_cases[random_eclipses::case_of(disks)] += 1;
    }
}

fn azimuth(random: &mut Random) -> i64 {
    match random.below(10) {
        0 => random.outside(0, FULL_TURN - 1),
        1 => 0,
        2 => FULL_TURN - 1,
        _ => random.between(0, FULL_TURN - 1),
    }
}

fn middle_of(random: &mut Random, seen: &mut Tally) {
    let a = azimuth(random);
    let b = match random.below(6) {
        0 => a.wrapping_add(FULL_TURN / 2),
        1 => a.wrapping_sub(FULL_TURN / 2),
        2 => a.wrapping_add(random.between(-3, 3)),
        _ => azimuth(random),
    };
    let expected = answer_one(reference::middle(a, b).map_err(u32::from));
    same("middle", (a, b), middle(a, b), expected, &mut seen.middles);
}

fn refraction_of(random: &mut Random, air: Air, seen: &mut Tally) {
    let elevation = match random.below(16) {
        0 => random.outside(-QUARTER_TURN, QUARTER_TURN),
        1..4 => LOWEST_REFRACTED + random.between(-3, 3),
        4..8 => random.between(-2 * DEGREE, 2 * DEGREE),
        _ => random.field(-QUARTER_TURN, QUARTER_TURN),
    };
    let within = if (-QUARTER_TURN..=QUARTER_TURN).contains(&elevation) { Ok(()) } else { Err(103) };
    let judged = kind_refusal(air.kind).and(within).and_then(|()| reference::request::check_air(&reference_air(air)).map_err(u32::from));
    let expected = answer_one(judged.map(|()| reference::refraction(elevation, reference_air(air)).to_bits() as i64));
    same("refraction", (elevation, air), refraction(elevation, air), expected, &mut seen.refractions);
}

// A number of any size: as many are short as long.
fn any(random: &mut Random) -> i64 {
    (random.next() as i64) >> random.below(64)
}

// A square, or a number beside one.
fn about_square(random: &mut Random) -> u64 {
    let root = random.next() >> 32 >> random.below(32);
    (root * root).wrapping_add(random.below(3)).wrapping_sub(1)
}

fn leaves(random: &mut Random, seen: &mut Tally) {
    let (x, y) = if random.one_in(256) { (0, 0) } else { (any(random), any(random)) };
    let square = about_square(random);
    let ours = unsafe { (raddlehue_sine(x), raddlehue_cosine(x), raddlehue_arctangent(y, x), raddlehue_root(x as u64), raddlehue_root(square)) };
    let direction = reference::arctangent(y, x).unwrap_or(NO_DIRECTION);
    let expected = (reference::sine(x), reference::cosine(x), direction, reference::root(x as u64), reference::root(square));
    same("sine, cosine, arctangent, root, root", (x, y, square), (0, ours), (0, expected), &mut [0; 256]);
    seen.origins += u64::from((x, y) == (0, 0));
}

fn sums_at(random: &mut Random, seen: &mut Tally) {
    let n = match random.below(16) {
        0 => random.outside(-FURTHEST, FURTHEST),
        _ => random.field(-FURTHEST, FURTHEST),
    };
    let reached = if (-FURTHEST..=FURTHEST).contains(&n) { Ok(n) } else { Err(104) };
    let moon = reached.map(reference::moon).map(|moon| [moon.longitude, moon.latitude, moon.metres]);
    let sun = reached.map(reference::sun).map(|sun| [sun.longitude, sun.latitude, sun.radius]);
    let angles = reached.map(reference::nutation).map(|found| [found.longitude, found.obliquity, found.true_obliquity]);
    same("sums of the Moon", n, moon_sums(n), answer(moon), &mut seen.sums);
    same("sums of the Sun", n, sun_sums(n), answer(sun), &mut seen.sums);
    same("nutation", n, nutation(n), answer(angles), &mut seen.sums);
    same("mean sidereal time", n, mean_sidereal(n), answer_one(reached.map(reference::mean_sidereal)), &mut seen.sums);
}

fn date(random: &mut Random, asked: &Request, seen: &mut Tally) {
    let [year, month, mut day, ..] = asked.numbers;
    if random.one_in(4) {
        day = random.between(0, 32);
    }
    let expected = answer_one(reference::day_count(year, month, day).map_err(u32::from));
    same("day count", (year, month, day), day_count(year, month, day), expected, &mut seen.instants);
}

fn draw(random: &mut Random, turn: u64, seen: &mut Tally) {
    let mut asked = request(random);
    place_of(&asked, seen);
    instant_of(&asked, seen);
    date(random, &asked, seen);
    refraction_of(random, asked.air, seen);
    middle_of(random, seen);
    share_of(random, seen);
    leaves(random, seen);
    if turn % 16 == 0 {
        limit_of(random, &asked, seen);
        overhead_of(random, &asked, seen);
    }
    if turn % 4 == 0 {
        eclipse_of(random, &asked, seen);
        batch_of(random, &mut asked, seen);
        sums_at(random, seen);
    }
    if turn % 8 == 0 {
        day_of(random_days::damaged(random), seen);
        compared_strips::draw(random, turn / 8, &mut seen.strips);
        compared_proposals::draw(random, turn / 8, &mut seen.proposals);
    }
    if turn % 200 == 0 {
        day_of(random_days::accepted(random), seen);
    }
}

// What was drawn, a line for each kind.
fn summary(seen: &Tally) -> Vec<String> {
    let mut lines = vec![
        complete("places", &seen.places, (1..=11).chain([101, 102])),
        all_drawn("accepted places,", &["at a whole 0.1 s", "at no whole 0.1 s"], &seen.milliseconds),
        complete("instants and dates", &seen.instants, 1..=6),
        complete("batches", &seen.batches, (1..=9).chain([12, 13, 101])),
        complete("middles", &seen.middles, [14, 15]),
        complete("refractions", &seen.refractions, [10, 11, 102, 103]),
        all_drawn("places next to the limit of refraction,", &["below it", "not below it"], &seen.limits),
        all_drawn("places without an azimuth,", &OVERHEAD, &seen.overhead),
        all_drawn("batches that have one,", &MARKS, &seen.marks),
        all_drawn("arctangents", &["of two zeros"], &[seen.origins]),
        complete("sums", &seen.sums, [104]),
        complete("days", &seen.days, [1, 2, 3, 5, 6, 7, 8, 9, 101]),
        format!("    days without a rise {}, without a set {}, with one at minute 0 {}", seen.crossings[0], seen.crossings[1], seen.crossings[2]),
        complete("eclipses", &seen.eclipses, 1..=9),
        all_drawn("eclipses near one that was,", &random_eclipses::CASES, &seen.eclipse_cases),
        complete("shares", &seen.shares, [105]),
        all_drawn("shares of three numbers,", &random_eclipses::CASES, &seen.share_cases),
    ];
    lines.extend(compared_strips::summary(&seen.strips));
    lines.extend(compared_proposals::summary(&seen.proposals));
    lines
}

fn main() {
    let numbers: Vec<u64> = env::args().skip(1).filter_map(|word| word.parse().ok()).collect();
    let count = numbers.first().copied().unwrap_or(1_000_000);
    let mut random = Random(numbers.get(1).copied().unwrap_or(1));
    let none = [0; 256];
    let mut seen = Tally {
        places: none,
        instants: none,
        batches: none,
        middles: none,
        refractions: none,
        sums: none,
        days: none,
        eclipses: none,
        shares: none,
        milliseconds: [0; 2],
        limits: [0; 2],
        overhead: [0; OVERHEAD.len()],
        marks: [0; MARKS.len()],
        origins: 0,
        crossings: [0; 3],
        eclipse_cases: [0; 4],
        share_cases: [0; 4],
        strips: compared_strips::NO_TALLY,
        proposals: compared_proposals::NO_TALLY,
    };
    for turn in 0..count {
        draw(&mut random, turn, &mut seen);
    }
    println!("differential: {count} requests, 0 mismatches; answered (0) and refused\n{}", summary(&seen).join("\n"));
}
