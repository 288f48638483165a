// The exports as the archive has them (crates/capi/src), and each of them as a call that shows what was written; include/raddlehue.h says what each means.
//
// Memory that is lent for an answer is poisoned before the call, with poison on both sides of it: an answer comes back as the refusal and what the memory holds
// after, which is POISON where a refused call wrote nothing. What writes beside its answer ends the test.
#![allow(dead_code)]

use std::ptr;

extern "C" {
    pub fn raddlehue_place(
        start: &[i64; 9],
        body: u32,
        point: &[i64; 3],
        air: u32,
        pressure: f64,
        temperature: f64,
        has_azimuth: *mut u32,
        place: *mut [i64; 2],
    ) -> u32;
    pub fn raddlehue_shown_place(
        start: &[i64; 9],
        body: u32,
        point: &[i64; 3],
        air: u32,
        pressure: f64,
        temperature: f64,
        has_azimuth: *mut u32,
        shown: *mut [f64; 3],
    ) -> u32;
    pub fn raddlehue_batch_ms(
        start: &[i64; 9],
        body: u32,
        point: &[i64; 3],
        offsets: *const u32,
        offsets_length: u64,
        azimuths: *mut i64,
        azimuths_length: u64,
        elevations: *mut i64,
        elevations_length: u64,
        batch: *mut [u64; 2],
    ) -> u32;
    pub fn raddlehue_day(date: &[i64; 5], body: u32, point: &[i64; 3], elevations: *mut [i64; MINUTES], rise_set: *mut [u32; 4]) -> u32;
    pub fn raddlehue_day_azimuths(
        date: &[i64; 5],
        body: u32,
        point: &[i64; 3],
        step: i64,
        azimuths: *mut u32,
        azimuths_length: u64,
        count: *mut u64,
    ) -> u32;
    pub fn raddlehue_strip_write(
        strip: &[i64; 8],
        azimuths: *const u32,
        azimuths_length: u64,
        bytes: *mut u8,
        bytes_length: u64,
        written: *mut u64,
    ) -> u32;
    pub fn raddlehue_strip_read(bytes: *const u8, bytes_length: u64, strip: *mut [i64; 8], measured: *mut [f64; 2]) -> u32;
    pub fn raddlehue_strip_azimuth(azimuths: *const u8, azimuths_length: u64, step: u64, azimuth: *mut u32) -> u32;
    pub fn raddlehue_strip_find(
        first: *const u8,
        first_length: u64,
        second: *const u8,
        second_length: u64,
        year: i64,
        month: i64,
        day: i64,
        part: *mut [u64; 3],
    ) -> u32;
    pub fn raddlehue_judge(
        date: &[i64; 5],
        body: u32,
        point: &[i64; 3],
        tolerance: u64,
        minutes: *const u32,
        minutes_length: u64,
        azimuths: *const i64,
        azimuths_length: u64,
        out_minute: *mut u32,
    ) -> u32;
    pub fn raddlehue_plan(
        date: &[i64; 5],
        body: u32,
        point: &[i64; 3],
        tolerance: u64,
        minutes: *mut [u32; MINUTES],
        azimuths: *mut [i64; MINUTES],
        count: *mut u64,
    ) -> u32;
    pub fn raddlehue_eclipse(start: &[i64; 9], point: &[i64; 3], eclipse: *mut [i64; 4]) -> u32;
    pub fn raddlehue_covered_share(separation: i64, sun_radius: i64, moon_radius: i64, share: *mut i64) -> u32;
    pub fn raddlehue_middle(a: i64, b: i64, azimuth: *mut i64) -> u32;
    pub fn raddlehue_refraction(elevation: i64, air: u32, pressure: f64, temperature: f64, degrees: *mut f64) -> u32;
    pub fn raddlehue_day_count(year: i64, month: i64, day: i64, days: *mut i64) -> u32;
    pub fn raddlehue_instant(start: &[i64; 9], instant: *mut [i64; 2]) -> u32;
    pub fn raddlehue_moon_sums_ms(tt: i64, sums: *mut [i64; 3]) -> u32;
    pub fn raddlehue_sun_sums_ms(tt: i64, sums: *mut [i64; 3]) -> u32;
    pub fn raddlehue_nutation_ms(tt: i64, nutation: *mut [i64; 3]) -> u32;
    pub fn raddlehue_mean_sidereal_ms(ut: i64, sidereal: *mut i64) -> u32;
    pub fn raddlehue_sine(angle: i64) -> i64;
    pub fn raddlehue_cosine(angle: i64) -> i64;
    pub fn raddlehue_arctangent(y: i64, x: i64) -> i64;
    pub fn raddlehue_root(square: u64) -> u64;
}

pub const SUN: u32 = 0;
pub const MOON: u32 = 1;

#[derive(Clone, Copy, Debug)]
pub struct Air {
    pub kind: u32,
    pub pressure: f64,
    pub temperature: f64,
}

// The minutes of a day, and the elevation at and above which a body is up.
pub const MINUTES: usize = 1440;
pub const THRESHOLD: i64 = -83_330_000;

// The elevation at and above which refraction is worked.
pub const LOWEST_REFRACTED: i64 = -83_337_000;

pub const NO_AIR: Air = Air { kind: 0, pressure: 0.0, temperature: 0.0 };

pub const fn measured(pressure: f64, temperature: f64) -> Air {
    Air { kind: 2, pressure, temperature }
}

// The kind of a strip's air that was carried over.
pub const CARRIED_OVER: i64 = 3;

// A request's air in a strip with air byte 1, from what the archive reads of one.
pub fn carried_over() -> Air {
    let header = [0x02, 0x50, 1, 1, 0, 7, 211, 10, 17, 0, 0, 0, 0, 0, 0, 0, 0, 10];
    let (refusal, [kind, .., pressure, temperature]) = strip_read(&[&header[..], &[0; 576]].concat());
    assert_eq!((refusal, kind), (0, CARRIED_OVER));
    measured(f64::from_bits(pressure as u64), f64::from_bits(temperature as u64))
}

// What stands in a strip's azimuths where there is none.
pub const NO_AZIMUTH: u32 = u32::MAX;

// What stands in a batch's azimuths where there is none, and is the arctangent of two zeros.
pub const NO_DIRECTION: i64 = i64::MAX;

pub const POISON: i64 = 0x5a5a_5a5a_5a5a_5a5a;

// A refusal, and what the lent memory holds after the call.
pub type Answer<T> = (u32, T);

// In fours of bytes, so that none lie unwatched between a flag and its poison.
#[repr(C)]
struct Lent<T> {
    before: [u32; 8],
    answer: T,
    after: [u32; 8],
}

// The call gets a pointer into the whole of it, so that a write beside the answer is seen and not optimised away.
fn lent<T: Copy>(poison: T, call: impl FnOnce(*mut T) -> u32) -> Answer<T> {
    const BESIDE: [u32; 8] = [POISON as u32; 8];
    let mut lent = Lent { before: BESIDE, answer: poison, after: BESIDE };
    let whole: *mut Lent<T> = &mut lent;
    let refusal = call(unsafe { ptr::addr_of_mut!((*whole).answer) });
    assert_eq!([lent.before, lent.after], [BESIDE; 2], "written beside the answer");
    (refusal, lent.answer)
}

fn poisoned<const N: usize>(call: impl FnOnce(*mut [i64; N]) -> u32) -> Answer<[i64; N]> {
    lent([POISON; N], call)
}

// A request that nothing refuses: the nine numbers of a start and the three of a point; and what refuses each of these where it is out of all range.
pub const GOOD_REQUEST: [i64; 12] = [2024, 2, 29, 12, 30, 15, 567, -321, 69_184, 1_122_334_455, -455_443_322, 120];
const REQUEST_REFUSALS: [u32; 12] = [1, 2, 3, 4, 4, 4, 4, 5, 6, 7, 8, 9];

// The least and the greatest number in each field, with what refuses it; before it all are good, and after it none need be.
pub fn wrong_requests() -> Vec<([i64; 12], u32)> {
    let mut wrong = vec![];
    for (field, refusal) in REQUEST_REFUSALS.into_iter().enumerate() {
        for extreme in [i64::MIN, i64::MAX] {
            let (mut one, mut rest) = (GOOD_REQUEST, GOOD_REQUEST);
            one[field] = extreme;
            rest[field..].fill(extreme);
            wrong.extend([(one, refusal), (rest, refusal)]);
        }
    }
    wrong
}

// The start and the point of a request's twelve numbers.
pub fn start_of(numbers: &[i64; 12]) -> &[i64; 9] {
    numbers.first_chunk().unwrap()
}

pub fn point_of(numbers: &[i64; 12]) -> &[i64; 3] {
    numbers.last_chunk().unwrap()
}

// What the memory of a place holds: whether there is an azimuth, and two numbers; of a shown place, three.
#[derive(Clone, Copy, Debug, PartialEq)]
pub struct Seen<const N: usize> {
    pub has_azimuth: u32,
    pub numbers: [i64; N],
}

impl<const N: usize> Seen<N> {
    pub const UNWRITTEN: Self = Seen { has_azimuth: POISON as u32, numbers: [POISON; N] };
}

fn seen<const N: usize>(call: impl FnOnce(*mut u32, *mut [i64; N]) -> u32) -> Answer<Seen<N>> {
    let mut has_azimuth = Seen::<N>::UNWRITTEN.has_azimuth;
    let (refusal, numbers) = poisoned(|numbers| {
        let (refusal, flag) = lent(has_azimuth, |flag| call(flag, numbers));
        has_azimuth = flag;
        refusal
    });
    (refusal, Seen { has_azimuth, numbers })
}

// Azimuth and elevation.
pub fn place(numbers: &[i64; 12], body: u32, air: Air) -> Answer<Seen<2>> {
    let (start, point) = (start_of(numbers), point_of(numbers));
    seen(|flag, at| unsafe { raddlehue_place(start, body, point, air.kind, air.pressure, air.temperature, flag, at) })
}

// Azimuth, elevation and refraction, in bits, as all doubles here: two that are equal need not be the same.
pub fn shown_place(numbers: &[i64; 12], body: u32, air: Air) -> Answer<Seen<3>> {
    let (start, point) = (start_of(numbers), point_of(numbers));
    seen(|flag, at| unsafe { raddlehue_shown_place(start, body, point, air.kind, air.pressure, air.temperature, flag, at.cast()) })
}

// Index and count. An empty list has a null pointer.
pub fn batch(numbers: &[i64; 12], body: u32, offsets: &[u32], azimuths: &mut [i64], elevations: &mut [i64]) -> Answer<[i64; 2]> {
    let (start, point) = (start_of(numbers), point_of(numbers));
    let (offset, offsets_length) = handed(offsets);
    let ((azimuth, azimuths_length), (elevation, elevations_length)) = (handed_mut(azimuths), handed_mut(elevations));
    poisoned(|at| unsafe {
        raddlehue_batch_ms(start, body, point, offset, offsets_length, azimuth, azimuths_length, elevation, elevations_length, at.cast())
    })
}

// What a day's memory holds: the elevations, and whether there is a rise, its minute, whether there is a set, its minute.
#[derive(Clone, Copy, Debug, PartialEq)]
pub struct Day {
    pub elevations: [i64; MINUTES],
    pub rise_set: [u32; 4],
}

pub const UNWRITTEN_DAY: Day = Day { elevations: [POISON; MINUTES], rise_set: [POISON as u32; 4] };

// Of eight numbers: a date's three with its UT1 minus UTC and delta-T, and a point's three.
pub fn day(numbers: &[i64; 8], body: u32) -> Answer<Day> {
    let (date, point) = (numbers.first_chunk().unwrap(), numbers.last_chunk().unwrap());
    let mut rise_set = UNWRITTEN_DAY.rise_set;
    let (refusal, elevations) = poisoned(|elevations| {
        let (refusal, told) = lent(rise_set, |at| unsafe { raddlehue_day(date, body, point, elevations, at) });
        rise_set = told;
        refusal
    });
    (refusal, Day { elevations, rise_set })
}

// The twelve numbers of a place at a minute of such a day.
pub fn at_minute(numbers: &[i64; 8], minute: usize) -> [i64; 12] {
    let [year, month, day, ut1, delta_t, longitude, latitude, height] = *numbers;
    [year, month, day, minute as i64 / 60, minute as i64 % 60, 0, 0, ut1, delta_t, longitude, latitude, height]
}

// Times of one day, in milliseconds from its midnight.
pub const MINUTE_MS: i64 = 60_000;
pub const LAST_OF_DAY_MS: i64 = MINUTES as i64 * MINUTE_MS - 1;

// The clock of a place's twelve numbers.
pub fn clock_ms(numbers: &[i64; 12]) -> i64 {
    (60 * numbers[3] + numbers[4]) * MINUTE_MS + 1000 * numbers[5] + numbers[6]
}

// The same numbers at another time of the day.
pub fn at_ms(numbers: &[i64; 12], ms: i64) -> [i64; 12] {
    let mut moved = *numbers;
    moved[3..7].copy_from_slice(&[ms / (60 * MINUTE_MS), ms / MINUTE_MS % 60, ms / 1000 % 60, ms % 1000]);
    moved
}

// A slice as C is handed it; an empty one has a null pointer.
fn handed<T>(list: &[T]) -> (*const T, u64) {
    (if list.is_empty() { ptr::null() } else { list.as_ptr() }, list.len() as u64)
}

fn handed_mut<T>(list: &mut [T]) -> (*mut T, u64) {
    (if list.is_empty() { ptr::null_mut() } else { list.as_mut_ptr() }, list.len() as u64)
}

// How many azimuths of a day were written, of a day's eight numbers.
pub fn day_azimuths(numbers: &[i64; 8], body: u32, step: i64, azimuths: &mut [u32]) -> Answer<i64> {
    let (date, point) = (numbers.first_chunk().unwrap(), numbers.last_chunk().unwrap());
    let (first, length) = handed_mut(azimuths);
    lent(POISON, |at| unsafe { raddlehue_day_azimuths(date, body, point, step, first, length, at.cast()) })
}

// A strip's header: the kind of its air, body, year, month, day, longitude, latitude, step.
pub type Header = [i64; 8];

// What is read of a strip: its header, and the bits of the pressure and the temperature of its air.
pub type HeaderRead = [i64; 10];

// What is read where the header is this one.
pub fn as_read(header: &Header) -> HeaderRead {
    let [pressure, temperature]: [f64; 2] = if header[0] == CARRIED_OVER { [1010.0, 10.0] } else { [0.0, 0.0] };
    let [air, body, year, month, day, longitude, latitude, step] = *header;
    [air, body, year, month, day, longitude, latitude, step, pressure.to_bits() as i64, temperature.to_bits() as i64]
}

// How many bytes of a strip were written.
pub fn strip_write(strip: &Header, azimuths: &[u32], bytes: &mut [u8]) -> Answer<i64> {
    let (azimuth, azimuths_length) = handed(azimuths);
    let (first, length) = handed_mut(bytes);
    lent(POISON, |at| unsafe { raddlehue_strip_write(strip, azimuth, azimuths_length, first, length, at.cast()) })
}

pub fn strip_read(bytes: &[u8]) -> Answer<HeaderRead> {
    let (first, length) = handed(bytes);
    poisoned(|at: *mut HeaderRead| unsafe { raddlehue_strip_read(first, length, at.cast(), at.cast::<Header>().add(1).cast()) })
}

pub fn strip_azimuth(azimuths: &[u8], step: u64) -> Answer<u32> {
    let (first, length) = handed(azimuths);
    lent(POISON as u32, |at| unsafe { raddlehue_strip_azimuth(first, length, step, at) })
}

// Which strip, 1 or 2, and offset and length of its azimuth bytes.
pub fn strip_find(first: &[u8], second: &[u8], date: [i64; 3]) -> Answer<[i64; 3]> {
    let ((first, first_length), (second, second_length)) = (handed(first), handed(second));
    let [year, month, day] = date;
    poisoned(|at| unsafe { raddlehue_strip_find(first, first_length, second, second_length, year, month, day, at.cast()) })
}

// What a proposal's memory holds: the first minute out of tolerance, which only a refusal by 31 writes.
pub const UNWRITTEN_MINUTE: u32 = POISON as u32;

// The verdict on two lists, of a day's eight numbers.
pub fn judge(numbers: &[i64; 8], body: u32, tolerance: u64, minutes: &[u32], azimuths: &[i64]) -> Answer<u32> {
    let (date, point) = (numbers.first_chunk().unwrap(), numbers.last_chunk().unwrap());
    let ((minute, minutes_length), (azimuth, azimuths_length)) = (handed(minutes), handed(azimuths));
    lent(UNWRITTEN_MINUTE, |at| unsafe {
        raddlehue_judge(date, body, point, tolerance, minute, minutes_length, azimuth, azimuths_length, at)
    })
}

// What a plan's memory holds: both buffers, and how many entries of each are the plan's.
#[derive(Clone, Copy, Debug, PartialEq)]
pub struct Plan {
    pub minutes: [u32; MINUTES],
    pub azimuths: [i64; MINUTES],
    pub count: i64,
}

pub const UNWRITTEN_PLAN: Plan = Plan { minutes: [UNWRITTEN_MINUTE; MINUTES], azimuths: [POISON; MINUTES], count: POISON };

impl Plan {
    // The plan's own entries. Those behind them have to be left alone: no minute and no azimuth is poison.
    pub fn points(&self) -> (&[u32], &[i64]) {
        let count = usize::try_from(self.count).expect("a count");
        let ((minutes, behind), (azimuths, beside)) = (self.minutes.split_at(count), self.azimuths.split_at(count));
        assert!(behind.iter().all(|minute| *minute == UNWRITTEN_MINUTE), "written behind the {count} minutes of a plan");
        assert!(beside.iter().all(|azimuth| *azimuth == POISON), "written behind the {count} azimuths of a plan");
        (minutes, azimuths)
    }
}

pub fn plan(numbers: &[i64; 8], body: u32, tolerance: u64) -> Answer<Plan> {
    let (date, point) = (numbers.first_chunk().unwrap(), numbers.last_chunk().unwrap());
    let Plan { mut minutes, mut azimuths, .. } = UNWRITTEN_PLAN;
    let (refusal, count) = lent(POISON, |count| {
        let (refusal, written) = lent(minutes, |minute| {
            let (refusal, written) = lent(azimuths, |azimuth| unsafe { raddlehue_plan(date, body, point, tolerance, minute, azimuth, count.cast()) });
            azimuths = written;
            refusal
        });
        minutes = written;
        refusal
    });
    (refusal, Plan { minutes, azimuths, count })
}

// Separation, the Sun's radius, the Moon's and the covered share.
pub fn eclipse(numbers: &[i64; 12]) -> Answer<[i64; 4]> {
    let (start, point) = (start_of(numbers), point_of(numbers));
    poisoned(|at| unsafe { raddlehue_eclipse(start, point, at) })
}

pub fn covered_share(separation: i64, sun_radius: i64, moon_radius: i64) -> Answer<i64> {
    lent(POISON, |at| unsafe { raddlehue_covered_share(separation, sun_radius, moon_radius, at) })
}

pub fn middle(a: i64, b: i64) -> Answer<i64> {
    lent(POISON, |at| unsafe { raddlehue_middle(a, b, at) })
}

pub fn refraction(elevation: i64, air: Air) -> Answer<i64> {
    lent(POISON, |at| unsafe { raddlehue_refraction(elevation, air.kind, air.pressure, air.temperature, at.cast()) })
}

pub fn day_count(year: i64, month: i64, day: i64) -> Answer<i64> {
    lent(POISON, |at| unsafe { raddlehue_day_count(year, month, day, at) })
}

// UT and TT.
pub fn instant(start: &[i64; 9]) -> Answer<[i64; 2]> {
    poisoned(|at| unsafe { raddlehue_instant(start, at) })
}

pub fn moon_sums(tt: i64) -> Answer<[i64; 3]> {
    poisoned(|at| unsafe { raddlehue_moon_sums_ms(tt, at) })
}

pub fn sun_sums(tt: i64) -> Answer<[i64; 3]> {
    poisoned(|at| unsafe { raddlehue_sun_sums_ms(tt, at) })
}

pub fn nutation(tt: i64) -> Answer<[i64; 3]> {
    poisoned(|at| unsafe { raddlehue_nutation_ms(tt, at) })
}

pub fn mean_sidereal(ut: i64) -> Answer<i64> {
    lent(POISON, |at| unsafe { raddlehue_mean_sidereal_ms(ut, at) })
}
