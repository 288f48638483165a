// The ordinary Rust version (reference/) behind the functions of include/raddlehue.h, to be measured beside the module on the same processor. ports/watch/ordinary
// compiles it as a part of reference/, so that there is one crate.
use crate::eclipse::are_disks;
use crate::instant::Instant;
use crate::request::check_air;

const FURTHEST: i64 = 3_190_473_360_000;
const QUARTER_TURN: i64 = 9_000_000_000;

fn start_of(n: &[i64; 9]) -> Start {
    Start { year: n[0], month: n[1], day: n[2], hour: n[3], minute: n[4], second: n[5], millisecond: n[6], ut1: n[7], delta_t: n[8] }
}

fn point_of(n: &[i64; 3]) -> Point {
    Point { longitude: n[0], latitude: n[1], height: n[2] }
}

fn body_of(body: u32) -> Body {
    if body == 0 {
        Body::Sun
    } else {
        Body::Moon
    }
}

fn is_air(kind: u32) -> bool {
    kind == 0 || kind == 2
}

fn air_of(kind: u32, pressure: f64, temperature: f64) -> Air {
    if kind == 0 {
        Air::None
    } else {
        Air::Measured(pressure, temperature)
    }
}

fn date_of(n: &[i64; 5]) -> Date {
    Date { year: n[0], month: n[1], day: n[2], ut1: n[3], delta_t: n[4] }
}

fn write<T>(found: Result<T, u8>, lent: &mut T) -> u32 {
    match found {
        Ok(value) => {
            *lent = value;
            0
        }
        Err(refusal) => u32::from(refusal),
    }
}

// A place: its numbers, and whether the first of them is an azimuth.
fn write_place<T>(found: Result<(bool, T), u8>, has_azimuth: &mut u32, lent: &mut T) -> u32 {
    if let Ok((has, _)) = found {
        *has_azimuth = u32::from(has);
    }
    write(found.map(|(_, numbers)| numbers), lent)
}

#[no_mangle]
pub extern "C" fn raddlehue_place(
    start: &[i64; 9], body: u32, point: &[i64; 3], air: u32, pressure: f64, temperature: f64, has_azimuth: &mut u32, lent: &mut [i64; 2],
) -> u32 {
    if body > 1 {
        return 101;
    }
    if !is_air(air) {
        return 102;
    }
    let found = place(start_of(start), body_of(body), point_of(point), air_of(air, pressure, temperature));
    let numbers = found.map(|place| (place.azimuth.is_some(), [place.azimuth.unwrap_or(0), place.elevation]));
    write_place(numbers, has_azimuth, lent)
}

#[no_mangle]
pub extern "C" fn raddlehue_shown_place(
    start: &[i64; 9], body: u32, point: &[i64; 3], air: u32, pressure: f64, temperature: f64, has_azimuth: &mut u32, lent: &mut [f64; 3],
) -> u32 {
    if body > 1 {
        return 101;
    }
    if !is_air(air) {
        return 102;
    }
    let found = shown_place(start_of(start), body_of(body), point_of(point), air_of(air, pressure, temperature));
    let numbers = found.map(|shown| (shown.azimuth.is_some(), [shown.azimuth.unwrap_or(0.0), shown.elevation, shown.refraction]));
    write_place(numbers, has_azimuth, lent)
}

// A list of nothing may come with a null pointer. The module's text is retargeted from x86-64, so lengths have 64 bits here.
unsafe fn list<'a, T>(first: *const T, length: u64) -> &'a [T] {
    if length == 0 {
        &[]
    } else {
        unsafe { core::slice::from_raw_parts(first, length as usize) }
    }
}

unsafe fn buffer<'a, T>(first: *mut T, length: u64) -> &'a mut [T] {
    if length == 0 {
        &mut []
    } else {
        unsafe { core::slice::from_raw_parts_mut(first, length as usize) }
    }
}

#[no_mangle]
pub unsafe extern "C" fn raddlehue_batch_ms(
    start: &[i64; 9], body: u32, point: &[i64; 3], offsets: *const u32, offsets_length: u64, azimuths: *mut i64, azimuths_length: u64,
    elevations: *mut i64, elevations_length: u64, lent: &mut [u64; 2],
) -> u32 {
    if body > 1 {
        return 101;
    }
    let (offsets, azimuths, elevations) =
        unsafe { (list(offsets, offsets_length), buffer(azimuths, azimuths_length), buffer(elevations, elevations_length)) };
    match batch(start_of(start), body_of(body), point_of(point), offsets, azimuths, elevations) {
        Ok(count) => {
            *lent = [0, count as u64];
            0
        }
        Err((refusal, index)) => {
            if refusal == 13 {
                *lent = [index as u64, 0];
            }
            u32::from(refusal)
        }
    }
}

#[no_mangle]
pub extern "C" fn raddlehue_day(n: &[i64; 5], body: u32, point: &[i64; 3], elevations: &mut [i64; day::MINUTES], lent: &mut [u32; 4]) -> u32 {
    if body > 1 {
        return 101;
    }
    let found = day(date_of(n), body_of(body), point_of(point), elevations);
    let told = found.map(|found| [found.rise, found.set].map(|minute| minute.map_or([0, 0], |minute| [1, minute as u32])));
    write(told.map(|[rise, set]| [rise[0], rise[1], set[0], set[1]]), lent)
}

#[no_mangle]
pub unsafe extern "C" fn raddlehue_day_azimuths(
    n: &[i64; 5], body: u32, point: &[i64; 3], step: i64, azimuths: *mut u32, azimuths_length: u64, lent: &mut u64,
) -> u32 {
    if body > 1 {
        return 101;
    }
    let azimuths = unsafe { buffer(azimuths, azimuths_length) };
    write(day_azimuths(date_of(n), body_of(body), point_of(point), step, azimuths).map(|count| count as u64), lent)
}

#[no_mangle]
pub unsafe extern "C" fn raddlehue_strip_write(
    n: &[i64; 8], azimuths: *const u32, azimuths_length: u64, bytes: *mut u8, bytes_length: u64, lent: &mut u64,
) -> u32 {
    let [air, body, year, month, day, longitude, latitude, step] = *n;
    if !(0..=1).contains(&body) {
        return 101;
    }
    let air = match air {
        0 => StripAir::None,
        2 => StripAir::Measured(0.0, 0.0),
        3 => StripAir::CarriedOver(0.0, 0.0),
        _ => return 102,
    };
    let strip = Strip { air, body: body_of(body as u32), year, month, day, longitude, latitude, step };
    let (azimuths, bytes) = unsafe { (list(azimuths, azimuths_length), buffer(bytes, bytes_length)) };
    write(write_strip(&strip, azimuths, bytes).map(|count| count as u64), lent)
}

#[no_mangle]
pub unsafe extern "C" fn raddlehue_strip_read(bytes: *const u8, bytes_length: u64, lent: &mut [i64; 8], measured: &mut [f64; 2]) -> u32 {
    let found = read_strip(unsafe { list(bytes, bytes_length) });
    let numbers = found.map(|(strip, _)| {
        let Strip { air, body, year, month, day, longitude, latitude, step } = strip;
        let (kind, doubles) = match air {
            StripAir::None => (0, [0.0, 0.0]),
            StripAir::Measured(pressure, temperature) => (2, [pressure, temperature]),
            StripAir::CarriedOver(pressure, temperature) => (3, [pressure, temperature]),
        };
        *measured = doubles;
        [kind, i64::from(body == Body::Moon), year, month, day, longitude, latitude, step]
    });
    write(numbers, lent)
}

#[no_mangle]
pub unsafe extern "C" fn raddlehue_strip_azimuth(azimuths: *const u8, azimuths_length: u64, step: u64, lent: &mut u32) -> u32 {
    write(strip_azimuth(unsafe { list(azimuths, azimuths_length) }, step), lent)
}

#[no_mangle]
pub unsafe extern "C" fn raddlehue_strip_find(
    first: *const u8, first_length: u64, second: *const u8, second_length: u64, year: i64, month: i64, day: i64, lent: &mut [u64; 3],
) -> u32 {
    let (first, second) = unsafe { (list(first, first_length), list(second, second_length)) };
    let found = find_strip(first, second, [year, month, day]);
    let part = found.map(|(at, azimuths)| {
        let strip = if at == 1 { first } else { second };
        [at as u64, (strip.len() - azimuths.len()) as u64, azimuths.len() as u64]
    });
    write(part, lent)
}

// Turning points, as 02, Item 7, has them, with the archive's way to a plan: from each point to the farthest minute that a straight leg reaches within the
// tolerance, looked for from the far end. The rules stand here, since a plan is only one of many, and reference/ need not have the same.
mod turning_points {
    use crate::day::{midnight, Date, MINUTE, MINUTES};
    use crate::instant::Instant;
    use crate::numbers::{floor_div, reduce, HALF_TURN, TURN};
    use crate::place::Observer;
    use crate::request::{check_point, Body, Point};

    pub struct Worked {
        midnight: Instant,
        observer: Observer,
        body: Body,
    }

    impl Worked {
        pub fn new(date: Date, body: Body, point: Point) -> Result<Self, u8> {
            let midnight = Instant::new(&midnight(&date))?;
            check_point(&point)?;
            Ok(Self { midnight, observer: Observer::new(&point), body })
        }

        fn azimuth(&self, minute: u32) -> Option<i64> {
            self.observer.look(self.body, &self.midnight.after(MINUTE * minute)).azimuth
        }
    }

    fn short_way(from: i64, to: i64) -> i64 {
        let arc = reduce(to - from);
        if arc > HALF_TURN {
            arc - TURN
        } else {
            arc
        }
    }

    fn are_opposite(a: i64, b: i64) -> bool {
        short_way(a, b) == HALF_TURN
    }

    // From one point, a minute and its azimuth, to the next.
    type Leg = [(u32, i64); 2];

    fn is_out(tolerance: u64, [(m0, a0), (m1, a1)]: Leg, minute: u32, worked: i64) -> bool {
        let part = floor_div(short_way(a0, a1) * i64::from(minute - m0), i64::from(m1 - m0));
        short_way(reduce(a0 + part), worked).unsigned_abs() > tolerance
    }

    fn is_formed(minutes: &[u32], azimuths: &[i64]) -> bool {
        (2..=MINUTES).contains(&minutes.len())
            && minutes.len() == azimuths.len()
            && minutes.first() == Some(&0)
            && minutes.last() == Some(&1_439)
            && minutes.windows(2).all(|two| two[0] < two[1])
            && azimuths.iter().all(|azimuth| (0..TURN).contains(azimuth))
    }

    // A refusal, and the minute of 31.
    pub fn judge(day: &Worked, tolerance: u64, minutes: &[u32], azimuths: &[i64]) -> Result<(), (u8, u32)> {
        if !is_formed(minutes, azimuths) {
            return Err((29, 0));
        }
        if azimuths.windows(2).any(|two| are_opposite(two[0], two[1])) {
            return Err((30, 0));
        }
        let mut at = 0;
        for minute in 0..MINUTES as u32 {
            if minutes[at + 1] < minute {
                at += 1;
            }
            let leg = [at, at + 1].map(|at| (minutes[at], azimuths[at]));
            if day.azimuth(minute).is_some_and(|worked| is_out(tolerance, leg, minute, worked)) {
                return Err((31, minute));
            }
        }
        Ok(())
    }

    fn is_good(day: &[i64; MINUTES], tolerance: u64, from: u32, to: u32) -> bool {
        let leg = [from, to].map(|minute| (minute, day[minute as usize]));
        !are_opposite(leg[0].1, leg[1].1) && (from + 1..=to).all(|minute| !is_out(tolerance, leg, minute, day[minute as usize]))
    }

    pub fn plan(worked: &Worked, tolerance: u64, minutes: &mut [u32; MINUTES], azimuths: &mut [i64; MINUTES]) -> Result<u64, u8> {
        let mut day = [0; MINUTES];
        for (minute, azimuth) in day.iter_mut().enumerate() {
            *azimuth = worked.azimuth(minute as u32).ok_or(107)?;
        }
        if day.windows(2).any(|two| are_opposite(two[0], two[1])) {
            return Err(107);
        }
        let (mut count, mut at) = (1, 0);
        (minutes[0], azimuths[0]) = (0, day[0]);
        while at < 1_439 {
            at = (at + 1..=1_439).rev().find(|&to| is_good(&day, tolerance, at, to)).unwrap_or(at + 1);
            (minutes[count], azimuths[count]) = (at, day[at as usize]);
            count += 1;
        }
        Ok(count as u64)
    }
}

#[no_mangle]
pub unsafe extern "C" fn raddlehue_judge(
    n: &[i64; 5], body: u32, point: &[i64; 3], tolerance: u64, minutes: *const u32, minutes_length: u64, azimuths: *const i64, azimuths_length: u64,
    lent: &mut u32,
) -> u32 {
    if body > 1 {
        return 101;
    }
    let (minutes, azimuths) = unsafe { (list(minutes, minutes_length), list(azimuths, azimuths_length)) };
    let worked = turning_points::Worked::new(date_of(n), body_of(body), point_of(point)).map_err(|refusal| (refusal, 0));
    match worked.and_then(|day| turning_points::judge(&day, tolerance, minutes, azimuths)) {
        Ok(()) => 0,
        Err((refusal, minute)) => {
            if refusal == 31 {
                *lent = minute;
            }
            u32::from(refusal)
        }
    }
}

#[no_mangle]
pub extern "C" fn raddlehue_plan(
    n: &[i64; 5], body: u32, point: &[i64; 3], tolerance: u64, minutes: &mut [u32; day::MINUTES], azimuths: &mut [i64; day::MINUTES], lent: &mut u64,
) -> u32 {
    if body > 1 {
        return 101;
    }
    let worked = turning_points::Worked::new(date_of(n), body_of(body), point_of(point));
    write(worked.and_then(|day| turning_points::plan(&day, tolerance, minutes, azimuths)), lent)
}

#[no_mangle]
pub extern "C" fn raddlehue_eclipse(start: &[i64; 9], point: &[i64; 3], lent: &mut [i64; 4]) -> u32 {
    let found = eclipse(start_of(start), point_of(point));
    write(found.map(|found| [found.separation, found.sun_radius, found.moon_radius, found.share]), lent)
}

#[no_mangle]
pub extern "C" fn raddlehue_covered_share(separation: i64, sun_radius: i64, moon_radius: i64, lent: &mut i64) -> u32 {
    if !are_disks(separation, sun_radius, moon_radius) {
        return 105;
    }
    *lent = covered_share(separation, sun_radius, moon_radius);
    0
}

#[no_mangle]
pub extern "C" fn raddlehue_middle(a: i64, b: i64, lent: &mut i64) -> u32 {
    write(middle(a, b), lent)
}

#[no_mangle]
pub extern "C" fn raddlehue_refraction(elevation: i64, air: u32, pressure: f64, temperature: f64, lent: &mut f64) -> u32 {
    if !is_air(air) {
        return 102;
    }
    if !(-QUARTER_TURN..=QUARTER_TURN).contains(&elevation) {
        return 103;
    }
    let air = air_of(air, pressure, temperature);
    write(check_air(&air).map(|()| refraction(elevation, air)), lent)
}

#[no_mangle]
pub extern "C" fn raddlehue_day_count(year: i64, month: i64, day: i64, lent: &mut i64) -> u32 {
    write(day_count(year, month, day), lent)
}

#[no_mangle]
pub extern "C" fn raddlehue_instant(start: &[i64; 9], lent: &mut [i64; 2]) -> u32 {
    write(Instant::new(&start_of(start)).map(|found| [found.ut, found.tt]), lent)
}

fn reached(n: i64) -> Result<i64, u8> {
    if (-FURTHEST..=FURTHEST).contains(&n) {
        Ok(n)
    } else {
        Err(104)
    }
}

#[no_mangle]
pub extern "C" fn raddlehue_moon_sums_ms(tt: i64, lent: &mut [i64; 3]) -> u32 {
    write(reached(tt).map(moon).map(|moon| [moon.longitude, moon.latitude, moon.metres]), lent)
}

#[no_mangle]
pub extern "C" fn raddlehue_sun_sums_ms(tt: i64, lent: &mut [i64; 3]) -> u32 {
    write(reached(tt).map(sun).map(|sun| [sun.longitude, sun.latitude, sun.radius]), lent)
}

#[no_mangle]
pub extern "C" fn raddlehue_nutation_ms(tt: i64, lent: &mut [i64; 3]) -> u32 {
    write(reached(tt).map(nutation).map(|found| [found.longitude, found.obliquity, found.true_obliquity]), lent)
}

#[no_mangle]
pub extern "C" fn raddlehue_mean_sidereal_ms(ut: i64, lent: &mut i64) -> u32 {
    write(reached(ut).map(mean_sidereal), lent)
}

#[no_mangle]
pub extern "C" fn raddlehue_sine(angle: i64) -> i64 {
    sine(angle)
}

#[no_mangle]
pub extern "C" fn raddlehue_cosine(angle: i64) -> i64 {
    cosine(angle)
}

#[no_mangle]
pub extern "C" fn raddlehue_arctangent(y: i64, x: i64) -> i64 {
    arctangent(y, x).unwrap_or(NO_DIRECTION)
}

#[no_mangle]
pub extern "C" fn raddlehue_root(square: u64) -> u64 {
    root(square)
}
