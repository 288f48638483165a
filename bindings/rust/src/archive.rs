//! The archive's exports, and all the `unsafe` of this package: `include/raddlehue.h` says what each means.
#![allow(unsafe_code)]

use crate::{Date, Eclipse, Instant, MoonSums, Nutation, Point, Start, SunSums, DAY_MINUTES};

/// A place as C has it: its flag is written beside it.
#[repr(C)]
#[derive(Default)]
pub struct Place {
    pub azimuth_if_any_e8: i64,
    pub elevation_e8: i64,
}

/// A shown place as C has it, its flag likewise.
#[repr(C)]
#[derive(Default)]
pub struct Shown {
    pub azimuth_if_any_degrees: f64,
    pub elevation_degrees: f64,
    pub refraction_degrees: f64,
}

/// What a batch tells beside its refusal.
#[repr(C)]
#[derive(Default)]
pub struct Batch {
    pub index: u64,
    pub count: u64,
}

/// Rise and set as C has them: before each minute a flag, 1 or 0.
#[repr(C)]
#[derive(Default)]
pub struct RiseSet {
    pub has_rise: u32,
    pub rise_minute: u32,
    pub has_set: u32,
    pub set_minute: u32,
}

/// A strip's header as C has it, air and body by their codes.
#[repr(C)]
#[derive(Clone, Copy, Default)]
pub struct Strip {
    pub air_kind: i64,
    pub body: i64,
    pub year: i64,
    pub month: i64,
    pub day: i64,
    pub longitude_e7: i64,
    pub latitude_e7: i64,
    pub step_minutes: i64,
}

/// What a strip's air was measured at, zeros where there is none.
#[repr(C)]
#[derive(Clone, Copy, Default)]
pub struct Measured {
    pub pressure_mbar: f64,
    pub temperature_celsius: f64,
}

/// Which of two strips, from 1, and where its azimuth bytes lie.
#[repr(C)]
#[derive(Default)]
pub struct StripPart {
    pub strip: u64,
    pub offset: u64,
    pub length: u64,
}

// The sizes that `tests/header.c` finds in C.
const _: () = {
    assert!(size_of::<Start>() == 72);
    assert!(size_of::<Point>() == 24);
    assert!(size_of::<Place>() == 16);
    assert!(size_of::<Shown>() == 24);
    assert!(size_of::<Batch>() == 16);
    assert!(size_of::<Date>() == 40);
    assert!(size_of::<RiseSet>() == 16);
    assert!(size_of::<Strip>() == 64);
    assert!(size_of::<Measured>() == 16);
    assert!(size_of::<StripPart>() == 24);
    assert!(size_of::<Eclipse>() == 32);
    assert!(size_of::<Instant>() == 16);
    assert!(size_of::<MoonSums>() == 24);
    assert!(size_of::<SunSums>() == 24);
    assert!(size_of::<Nutation>() == 24);
};

// SAFETY: these are the header's declarations, with a reference for each pointer to one thing or to a whole curve: it is never null nor unaligned, and what it lends to be
// written overlaps nothing else. Every number may be given, so that only the batch, the strips and the judge, which have pointers with lengths, ask their caller
// for care.
unsafe extern "C" {
    pub safe fn raddlehue_place(
        start: &Start,
        body: u32,
        point: &Point,
        air: u32,
        pressure_mbar: f64,
        temperature_celsius: f64,
        has_azimuth: &mut u32,
        place: &mut Place,
    ) -> u32;
    pub safe fn raddlehue_shown_place(
        start: &Start,
        body: u32,
        point: &Point,
        air: u32,
        pressure_mbar: f64,
        temperature_celsius: f64,
        has_azimuth: &mut u32,
        shown: &mut Shown,
    ) -> u32;
    unsafe fn raddlehue_batch_ms(
        start: &Start,
        body: u32,
        point: &Point,
        offsets_ms: *const u32,
        offsets_length: u64,
        azimuths_e8: *mut i64,
        azimuths_length: u64,
        elevations_e8: *mut i64,
        elevations_length: u64,
        batch: &mut Batch,
    ) -> u32;
    pub safe fn raddlehue_day(
        date: &Date,
        body: u32,
        point: &Point,
        elevations_e8: &mut [i64; DAY_MINUTES],
        rise_set: &mut RiseSet,
    ) -> u32;
    unsafe fn raddlehue_day_azimuths(
        date: &Date,
        body: u32,
        point: &Point,
        step_minutes: i64,
        azimuths_e7: *mut u32,
        azimuths_length: u64,
        count: &mut u64,
    ) -> u32;
    unsafe fn raddlehue_strip_write(
        strip: &Strip,
        azimuths_e7: *const u32,
        azimuths_length: u64,
        bytes: *mut u8,
        bytes_length: u64,
        written: &mut u64,
    ) -> u32;
    unsafe fn raddlehue_strip_read(bytes: *const u8, bytes_length: u64, strip: &mut Strip, measured: &mut Measured) -> u32;
    unsafe fn raddlehue_strip_azimuth(azimuths: *const u8, azimuths_length: u64, step: u64, azimuth_e7: &mut u32) -> u32;
    unsafe fn raddlehue_strip_find(
        first: *const u8,
        first_length: u64,
        second: *const u8,
        second_length: u64,
        year: i64,
        month: i64,
        day: i64,
        part: &mut StripPart,
    ) -> u32;
    unsafe fn raddlehue_judge(
        date: &Date,
        body: u32,
        point: &Point,
        tolerance_e8: u64,
        minutes: *const u32,
        minutes_length: u64,
        azimuths_e8: *const i64,
        azimuths_length: u64,
        out_minute: &mut u32,
    ) -> u32;
    pub safe fn raddlehue_plan(
        date: &Date,
        body: u32,
        point: &Point,
        tolerance_e8: u64,
        minutes: &mut [u32; DAY_MINUTES],
        azimuths_e8: &mut [i64; DAY_MINUTES],
        count: &mut u64,
    ) -> u32;
    pub safe fn raddlehue_eclipse(start: &Start, point: &Point, eclipse: &mut Eclipse) -> u32;
    pub safe fn raddlehue_covered_share(
        separation_e8: i64,
        sun_radius_e8: i64,
        moon_radius_e8: i64,
        share_millionths: &mut i64,
    ) -> u32;
    pub safe fn raddlehue_middle(a_e8: i64, b_e8: i64, azimuth_e8: &mut i64) -> u32;
    pub safe fn raddlehue_refraction(
        elevation_e8: i64,
        air: u32,
        pressure_mbar: f64,
        temperature_celsius: f64,
        refraction_degrees: &mut f64,
    ) -> u32;
    pub safe fn raddlehue_day_count(year: i64, month: i64, day: i64, days: &mut i64) -> u32;
    pub safe fn raddlehue_instant(start: &Start, instant: &mut Instant) -> u32;
    pub safe fn raddlehue_moon_sums_ms(tt_ms: i64, sums: &mut MoonSums) -> u32;
    pub safe fn raddlehue_sun_sums_ms(tt_ms: i64, sums: &mut SunSums) -> u32;
    pub safe fn raddlehue_nutation_ms(tt_ms: i64, nutation: &mut Nutation) -> u32;
    pub safe fn raddlehue_mean_sidereal_ms(ut_ms: i64, sidereal_e8: &mut i64) -> u32;
    pub safe fn raddlehue_sine(angle_e8: i64) -> i64;
    pub safe fn raddlehue_cosine(angle_e8: i64) -> i64;
    pub safe fn raddlehue_arctangent(y: i64, x: i64) -> i64;
    pub safe fn raddlehue_root(square: u64) -> u64;
}

/// The batch on slices: its refusal, and what it tells.
pub fn batch(
    start: &Start,
    body: u32,
    point: &Point,
    offsets_ms: &[u32],
    azimuths_e8: &mut [i64],
    elevations_e8: &mut [i64],
) -> (u32, Batch) {
    let mut told = Batch::default();
    // SAFETY: each pointer goes with its own slice's length (an empty slice's is not null, and is not read), and the borrows keep the memories apart.
    let refusal = unsafe {
        raddlehue_batch_ms(
            start,
            body,
            point,
            offsets_ms.as_ptr(),
            offsets_ms.len() as u64,
            azimuths_e8.as_mut_ptr(),
            azimuths_e8.len() as u64,
            elevations_e8.as_mut_ptr(),
            elevations_e8.len() as u64,
            &mut told,
        )
    };
    (refusal, told)
}

/// A day's azimuths into a slice.
pub fn day_azimuths(date: &Date, body: u32, point: &Point, step_minutes: i64, azimuths_e7: &mut [u32], count: &mut u64) -> u32 {
    let (azimuth, length) = (azimuths_e7.as_mut_ptr(), azimuths_e7.len() as u64);
    // SAFETY: as in the batch.
    unsafe { raddlehue_day_azimuths(date, body, point, step_minutes, azimuth, length, count) }
}

/// A strip from a slice into a slice.
pub fn strip_write(strip: &Strip, azimuths_e7: &[u32], bytes: &mut [u8], written: &mut u64) -> u32 {
    let (azimuth, azimuths_length) = (azimuths_e7.as_ptr(), azimuths_e7.len() as u64);
    // SAFETY: as in the batch.
    unsafe { raddlehue_strip_write(strip, azimuth, azimuths_length, bytes.as_mut_ptr(), bytes.len() as u64, written) }
}

/// The header of a slice that is a strip, and what its air was measured at.
pub fn strip_read(bytes: &[u8], strip: &mut Strip, measured: &mut Measured) -> u32 {
    // SAFETY: as in the batch.
    unsafe { raddlehue_strip_read(bytes.as_ptr(), bytes.len() as u64, strip, measured) }
}

/// An azimuth of a slice of azimuth bytes.
pub fn strip_azimuth(azimuths: &[u8], step: u64, azimuth_e7: &mut u32) -> u32 {
    // SAFETY: as in the batch.
    unsafe { raddlehue_strip_azimuth(azimuths.as_ptr(), azimuths.len() as u64, step, azimuth_e7) }
}

/// A part of one of two slices that are strips.
pub fn strip_find(first: &[u8], second: &[u8], year: i64, month: i64, day: i64, part: &mut StripPart) -> u32 {
    let (first_length, second_length) = (first.len() as u64, second.len() as u64);
    // SAFETY: as in the batch; both strips may be the same memory, since neither is written.
    unsafe { raddlehue_strip_find(first.as_ptr(), first_length, second.as_ptr(), second_length, year, month, day, part) }
}

/// The verdict on two slices: its refusal, and the first minute out of tolerance.
pub fn judge(date: &Date, body: u32, point: &Point, tolerance_e8: u64, minutes: &[u32], azimuths_e8: &[i64]) -> (u32, u32) {
    let (minutes_length, azimuths_length) = (minutes.len() as u64, azimuths_e8.len() as u64);
    let (minute, azimuth) = (minutes.as_ptr(), azimuths_e8.as_ptr());
    let mut out_minute = 0;
    // SAFETY: as in the batch.
    let refusal = unsafe {
        raddlehue_judge(date, body, point, tolerance_e8, minute, minutes_length, azimuth, azimuths_length, &mut out_minute)
    };
    (refusal, out_minute)
}
