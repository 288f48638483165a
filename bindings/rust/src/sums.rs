//! Dates and instants, and the sums at one instant, which the places are made of.
#![forbid(unsafe_code)]

use crate::refusal::answer;
use crate::{archive, Refusal, Start};

/// Days from 2000-01-01 to a date of the Gregorian calendar, 1900 to 2100, negative before.
///
/// # Errors
/// [`Year`](Refusal::Year), [`Month`](Refusal::Month) and [`Day`](Refusal::Day), 1 to 3, in this order.
///
/// ```
/// assert_eq!(raddlehue::day_count(2000, 2, 29), Ok(59));
/// ```
pub fn day_count(year: i64, month: i64, day: i64) -> Result<i64, Refusal> {
    answer(|days| archive::raddlehue_day_count(year, month, day, days))
}

/// A moment in both scales, in milliseconds from 2000-01-01 12:00 of each: UT turns the Earth, TT moves the Sun and the Moon.
#[repr(C)]
#[derive(Clone, Copy, Debug, Default, PartialEq, Eq, Hash)]
pub struct Instant {
    /// UT1, which [`mean_sidereal_ms`] takes.
    pub ut_ms: i64,
    /// TT, which the other sums take: delta-T more.
    pub tt_ms: i64,
}

/// The start's UT1 and TT, in milliseconds from 2000-01-01 12:00.
///
/// # Errors
/// [`Year`](Refusal::Year) to [`DeltaT`](Refusal::DeltaT), 1 to 6, in this order.
///
/// ```
/// use raddlehue::{instant, Instant, Start};
///
/// let start = Start::utc(2000, 1, 1, 12, 0, 1).ut1_ms(300).delta_t_ms(63_800);
/// assert_eq!(instant(start), Ok(Instant { ut_ms: 1300, tt_ms: 65_100 }));
/// ```
pub fn instant(start: Start) -> Result<Instant, Refusal> {
    answer(|instant| archive::raddlehue_instant(&start, instant))
}

/// The Moon from the Earth's centre before nutation: ecliptic longitude eastward and latitude northward, and distance.
#[repr(C)]
#[derive(Clone, Copy, Debug, Default, PartialEq, Eq, Hash)]
pub struct MoonSums {
    /// 10⁻⁸ degree eastward from the mean equinox of date, 0 to 35,999,999,999.
    pub longitude_e8: i64,
    /// 10⁻⁸ degree from the ecliptic, north positive.
    pub latitude_e8: i64,
    /// Metres from the Earth's centre.
    pub distance_metres: i64,
}

/// The Earth from the Sun's centre: ecliptic longitude eastward and latitude northward, and radius.
#[repr(C)]
#[derive(Clone, Copy, Debug, Default, PartialEq, Eq, Hash)]
pub struct SunSums {
    /// 10⁻¹⁰ radian eastward from the mean equinox of date, with no turn taken off; the Sun as we see it stands half a turn on.
    pub longitude_radians_e10: i64,
    /// 10⁻¹⁰ radian from the ecliptic, north positive.
    pub latitude_radians_e10: i64,
    /// 10⁻¹⁰ AU from the Sun's centre.
    pub radius_au_e10: i64,
}

/// Nutation in longitude (Δψ, eastward) and in obliquity (Δε), and the true obliquity of the ecliptic.
#[repr(C)]
#[derive(Clone, Copy, Debug, Default, PartialEq, Eq, Hash)]
pub struct Nutation {
    /// Δψ in 10⁻⁸ degree, eastward positive.
    pub longitude_e8: i64,
    /// Δε in 10⁻⁸ degree, positive where the obliquity grows.
    pub obliquity_e8: i64,
    /// The mean obliquity plus Δε, in 10⁻⁸ degree.
    pub true_obliquity_e8: i64,
}

/// The Moon before nutation, at TT (not UTC) in milliseconds from 2000-01-01 12:00 TT, as [`instant`] gives it.
///
/// # Errors
/// [`OutOfReach`](Refusal::OutOfReach), 104, beyond 3,190,473,360,000 milliseconds (101.1 years) either way.
///
/// ```
/// use raddlehue::{moon_sums_ms, Refusal, DEGREE_E8};
///
/// let moon = moon_sums_ms(0)?;
/// assert_eq!((moon.longitude_e8 / DEGREE_E8, moon.distance_metres), (223, 402_444_812));
/// assert_eq!(moon_sums_ms(i64::MIN), Err(Refusal::OutOfReach));
/// # Ok::<(), raddlehue::Refusal>(())
/// ```
pub fn moon_sums_ms(tt_ms: i64) -> Result<MoonSums, Refusal> {
    answer(|sums| archive::raddlehue_moon_sums_ms(tt_ms, sums))
}

/// The Earth around the Sun, at TT (not UTC) in milliseconds from 2000-01-01 12:00 TT, as [`instant`] gives it.
///
/// # Errors
/// [`OutOfReach`](Refusal::OutOfReach), 104, beyond 3,190,473,360,000 milliseconds (101.1 years) either way.
///
/// ```
/// assert_eq!(raddlehue::sun_sums_ms(0)?.radius_au_e10, 9_833_275_804);
/// # Ok::<(), raddlehue::Refusal>(())
/// ```
pub fn sun_sums_ms(tt_ms: i64) -> Result<SunSums, Refusal> {
    answer(|sums| archive::raddlehue_sun_sums_ms(tt_ms, sums))
}

/// Nutation and true obliquity, at TT (not UTC) in milliseconds from 2000-01-01 12:00 TT, as [`instant`] gives it.
///
/// # Errors
/// [`OutOfReach`](Refusal::OutOfReach), 104, beyond 3,190,473,360,000 milliseconds (101.1 years) either way.
///
/// ```
/// assert_eq!(raddlehue::nutation_ms(0)?.true_obliquity_e8, 2_343_768_724);
/// # Ok::<(), raddlehue::Refusal>(())
/// ```
pub fn nutation_ms(tt_ms: i64) -> Result<Nutation, Refusal> {
    answer(|nutation| archive::raddlehue_nutation_ms(tt_ms, nutation))
}

/// Mean sidereal time at Greenwich, eastward in 10⁻⁸ degree, 0 to 35,999,999,999, at UT1 (not UTC, not TT) in milliseconds from 2000-01-01 12:00 UT1,
/// as [`instant`] gives it.
///
/// # Errors
/// [`OutOfReach`](Refusal::OutOfReach), 104, beyond 3,190,473,360,000 milliseconds (101.1 years) either way.
///
/// ```
/// assert_eq!(raddlehue::mean_sidereal_ms(0), Ok(28_046_061_837));
/// ```
pub fn mean_sidereal_ms(ut_ms: i64) -> Result<i64, Refusal> {
    answer(|sidereal_e8| archive::raddlehue_mean_sidereal_ms(ut_ms, sidereal_e8))
}
