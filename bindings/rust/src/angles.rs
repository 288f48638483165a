//! The middle of two azimuths, refraction, and the whole-number functions under the places.
#![forbid(unsafe_code)]

use crate::refusal::answer;
use crate::{archive, direction_in, Air, Refusal};

/// The azimuth half way between two, the short way round, all from north over east, 0 to 35,999,999,999, in 10⁻⁸ degree.
///
/// # Errors
/// [`NotReduced`](Refusal::NotReduced), 15, then [`Opposite`](Refusal::Opposite), 14.
///
/// ```
/// use raddlehue::{middle, Refusal};
///
/// assert_eq!(middle(35_990_000_000, 10_000_000), Ok(0));
/// assert_eq!(middle(0, 18_000_000_000), Err(Refusal::Opposite));
/// ```
pub fn middle(a_e8: i64, b_e8: i64) -> Result<i64, Refusal> {
    answer(|azimuth_e8| archive::raddlehue_middle(a_e8, b_e8, azimuth_e8))
}

/// At and above this elevation, in 10⁻⁸ degree without refraction, refraction is worked, for both bodies: -0.83337 degree, the Sun's radius and the usual
/// refraction at the horizon.
///
/// Where a body rises and sets is another number, [`RISE_SET_E8`](crate::RISE_SET_E8).
pub const LOWEST_REFRACTED_E8: i64 = -83_337_000;

/// How far the air lifts a body, in degrees, from its elevation in 10⁻⁸ degree from the horizon upward without refraction: 0 below [`LOWEST_REFRACTED_E8`].
///
/// # Errors
/// [`NoElevation`](Refusal::NoElevation), 103, then [`Pressure`](Refusal::Pressure) and [`Temperature`](Refusal::Temperature), 10 and 11.
///
/// ```
/// use raddlehue::{refraction, Air, DEGREE_E8, LOWEST_REFRACTED_E8};
///
/// assert_eq!(refraction(10 * DEGREE_E8, Air::None), Ok(0.0));
/// let air = Air::Measured { pressure_mbar: 1010.0, temperature_celsius: 10.0 };
/// assert!(refraction(10 * DEGREE_E8, air)? > 0.08);
/// assert!(refraction(LOWEST_REFRACTED_E8, air)? > 0.6);
/// assert_eq!(refraction(LOWEST_REFRACTED_E8 - 1, air), Ok(0.0));
/// # Ok::<(), raddlehue::Refusal>(())
/// ```
pub fn refraction(elevation_e8: i64, air: Air) -> Result<f64, Refusal> {
    let (kind, pressure, temperature) = air.parts();
    answer(|degrees| archive::raddlehue_refraction(elevation_e8, kind, pressure, temperature, degrees))
}

/// The sine of any angle in 10⁻⁸ degree, times 10⁹, within 6 of the exact one.
///
/// It is at most 1,000,000,001 either way, since rounding may pass 10⁹ by one.
///
/// ```
/// assert_eq!(raddlehue::sine(30 * raddlehue::DEGREE_E8), 500_000_000);
/// ```
#[must_use]
pub fn sine(angle_e8: i64) -> i64 {
    archive::raddlehue_sine(angle_e8)
}

/// The cosine of any angle in 10⁻⁸ degree, times 10⁹, within 6 of the exact one.
///
/// It is at most 1,000,000,001 either way, since rounding may pass 10⁹ by one.
///
/// ```
/// assert_eq!(raddlehue::cosine(180 * raddlehue::DEGREE_E8), -1_000_000_000);
/// ```
#[must_use]
pub fn cosine(angle_e8: i64) -> i64 {
    archive::raddlehue_cosine(angle_e8)
}

/// The angle of the point (x, y) from the x axis towards y, in 10⁻⁸ degree, 0 to 35,999,999,999; y is given first. Two zeros have none.
///
/// Thirty whole-number steps: a pair of thousands or more is good to some units, a tiny one is not.
///
/// ```
/// use raddlehue::arctangent;
///
/// assert_eq!(arctangent(0, -5), Some(18_000_000_000));
/// assert_eq!(arctangent(1, 0), Some(9_004_472_123));
/// assert_eq!(arctangent(0, 0), None);
/// ```
#[must_use]
pub fn arctangent(y: i64, x: i64) -> Option<i64> {
    direction_in(archive::raddlehue_arctangent(y, x))
}

/// The greatest whole number whose square is not above the given one.
///
/// ```
/// assert_eq!((raddlehue::root(99), raddlehue::root(100), raddlehue::root(u64::MAX)), (9, 10, 4_294_967_295));
/// ```
#[must_use]
pub fn root(square: u64) -> u64 {
    archive::raddlehue_root(square)
}
