//! The place of a body, as it is shown, and many from one start.
#![forbid(unsafe_code)]

use crate::refusal::{accepted, answer};
use crate::{archive, Air, Body, Point, Refusal, Start, DEGREE_E8};
#[cfg(feature = "alloc")]
use alloc::{vec, vec::Vec};

/// No direction, where one number has to say so, as in an entry of [`places_into_ms`]'s azimuths: the largest `i64`, which is no azimuth, and which [`middle`](crate::middle) refuses.
pub const NO_DIRECTION_E8: i64 = i64::MAX;

/// Azimuth from north over east, and elevation from the horizon upward without refraction.
///
/// A body straight overhead or straight underfoot has no azimuth, which is not the 0 of the north. The Sun over Lahaina on Maui, and 0.1 s later in the west:
///
/// ```
/// use raddlehue::{place, Air, Body, Point, Start};
///
/// let lahaina = Point { longitude_e7: -1_566_828_813, latitude_e7: 208_783_487, height_metres: 0 };
/// let noon = Start::utc(2005, 7, 18, 22, 32, 59).delta_t_ms(64_700);
/// let sun = place(noon, Body::Sun, lahaina, Air::None)?;
/// assert_eq!((sun.azimuth_e8, sun.elevation_e8), (None, 8_999_999_993));
/// let later = place(noon.fraction_ms(100), Body::Sun, lahaina, Air::None)?;
/// assert_eq!((later.azimuth_e8, later.elevation_e8), (Some(26_995_783_452), 8_999_961_083));
/// # Ok::<(), raddlehue::Refusal>(())
/// ```
#[derive(Clone, Copy, Debug, Default, PartialEq, Eq, Hash)]
pub struct Place {
    /// 10⁻⁸ degree from north over east, 0 to 35,999,999,999; none for a body straight overhead or straight underfoot.
    pub azimuth_e8: Option<i64>,
    /// 10⁻⁸ degree from the horizon upward, without refraction, within 9,000,000,000 either way.
    pub elevation_e8: i64,
}

fn if_any<T>(has_azimuth: u32, azimuth: T) -> Option<T> {
    (has_azimuth != 0).then_some(azimuth)
}

/// What an entry of [`places_into_ms`]'s azimuths says: an angle, or, where it is [`NO_DIRECTION_E8`], that there is none.
///
/// ```
/// use raddlehue::{direction_in, NO_DIRECTION_E8};
///
/// assert_eq!((direction_in(9_397_013_277), direction_in(NO_DIRECTION_E8)), (Some(9_397_013_277), None));
/// ```
#[must_use]
pub fn direction_in(entry_e8: i64) -> Option<i64> {
    (entry_e8 != NO_DIRECTION_E8).then_some(entry_e8)
}

fn degrees(units_e8: i64) -> f64 {
    units_e8 as f64 / DEGREE_E8 as f64
}

impl Place {
    /// Azimuth in degrees from north over east, 0 up to 360, where there is one.
    ///
    /// ```
    /// let place = raddlehue::Place { azimuth_e8: Some(9_397_013_277), elevation_e8: 0 };
    /// assert_eq!(place.azimuth_degrees(), Some(93.97013277));
    /// ```
    #[must_use]
    pub fn azimuth_degrees(self) -> Option<f64> {
        self.azimuth_e8.map(degrees)
    }

    /// Elevation in degrees from the horizon upward, without refraction, -90 to 90.
    ///
    /// ```
    /// let place = raddlehue::Place { azimuth_e8: None, elevation_e8: -4_550_000_000 };
    /// assert_eq!(place.elevation_degrees(), -45.5);
    /// ```
    #[must_use]
    pub fn elevation_degrees(self) -> f64 {
        degrees(self.elevation_e8)
    }
}

/// Azimuth from north over east, elevation from the horizon upward with the refraction in it, and that refraction.
#[derive(Clone, Copy, Debug, Default, PartialEq)]
pub struct Shown {
    /// Degrees from north over east, 0 up to 360; none for a body straight overhead or straight underfoot.
    pub azimuth_degrees: Option<f64>,
    /// Degrees from the horizon upward, refraction included.
    pub elevation_degrees: f64,
    /// Degrees by which the air lifts the body: 0 with no air and below [`LOWEST_REFRACTED_E8`](crate::LOWEST_REFRACTED_E8), slightly below 0 near the zenith, by the report's formula.
    pub refraction_degrees: f64,
}

/// Azimuth (north over east) and elevation (upward, no refraction) at a UTC start with its UT1 and delta-T; longitude east positive.
///
/// The air does not change this place, and a bad one is refused all the same.
///
/// # Errors
/// [`Year`](Refusal::Year) to [`Temperature`](Refusal::Temperature), 1 to 11, in this order.
///
/// ```
/// use raddlehue::{place, Air, Body, Point, Start};
///
/// let start = Start::utc(2100, 8, 5, 5, 45, 21).fraction_ms(900).ut1_ms(-800).delta_t_ms(-5_885_000);
/// let point = Point { longitude_e7: 628_815_586, latitude_e7: 221_655_669, height_metres: 9000 };
/// let sun = place(start, Body::Sun, point, Air::None)?;
/// assert_eq!((sun.azimuth_e8, sun.elevation_e8), (Some(9_397_013_277), 5_921_374_473));
/// # Ok::<(), raddlehue::Refusal>(())
/// ```
pub fn place(start: Start, body: Body, point: Point, air: Air) -> Result<Place, Refusal> {
    let (kind, pressure, temperature) = air.parts();
    let mut has_azimuth = 0;
    let seen: archive::Place = answer(|place| {
        archive::raddlehue_place(&start, body.code(), &point, kind, pressure, temperature, &mut has_azimuth, place)
    })?;
    Ok(Place { azimuth_e8: if_any(has_azimuth, seen.azimuth_if_any_e8), elevation_e8: seen.elevation_e8 })
}

/// Azimuth (north over east) and elevation (upward, refracted) in degrees at a UTC start with its UT1 and delta-T; longitude east positive.
///
/// # Errors
/// [`Year`](Refusal::Year) to [`Temperature`](Refusal::Temperature), 1 to 11, in this order.
///
/// ```
/// use raddlehue::{shown_place, Air, Body, Point, Refusal, Start};
///
/// let boulder = Point::east_north(-105.1786, 39.742476, 1830);
/// let air = Air::Measured { pressure_mbar: 1010.0, temperature_celsius: 10.0 };
/// let asked = |year| shown_place(Start::utc(year, 10, 17, 19, 30, 30).delta_t_ms(67_000), Body::Sun, boulder, air);
/// assert_eq!(format!("{:.4}", asked(2003)?.refraction_degrees), "0.0202");
/// assert_eq!(asked(2101), Err(Refusal::Year));
/// # Ok::<(), raddlehue::Refusal>(())
/// ```
pub fn shown_place(start: Start, body: Body, point: Point, air: Air) -> Result<Shown, Refusal> {
    let (kind, pressure, temperature) = air.parts();
    let mut has_azimuth = 0;
    let seen: archive::Shown = answer(|shown| {
        archive::raddlehue_shown_place(&start, body.code(), &point, kind, pressure, temperature, &mut has_azimuth, shown)
    })?;
    Ok(Shown {
        azimuth_degrees: if_any(has_azimuth, seen.azimuth_if_any_degrees),
        elevation_degrees: seen.elevation_degrees,
        refraction_degrees: seen.refraction_degrees,
    })
}

/// Azimuths (north over east) and elevations (upward, no refraction) at offsets in milliseconds after a UTC start; longitude east positive.
///
/// UT1 minus UTC and delta-T are the start's for every offset. Entry i is the place at offset i; the offsets may stand in any order, and reach 49.7 days.
///
/// # Errors
/// [`Year`](Refusal::Year) to [`Height`](Refusal::Height), 1 to 9, then [`TooLate`](Refusal::TooLate), 13.
///
/// ```
/// use raddlehue::{places_ms, Body, Point, Start};
///
/// let midnight = Start::utc(2024, 6, 20, 0, 0, 0).delta_t_ms(69_200);
/// let tromso = Point::east_north(18.9553, 69.6492, 10);
/// let hourly: Vec<u32> = (0..24).map(|hour| hour * 3_600_000).collect();
/// let sun = places_ms(midnight, Body::Sun, tromso, &hourly)?;
/// assert!(sun.iter().all(|place| place.elevation_e8 > 0), "the Sun does not set");
/// # Ok::<(), raddlehue::Refusal>(())
/// ```
#[cfg(feature = "alloc")]
pub fn places_ms(start: Start, body: Body, point: Point, offsets_ms: &[u32]) -> Result<Vec<Place>, Refusal> {
    let mut azimuths = vec![0; offsets_ms.len()];
    let mut elevations = vec![0; offsets_ms.len()];
    places_into_ms(start, body, point, offsets_ms, &mut azimuths, &mut elevations)?;
    let pairs = azimuths.into_iter().zip(elevations);
    Ok(pairs.map(|(entry_e8, elevation_e8)| Place { azimuth_e8: direction_in(entry_e8), elevation_e8 }).collect())
}

/// Azimuths (north over east) and elevations (upward, no refraction), both in 10⁻⁸ degree, into two lent buffers, at offsets in milliseconds after a UTC start.
///
/// The answer is how many entries of each were written, which is how many offsets there are. Where there is no azimuth, [`NO_DIRECTION_E8`] stands in its entry
/// ([`direction_in`] asks for it). What lies beyond keeps its contents, and a refused batch writes nothing.
///
/// # Errors
/// [`Year`](Refusal::Year) to [`Height`](Refusal::Height), 1 to 9, then [`ShortBuffer`](Refusal::ShortBuffer), 12, and [`TooLate`](Refusal::TooLate), 13.
///
/// ```
/// use raddlehue::{places_into_ms, Body, Point, Refusal, Start};
///
/// let eve = Start::utc(2100, 12, 31, 23, 59, 59);
/// let greenwich = Point::east_north(0.0, 51.4779, 46);
/// let (mut azimuths, mut elevations) = ([-1; 3], [-1; 3]);
/// let refused = places_into_ms(eve, Body::Moon, greenwich, &[0, 999, 1000], &mut azimuths, &mut elevations);
/// assert_eq!(refused, Err(Refusal::TooLate { index: 2 }));
/// assert_eq!((azimuths, elevations), ([-1; 3], [-1; 3]));
/// ```
pub fn places_into_ms(
    start: Start,
    body: Body,
    point: Point,
    offsets_ms: &[u32],
    azimuths_e8: &mut [i64],
    elevations_e8: &mut [i64],
) -> Result<usize, Refusal> {
    let (refusal, told) = archive::batch(&start, body.code(), &point, offsets_ms, azimuths_e8, elevations_e8);
    // Neither number is above a slice's length, so that a cast loses nothing.
    match accepted(refusal) {
        Ok(()) => Ok(told.count as usize),
        Err(Refusal::TooLate { .. }) => Err(Refusal::TooLate { index: told.index as usize }),
        Err(other) => Err(other),
    }
}
