//! A day: its curve, and when a body rises and sets.
#![forbid(unsafe_code)]

use crate::refusal::answer;
use crate::{archive, Body, Date, Point, Refusal};

/// How many entries a day's curve has: one for each minute.
pub const DAY_MINUTES: usize = 1440;

/// Where a body rises and sets, in 10⁻⁸ degree without refraction: -0.8333 degree, the usual centre of the Sun at sunrise.
pub const RISE_SET_E8: i64 = -83_330_000;

/// When a body first rises and first sets on a date of UTC, or that it does not.
#[derive(Clone, Copy, Debug, PartialEq, Eq, Hash)]
pub struct RiseSet {
    /// Minutes from 00:00 UTC, 0 to 1439; none exactly where the body does not rise on this date.
    pub rise_minute: Option<u16>,
    /// Minutes from 00:00 UTC, 0 to 1439; none exactly where the body does not set on this date.
    pub set_minute: Option<u16>,
}

// Above 0 only beside its flag, and never above 1439, so that a cast loses nothing.
fn minute(flag: u32, minute: u32) -> Option<u16> {
    (flag != 0).then_some(minute as u16)
}

/// A day's curve into a lent buffer, elevations (upward, no refraction) in 10⁻⁸ degree, and when the body rises and sets.
///
/// Entry m is the elevation m minutes after 00:00 UTC, with the date's UT1 minus UTC and delta-T. The body rises at the first minute at which it is at or above
/// [`RISE_SET_E8`] while at the minute before it is below; setting is the reverse. The minute before 0 is the last of the day before; 1900-01-01 has none, so that the body
/// neither rises nor sets at its minute 0. A refused day writes nothing.
///
/// # Errors
/// [`Year`](Refusal::Year) to [`Day`](Refusal::Day), 1 to 3, then [`Ut1`](Refusal::Ut1) to [`Height`](Refusal::Height), 5 to 9, in this order.
///
/// ```
/// use raddlehue::{day, Body, Date, Point, RiseSet, DAY_MINUTES, RISE_SET_E8};
///
/// let tromso = Point::east_north(18.9553, 69.6492, 10);
/// let mut elevations_e8 = [0; DAY_MINUTES];
/// let summer = day(Date::utc(2024, 6, 20).delta_t_ms(69_200), Body::Sun, tromso, &mut elevations_e8)?;
/// assert_eq!(summer, RiseSet { rise_minute: None, set_minute: None });
/// assert!(elevations_e8[0] >= RISE_SET_E8, "the Sun does not set");
/// # Ok::<(), raddlehue::Refusal>(())
/// ```
pub fn day(date: Date, body: Body, point: Point, elevations_e8: &mut [i64; DAY_MINUTES]) -> Result<RiseSet, Refusal> {
    let told: archive::RiseSet = answer(|told| archive::raddlehue_day(&date, body.code(), &point, elevations_e8, told))?;
    Ok(RiseSet { rise_minute: minute(told.has_rise, told.rise_minute), set_minute: minute(told.has_set, told.set_minute) })
}

/// The same as [`day`] where the curve is not wanted: it takes 11.5 KB more of stack, and as long.
///
/// # Errors
/// Those of [`day`].
///
/// ```
/// use raddlehue::{rise_set, Body, Date, Point};
///
/// let greenwich = Point::east_north(0.0, 51.4769, 46);
/// let sun = rise_set(Date::utc(2009, 6, 21).delta_t_ms(65_900), Body::Sun, greenwich)?;
/// assert_eq!((sun.rise_minute, sun.set_minute), (Some(3 * 60 + 43), Some(20 * 60 + 21)));
/// # Ok::<(), raddlehue::Refusal>(())
/// ```
pub fn rise_set(date: Date, body: Body, point: Point) -> Result<RiseSet, Refusal> {
    day(date, body, point, &mut [0; DAY_MINUTES])
}

#[cfg(test)]
mod tests {
    use super::*;

    #[test]
    fn a_minute_stands_where_its_flag_does() {
        assert_eq!((minute(0, 0), minute(1, 0), minute(1, 1439)), (None, Some(0), Some(1439)));
    }
}
