//! How much of the Sun the Moon covers.
#![forbid(unsafe_code)]

use crate::refusal::answer;
use crate::{archive, Point, Refusal, Start};

/// The Sun and the Moon as two disks: how far apart their centres stand, how large they are, and how much of the Sun is covered.
#[repr(C)]
#[derive(Clone, Copy, Debug, Default, PartialEq, Eq, Hash)]
pub struct Eclipse {
    /// Of the two centres, in 10⁻⁸ degree, 0 to 18,000,000,000.
    pub separation_e8: i64,
    /// Of the Sun's disk, in 10⁻⁸ degree.
    pub sun_radius_e8: i64,
    /// Of the Moon's disk, in 10⁻⁸ degree.
    pub moon_radius_e8: i64,
    /// Of the Sun's disk that the Moon's covers, in millionths, 0 to 1,000,000.
    pub share_millionths: i64,
}

/// The two disks at a moment, from a point.
///
/// They touch where the separation is the sum of the radii; from there on the share is 0, as it nearly always is. The whole Sun is covered, and the share is 1,000,000, where the
/// Moon's radius is at least the Sun's and the separation at most their difference; where the Moon's is the smaller, a ring is left there, whose share is a floor. Elsewhere the share is
/// within 10 millionths of the area of the two circles, and next to a contact may round to 0 or to 1,000,000: separation and radii tell the contacts. The horizon does not enter:
/// [`place`](crate::place) says whether the Sun is up.
///
/// # Errors
/// [`Year`](Refusal::Year) to [`Height`](Refusal::Height), 1 to 9, in this order.
///
/// ```
/// use raddlehue::{eclipse, Point, Start};
///
/// // 003, Table 4: 22 July 2009, on the open Pacific
/// let pacific = Point::east_north(143.3617, 24.6117, 0);
/// let seen = eclipse(Start::utc(2009, 7, 22, 2, 33, 0).delta_t_ms(66_400), pacific)?;
/// assert_eq!(seen.share_millionths, 1_000_000);
/// assert!(seen.moon_radius_e8 - seen.sun_radius_e8 >= seen.separation_e8);
/// # Ok::<(), raddlehue::Refusal>(())
/// ```
pub fn eclipse(start: Start, point: Point) -> Result<Eclipse, Refusal> {
    answer(|eclipse| archive::raddlehue_eclipse(&start, &point, eclipse))
}

/// The share of the Sun's disk that the Moon's covers, in millionths, from the separation of their centres and their radii, all in 10⁻⁸ degree, as [`eclipse`] has it.
///
/// # Errors
/// [`NoDisks`](Refusal::NoDisks), 105.
///
/// ```
/// use raddlehue::covered_share;
///
/// assert_eq!(covered_share(50_000_000, 26_000_000, 24_000_000), Ok(0)); // they touch
/// assert_eq!(covered_share(2_000_000, 26_000_000, 28_000_000), Ok(1_000_000)); // the whole Sun
/// assert_eq!(covered_share(1_000_000, 26_000_000, 24_000_000), Ok(852_071)); // a ring: 24² / 26²
/// ```
pub fn covered_share(separation_e8: i64, sun_radius_e8: i64, moon_radius_e8: i64) -> Result<i64, Refusal> {
    answer(|share| archive::raddlehue_covered_share(separation_e8, sun_radius_e8, moon_radius_e8, share))
}
