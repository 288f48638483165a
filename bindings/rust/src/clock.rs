//! A start from the system's clock.
#![forbid(unsafe_code)]

use crate::{day_count, Refusal, Start, SECOND_MS};
use std::time::{SystemTime, UNIX_EPOCH};

const MINUTE: i64 = 60 * SECOND_MS;
const HOUR: i64 = 60 * MINUTE;
const DAY: i64 = 24 * HOUR;

/// Days from 2000-01-01 back to 1970-01-01, where Unix time begins.
const EPOCH: i64 = -10_957;

/// Whole milliseconds of Unix time, rounded down.
fn unix_ms(time: SystemTime) -> Option<i64> {
    const MILLISECOND: u128 = 1_000_000; // nanoseconds
    match time.duration_since(UNIX_EPOCH) {
        Ok(after) => i64::try_from(after.as_nanos() / MILLISECOND).ok(),
        Err(error) => i64::try_from(error.duration().as_nanos().div_ceil(MILLISECOND)).ok()?.checked_neg(),
    }
}

/// Year, month and day of a count of days, by the archive's own calendar: each is the last that has begun.
fn date(days: i64) -> Option<(i64, i64, i64)> {
    let begun = |year, month, day| day_count(year, month, day).is_ok_and(|count| count <= days);
    let year = (1900..=2100).rev().find(|&year| begun(year, 1, 1))?;
    let month = (1..=12).rev().find(|&month| begun(year, month, 1))?;
    let day = (1..=31).rev().find(|&day| begun(year, month, day))?;
    // Days after 2100 have their last day in 2100-12-31 as well.
    (day_count(year, month, day) == Ok(days)).then_some((year, month, day))
}

/// The moment of UTC of a system time, to the millisecond at or before it.
///
/// **UT1 minus UTC and delta-T are not guessed: both are 0 until they are given**, by [`ut1_ms`](Start::ut1_ms) and
/// [`delta_t_ms`](Start::delta_t_ms). Unix time counts no leap second, so a system's clock repeats or stretches the seconds around one.
///
/// # Errors
/// [`Year`](Refusal::Year) for a time before 1900 or after 2100.
///
/// ```
/// use raddlehue::{Refusal, Start};
/// use std::time::{Duration, UNIX_EPOCH};
///
/// let start = Start::try_from(UNIX_EPOCH + Duration::from_micros(1_066_419_030_590_999))?.delta_t_ms(67_000);
/// assert_eq!(start, Start::utc(2003, 10, 17, 19, 30, 30).fraction_ms(590).delta_t_ms(67_000));
///
/// let year_2101 = UNIX_EPOCH + Duration::from_secs(4_133_980_800);
/// assert_eq!(Start::try_from(year_2101), Err(Refusal::Year));
/// # Ok::<(), raddlehue::Refusal>(())
/// ```
impl TryFrom<SystemTime> for Start {
    type Error = Refusal;

    fn try_from(time: SystemTime) -> Result<Start, Refusal> {
        let ms = unix_ms(time).ok_or(Refusal::Year)?;
        let days = ms.div_euclid(DAY).saturating_add(EPOCH);
        let (year, month, day) = date(days).ok_or(Refusal::Year)?;
        let of_day = ms.rem_euclid(DAY);
        let start = Start::utc(year, month, day, of_day / HOUR, of_day % HOUR / MINUTE, of_day % MINUTE / SECOND_MS);
        Ok(start.fraction_ms(of_day % SECOND_MS))
    }
}
