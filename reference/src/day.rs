//! A day of elevations, and the minutes at which a body rises and sets (document 02, Item 1).

use crate::instant::Instant;
use crate::place::Observer;
use crate::request::{check_point, Body, Point, Start};

/// Minutes of a day.
pub const MINUTES: usize = 1_440;

/// A body is up at this elevation without refraction (10⁻⁸ degree), and above it.
pub const THRESHOLD: i64 = -83_330_000;

/// Milliseconds in a minute.
pub(crate) const MINUTE: u32 = 60_000;

/// A day of UTC, with the two time corrections that hold all day.
#[derive(Clone, Copy, Debug, PartialEq, Eq)]
pub struct Date {
    /// 1900 to 2100.
    pub year: i64,
    pub month: i64,
    pub day: i64,
    /// UT1 minus UTC, milliseconds.
    pub ut1: i64,
    /// TT minus UT, milliseconds.
    pub delta_t: i64,
}

/// The first minute of the day, 0 to 1439, at which the body rises and at which it sets; `None` when no minute does.
#[derive(Clone, Copy, Debug, PartialEq, Eq)]
pub struct RiseSet {
    pub rise: Option<usize>,
    pub set: Option<usize>,
}

/// The body's elevation without refraction (10⁻⁸ degree) at each minute of the day into the lent array, and when it
/// rises and sets.
///
/// A refusal is its number: 1 to 3, then 5 to 9. A refused day writes nothing.
pub fn day(date: Date, body: Body, point: Point, elevations: &mut [i64; MINUTES]) -> Result<RiseSet, u8> {
    let midnight = Instant::new(&midnight(&date))?;
    check_point(&point)?;
    let observer = Observer::new(&point);
    for (minute, elevation) in elevations.iter_mut().enumerate() {
        *elevation = observer.look(body, &midnight.after(MINUTE * minute as u32)).elevation;
    }
    let eve = midnight.before(MINUTE).map(|instant| observer.look(body, &instant).elevation);
    Ok(RiseSet { rise: first_change(eve, elevations, true), set: first_change(eve, elevations, false) })
}

/// The first moment of the date; its clock exists, so that refusal 4 is never given.
pub(crate) fn midnight(date: &Date) -> Start {
    let Date { year, month, day, ut1, delta_t } = *date;
    Start { year, month, day, hour: 0, minute: 0, second: 0, millisecond: 0, ut1, delta_t }
}

/// The first minute at which the body is up, or is down, and was not at the minute before. The minute before 0 is
/// the eve's last; where there is none, minute 0 is no change.
fn first_change(eve: Option<i64>, elevations: &[i64; MINUTES], to_up: bool) -> Option<usize> {
    let mut before = eve.unwrap_or(elevations[0]);
    elevations.iter().position(|&elevation| {
        let change = is_up(elevation) == to_up && is_up(before) != to_up;
        before = elevation;
        change
    })
}

fn is_up(elevation: i64) -> bool {
    elevation >= THRESHOLD
}

#[cfg(test)]
mod tests {
    use super::*;

    /// The changes of a day that is down but for some minutes.
    fn changes(eve: Option<i64>, ups: &[(usize, i64)]) -> [Option<usize>; 2] {
        let mut elevations = [THRESHOLD - 1; MINUTES];
        for &(minute, elevation) in ups {
            elevations[minute] = elevation;
        }
        [true, false].map(|to_up| first_change(eve, &elevations, to_up))
    }

    #[test]
    fn a_body_is_up_at_the_threshold_itself() {
        assert_eq!([THRESHOLD - 1, THRESHOLD, THRESHOLD + 1].map(is_up), [false, true, true]);
        assert_eq!(changes(Some(THRESHOLD - 1), &[(700, THRESHOLD)]), [Some(700), Some(701)]);
        assert_eq!(changes(Some(THRESHOLD - 1), &[(700, THRESHOLD - 1)]), [None, None]);
    }

    #[test]
    fn the_minute_before_0_is_the_eve_s() {
        assert_eq!(changes(Some(THRESHOLD), &[]), [None, Some(0)]);
        assert_eq!(changes(Some(THRESHOLD), &[(0, THRESHOLD)]), [None, Some(1)]);
        assert_eq!(changes(Some(THRESHOLD - 1), &[(0, THRESHOLD)]), [Some(0), Some(1)]);
    }

    #[test]
    fn without_an_eve_minute_0_is_no_change() {
        assert_eq!(changes(None, &[]), [None, None]);
        assert_eq!(changes(None, &[(0, THRESHOLD)]), [None, Some(1)]);
        assert_eq!(changes(None, &[(1, THRESHOLD)]), [Some(1), Some(2)]);
    }

    #[test]
    fn the_first_of_several_counts_and_the_last_minute_too() {
        assert_eq!(changes(Some(0), &[(9, 0), (11, 0)]), [Some(9), Some(0)]);
        assert_eq!(changes(Some(THRESHOLD - 1), &[(MINUTES - 1, 0)]), [Some(MINUTES - 1), None]);
        assert_eq!(changes(Some(THRESHOLD - 1), &[(MINUTES - 2, 0)]), [Some(MINUTES - 2), Some(MINUTES - 1)]);
    }
}
