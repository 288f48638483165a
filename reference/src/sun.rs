//! The Earth's place from the Sun's centre (report 004, section 3.2).

use crate::instant::{Time, MILLENNIUM};
use crate::numbers::{cosine_of_reduced, floor_div, floor_mul_div, floor_rem, HALF_TURN};
use crate::tables::{SunGroup, SunRow, SUN_LATITUDE, SUN_LONGITUDE, SUN_RADIUS};

/// The part of the table's C·10⁸ and of the millennium that is divided out of both.
const COMMON: i64 = 5000;
/// Half a millennium, less the common part.
const HALF_PERIOD: i64 = MILLENNIUM / (2 * COMMON);
/// A turn in 10⁻⁸ radian.
const TURN_E8: i64 = 628_318_531;
/// Whole turns, more than the 2,563 that the fastest row goes back from 2000 to the first instant.
const MANY_TURNS: i64 = 4_096 * TURN_E8;
/// A turn in 10⁻¹⁰ radian.
const TURN_E10: i64 = 62_831_853_072;
/// Degrees in a radian, times 10⁸.
const DEGREES: i64 = 5_729_577_951;

/// The Earth from the Sun, before any remainder.
#[derive(Clone, Copy, Debug, PartialEq, Eq)]
pub struct Sun {
    /// L, 10⁻¹⁰ radian.
    pub longitude: i64,
    /// B, 10⁻¹⁰ radian.
    pub latitude: i64,
    /// R, 10⁻¹⁰ AU.
    pub radius: i64,
}

impl Sun {
    /// L in 10⁻⁸ degree, reduced.
    pub fn longitude_degrees(&self) -> i64 {
        floor_mul_div::<100_000, 100_000>(DEGREES, floor_rem(self.longitude, TURN_E10))
    }

    /// B in 10⁻⁸ degree.
    pub fn latitude_degrees(&self) -> i64 {
        floor_div(self.latitude * DEGREES, 10_000_000_000)
    }
}

/// The Earth from the Sun at an accepted TT (milliseconds from 2000-01-01 12:00).
pub fn sun(tt: i64) -> Sun {
    sun_at(&Time::new(tt))
}

pub(crate) fn sun_at(time: &Time) -> Sun {
    let phase = Phase::new(time.n);
    Sun {
        longitude: series(&SUN_LONGITUDE, time, &phase),
        latitude: series(&SUN_LATITUDE, time, &phase),
        radius: series(&SUN_RADIUS, time, &phase),
    }
}

/// n as half periods and a rest, so that each row's product with n stays inside 64 bits. With whole periods the fastest
/// row's would not.
struct Phase {
    halves: i64,
    rest: u64,
}

impl Phase {
    fn new(n: i64) -> Self {
        Self { halves: floor_div(n, HALF_PERIOD), rest: floor_rem(n, HALF_PERIOD) as u64 }
    }

    /// A row's angle B + C·τ in 10⁻⁸ degree, reduced.
    ///
    /// c is at most 3,220,013,800 and the rest below 3,155,760,000, so that their product is below 1.02·10¹⁹, which fits
    /// unsigned (1.84·10¹⁹). There are at most 1,009 halves either way, and c·halves is below 3.3·10¹².
    #[inline(always)]
    fn angle(&self, row: &SunRow) -> i64 {
        let twice_moved = row.c * self.halves + (row.c as u64 * self.rest / HALF_PERIOD as u64) as i64;
        let moved = twice_moved >> 1;
        // Not below zero, so that a plain remainder will do.
        let radians = (row.b + moved + MANY_TURNS) as u64 % TURN_E8 as u64;
        // At most 628,318,530 · 57.29577951, which is below a turn.
        (radians * DEGREES as u64 / 100_000_000) as i64
    }
}

/// The groups' sums joined by powers of the time in millennia, from the highest down.
fn series(groups: &[SunGroup], time: &Time, phase: &Phase) -> i64 {
    let (first, later) = groups.split_first().expect("a series has groups");
    let higher = later.iter().rev().fold(0, |v, group| group_sum(group, phase) + floor_div(v * time.u, 10_000_000));
    // |higher| is below 6.3·10¹³, and so below 2⁴⁶.
    group_sum(first, phase) + time.moved::<MILLENNIUM>(higher)
}

/// A group's rows added, in 10⁻¹⁰.
fn group_sum(group: &SunGroup, phase: &Phase) -> i64 {
    let rows = group.rows.iter();
    100 * group.constant
        + rows.map(|row| floor_div(row.a * cosine_of_reduced(phase.angle(row)), 10_000_000)).sum::<i64>()
}

/// The Sun's apparent ecliptic longitude, not reduced, and latitude from the Earth's centre, 10⁻⁸ degree: turned
/// about, with nutation and aberration.
pub(crate) fn apparent(sun: &Sun, nutation_longitude: i64) -> (i64, i64) {
    let aberration = floor_div(-569_161 * 10_000_000_000, sun.radius);
    (sun.longitude_degrees() + HALF_TURN + nutation_longitude + aberration, -sun.latitude_degrees())
}

/// The sine of the Sun's parallax, times 10⁹.
pub(crate) fn parallax(sun: &Sun) -> i64 {
    floor_div(42_635 * 10_000_000_000, sun.radius)
}

#[cfg(test)]
mod tests {
    use super::*;
    use crate::numbers::reduce;

    #[test]
    fn row_angles_equal_the_wide_rule() {
        let groups = SUN_LONGITUDE.iter().chain(&SUN_LATITUDE).chain(&SUN_RADIUS);
        let rows: Vec<&SunRow> = groups.flat_map(|group| group.rows).collect();
        // all the range and a little more, then both ends and the least and greatest rests
        let spread = (-40..=40).map(|step| step * 79_750_000_003);
        for n in spread.chain([-3_155_724_800_900, -1, 1, HALF_PERIOD - 1, HALF_PERIOD, 3_187_260_800_899]) {
            let phase = Phase::new(n);
            for row in &rows {
                let moved = (i128::from(row.c * COMMON) * i128::from(n)).div_euclid(i128::from(MILLENNIUM));
                let radians = (i128::from(row.b) + moved).rem_euclid(i128::from(TURN_E8));
                let angle = (radians * i128::from(DEGREES)).div_euclid(100_000_000);
                assert_eq!(i128::from(phase.angle(row)), angle);
                assert_eq!(phase.angle(row), reduce(phase.angle(row)));
            }
        }
    }
}
