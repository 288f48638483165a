//! Sidereal time at Greenwich (report 004, section 3.8).

use crate::instant::Time;
use crate::numbers::{floor_div, reduce, scaled};

/// Mean sidereal time at an accepted UT (milliseconds from 2000-01-01 12:00), 10⁻⁸ degree, reduced.
pub fn mean_sidereal(ut: i64) -> i64 {
    let time = Time::new(ut);
    reduce(
        28_046_061_837
            + time.moved::<86_400_000_000>(36_098_564_736_629)
            + floor_div(387_933 * time.p2, 10_000_000)
            + floor_div(-100 * time.p3, 38_710_000),
    )
}

/// Apparent sidereal time, 10⁻⁸ degree, not reduced: the mean with nutation's part along the equator.
pub(crate) fn apparent_sidereal(ut: i64, nutation_longitude: i64, obliquity_cosine: i64) -> i64 {
    mean_sidereal(ut) + scaled(nutation_longitude, obliquity_cosine)
}
