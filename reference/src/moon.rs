//! The Moon's place from the Earth's centre (report 003, section 3.2).

use crate::instant::{Polynomial, Time, ABSENT};
use crate::numbers::{cosine_of_reduced, floor_div, reduce, sine, sine_of_reduced, ONE};
use crate::tables::{MOON_LATITUDE, MOON_LONGITUDE};

/// L', the Moon's mean longitude.
pub const MEAN_LONGITUDE: Polynomial = Polynomial {
    c0: 21_831_644_770,
    c1: 48_126_788_123_421,
    c2: -157_860,
    cubic: (100, 538_841),
    quartic: (-100, 65_194_000),
};
/// D, the Moon's mean elongation.
pub const ELONGATION: Polynomial = Polynomial {
    c0: 29_785_019_210,
    c1: 44_526_711_140_340,
    c2: -188_190,
    cubic: (100, 545_868),
    quartic: (-100, 113_065_000),
};
/// M, the Sun's mean anomaly.
pub const SUN_ANOMALY: Polynomial =
    Polynomial { c0: 35_752_910_920, c1: 3_599_905_029_090, c2: -15_360, cubic: (100, 24_490_000), quartic: ABSENT };
/// M', the Moon's mean anomaly.
pub const MOON_ANOMALY: Polynomial = Polynomial {
    c0: 13_496_339_640,
    c1: 47_719_886_750_550,
    c2: 874_140,
    cubic: (100, 69_699),
    quartic: (-100, 14_712_000),
};
/// F, the Moon's argument of latitude.
pub const LATITUDE_ARGUMENT: Polynomial = Polynomial {
    c0: 9_327_209_500,
    c1: 48_320_201_752_330,
    c2: -365_390,
    cubic: (-100, 3_526_000),
    quartic: (100, 863_310_000),
};

/// A1 to A3, the arguments of the additions.
pub const A1: Polynomial = line(11_975_000_000, 13_184_900_000);
pub const A2: Polynomial = line(5_309_000_000, 47_926_429_000_000);
pub const A3: Polynomial = line(31_345_000_000, 48_126_648_400_000);

const fn line(c0: i64, c1: i64) -> Polynomial {
    Polynomial { c0, c1, c2: 0, cubic: ABSENT, quartic: ABSENT }
}

/// The weight of the additions to longitude and latitude.
const ADDED: i64 = 100;

/// The Moon from the Earth's centre.
#[derive(Clone, Copy, Debug, PartialEq, Eq)]
pub struct Moon {
    /// Ecliptic longitude, 10⁻⁸ degree, reduced.
    pub longitude: i64,
    /// Ecliptic latitude, 10⁻⁸ degree.
    pub latitude: i64,
    /// Distance between the centres, metres.
    pub metres: i64,
}

/// The Moon at an accepted TT (milliseconds from 2000-01-01 12:00).
pub fn moon(tt: i64) -> Moon {
    moon_at(&Time::new(tt))
}

/// The five arguments L', D, M, M', F, reduced.
#[inline]
pub fn arguments(time: &Time) -> [i64; 5] {
    [mean_longitude(time), ELONGATION.at(time), SUN_ANOMALY.at(time), MOON_ANOMALY.at(time), LATITUDE_ARGUMENT.at(time)]
}

/// L' alone, reduced.
#[inline]
pub fn mean_longitude(time: &Time) -> i64 {
    MEAN_LONGITUDE.at(time)
}

pub(crate) fn moon_at(time: &Time) -> Moon {
    let [mean, d, m, m_prime, f] = arguments(time);
    let base = [d, m, m_prime, f];
    let factors = eccentricity_factors(time);
    let (mut along, mut out) = (0, 0);
    for row in &MOON_LONGITUDE {
        let angle = combine(&row.multiples, &base);
        let factor = factors[usize::from(row.multiples[1].unsigned_abs())];
        along += weight(row.l, factor) * sine_of_reduced(angle);
        if row.r != 0 {
            out += weight(row.r, factor) * cosine_of_reduced(angle);
        }
    }
    let mut up = 0;
    for row in &MOON_LATITUDE {
        let factor = factors[usize::from(row.multiples[1].unsigned_abs())];
        up += weight(row.b, factor) * sine_of_reduced(combine(&row.multiples, &base));
    }
    let (a1, a2, a3) = (A1.at(time), A2.at(time), A3.at(time));
    along += ADDED * (3958 * sine(a1) + 1962 * sine(mean - f) + 318 * sine(a2));
    up += ADDED
        * (-2235 * sine(mean) + 382 * sine(a3) + 175 * sine(a1 - f) + 175 * sine(a1 + f) + 127 * sine(mean - m_prime)
            - 115 * sine(mean + m_prime));
    Moon {
        longitude: reduce(mean + floor_div(along, ONE)),
        latitude: floor_div(up, ONE),
        metres: 385_000_560 + floor_div(out, 100 * ONE),
    }
}

/// 1, E and E², times 10⁶, by the size of a row's column m.
fn eccentricity_factors(time: &Time) -> [i64; 3] {
    let e = 1_000_000 + floor_div(-2516 * time.u, 1_000_000) + floor_div(-74 * time.p2, 10_000_000);
    [1_000_000, e, floor_div(e * e, 1_000_000)]
}

/// A row's weight: 100 times its coefficient where the factor is 10⁶.
#[inline(always)]
fn weight(coefficient: i32, factor: i64) -> i64 {
    floor_div(i64::from(coefficient) * factor, 10_000)
}

/// A row's angle, reduced.
#[inline(always)]
fn combine(multiples: &[i8; 4], base: &[i64; 4]) -> i64 {
    let [d, m, m_prime, f] = multiples.map(i64::from);
    reduce(d * base[0] + m * base[1] + m_prime * base[2] + f * base[3])
}
