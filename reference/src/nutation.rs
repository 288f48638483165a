//! Nutation and the obliquity of the ecliptic (report 004, sections 3.4 and 3.5).

use crate::instant::{Polynomial, Time, ABSENT};
use crate::numbers::{cosine_of_reduced, floor_div, reduce, sine_of_reduced};
use crate::tables::NUTATION;

/// X0, the Moon's mean elongation from the Sun.
pub const X0: Polynomial = cubic(29_785_036_000, 44_526_711_148_000, -191_420, (100, 189_474));
/// X1, the Sun's mean anomaly.
pub const X1: Polynomial = cubic(35_752_772_000, 3_599_905_034_000, -16_030, (-100, 300_000));
/// X2, the Moon's mean anomaly.
pub const X2: Polynomial = cubic(13_496_298_000, 47_719_886_739_800, 869_720, (100, 56_250));
/// X3, the Moon's argument of latitude.
pub const X3: Polynomial = cubic(9_327_191_000, 48_320_201_753_800, -368_250, (100, 327_270));
/// X4, the longitude of the Moon's ascending node.
pub const X4: Polynomial = cubic(12_504_452_000, -193_413_626_100, 207_080, (100, 450_000));

const fn cubic(c0: i64, c1: i64, c2: i64, cubic: (i64, i64)) -> Polynomial {
    Polynomial { c0, c1, c2, cubic, quartic: ABSENT }
}

/// Nutation and true obliquity, 10⁻⁸ degree.
#[derive(Clone, Copy, Debug, PartialEq, Eq)]
pub struct Nutation {
    /// Δψ, in longitude.
    pub longitude: i64,
    /// Δε, in obliquity.
    pub obliquity: i64,
    /// ε, the true obliquity: Δε is in it.
    pub true_obliquity: i64,
}

/// Nutation at an accepted TT (milliseconds from 2000-01-01 12:00).
pub fn nutation(tt: i64) -> Nutation {
    nutation_at(&Time::new(tt))
}

pub(crate) fn nutation_at(time: &Time) -> Nutation {
    let base = [X0.at(time), X1.at(time), X2.at(time), X3.at(time), X4.at(time)];
    let (mut by_sine, mut by_cosine) = (0, 0);
    for row in &NUTATION {
        let angle = combine(&row.multiples, &base);
        by_sine += weight(row.a, row.b, time) * sine_of_reduced(angle);
        if row.c != 0 || row.d != 0 {
            by_cosine += weight(row.c, row.d, time) * cosine_of_reduced(angle);
        }
    }
    let obliquity = in_degrees(by_cosine);
    Nutation { longitude: in_degrees(by_sine), obliquity, true_obliquity: mean_obliquity(time) + obliquity }
}

/// A row's weight, 10⁻⁵ second of arc, from its constant part and ten times its change a century.
#[inline(always)]
fn weight(fixed: i32, tenfold_change: i32, time: &Time) -> i64 {
    10 * i64::from(fixed) + floor_div(i64::from(tenfold_change) * time.u, 1_000_000)
}

/// A row's angle, reduced.
#[inline(always)]
fn combine(multiples: &[i8; 5], base: &[i64; 5]) -> i64 {
    reduce(multiples.iter().zip(base).map(|(&multiple, &x)| i64::from(multiple) * x).sum())
}

/// A sum of weights times sines, in 10⁻⁸ degree.
fn in_degrees(sum: i64) -> i64 {
    floor_div(25 * sum, 90_000_000_000)
}

/// The mean obliquity, 10⁻⁸ degree.
fn mean_obliquity(time: &Time) -> i64 {
    84_381_448 * 250 / 9
        + floor_div(-468_093 * time.u, 360_000)
        + floor_div(-155 * time.p2, 36_000_000)
        + floor_div(199_925 * time.p3, 3_600_000_000)
}
