//! Numbers and angles: floors, reduction, sine, arctangent, square root.

use crate::tables::{ARCTANGENT, SINE};

/// A full turn, in 10⁻⁸ degree.
pub const TURN: i64 = 36_000_000_000;
/// Half a turn, in 10⁻⁸ degree.
pub const HALF_TURN: i64 = TURN / 2;
/// A quarter turn, in 10⁻⁸ degree.
pub const QUARTER_TURN: i64 = TURN / 4;
/// The scale of sines: 1 is 10⁹.
pub const ONE: i64 = 1_000_000_000;

/// A quarter of a degree, the step of the sine table.
const STEP: u64 = 25_000_000;

/// a / b, floored. `b` is above zero.
///
/// Below zero it is the complement of the complement's quotient, so that one unsigned division serves both signs.
#[inline(always)]
pub const fn floor_div(a: i64, b: i64) -> i64 {
    let sign = a >> 63; // 0, or -1 below zero
    ((a ^ sign) as u64 / b as u64) as i64 ^ sign
}

/// What a / b, floored, leaves over: 0 up to but not b. `b` is above zero.
#[inline(always)]
pub const fn floor_rem(a: i64, b: i64) -> i64 {
    let sign = a >> 63;
    (((a ^ sign) as u64 % b as u64) as i64 ^ sign) + (b & sign)
}

/// a · b / 10⁹, floored: the product of two sine-scaled numbers.
#[inline(always)]
pub const fn scaled(a: i64, b: i64) -> i64 {
    floor_div(a * b, ONE)
}

/// c · n / (A · B), floored, where the product passes 64 bits. A and B are above zero.
///
/// With n = A·high + low it is (c·high + c·low/A) / B, and a floor inside a floor changes nothing. Holds where c·A and
/// c·high are below 2⁶².
#[inline(always)]
pub const fn floor_mul_div<const A: i64, const B: i64>(c: i64, n: i64) -> i64 {
    let (high, low) = (floor_div(n, A), floor_rem(n, A));
    floor_div(c * high + floor_div(c * low, A), B)
}

/// The angle brought to 0 up to a full turn.
#[inline(always)]
pub const fn reduce(angle: i64) -> i64 {
    floor_rem(angle, TURN)
}

/// Sine of an angle, times 10⁹. Any angle will do. The greatest value is 10⁹ + 1.
#[inline]
pub fn sine(angle: i64) -> i64 {
    sine_of_reduced(reduce(angle))
}

/// Cosine of an angle, times 10⁹: the sine a quarter turn on. Any angle will do.
#[inline]
pub fn cosine(angle: i64) -> i64 {
    cosine_of_reduced(reduce(angle))
}

/// Sine and cosine of an angle, times 10⁹, reduced once.
#[inline]
pub fn sine_cosine(angle: i64) -> (i64, i64) {
    let reduced = reduce(angle);
    (sine_of_reduced(reduced), cosine_of_reduced(reduced))
}

/// Cosine of an angle that is reduced already.
#[inline(always)]
pub(crate) fn cosine_of_reduced(angle: i64) -> i64 {
    let ahead = angle + QUARTER_TURN;
    sine_of_reduced(if ahead >= TURN { ahead - TURN } else { ahead })
}

/// Sine of an angle that is reduced already.
#[inline(always)]
pub(crate) fn sine_of_reduced(angle: i64) -> i64 {
    let sign = (HALF_TURN - 1 - angle) >> 63; // 0, or -1 from half a turn up
    let half = angle - (HALF_TURN & sign);
    negate_if(sign, quadrant_sine(half.min(HALF_TURN - half) as u64))
}

/// The value, negated when `sign` is -1 and not when it is 0. Signs of angles cannot be foretold, so a branch on
/// them would be dear.
#[inline(always)]
const fn negate_if(sign: i64, value: i64) -> i64 {
    (value ^ sign) - sign
}

/// Sine of an angle from 0 to a quarter turn: the table's entry, turned on by the rest below a quarter degree.
#[inline(always)]
fn quadrant_sine(angle: u64) -> i64 {
    let k = (angle / STEP) as usize;
    let rest = angle % STEP;
    let r = 1_745_329_252 * rest / 10_000_000_000;
    let q = r * r / 1_000_000_000;
    let rest_cosine = ONE as u64 - r * r / 2_000_000_000;
    let rest_sine = r - q * r / 6_000_000_000;
    ((SINE[k] as u64 * rest_cosine + SINE[360 - k] as u64 * rest_sine) / ONE as u64) as i64
}

/// The angle of the vector (x, y), reduced: 0 along x, a quarter turn along y. The zero vector has no direction
/// (document 02, Item 5).
pub fn arctangent(y: i64, x: i64) -> Option<i64> {
    /// Up to here the scaled pair and its growth (below 2.4 times) stay inside 64 bits.
    const NARROW: u64 = 1 << 50;
    if y == 0 && x == 0 {
        return None;
    }
    let narrow = y.unsigned_abs() <= NARROW && x.unsigned_abs() <= NARROW;
    Some(reduce(if narrow { narrow_arctangent(y, x) } else { wide_arctangent(y.into(), x.into()) }))
}

/// The arctangent, and 0 for the zero vector: the rule of the elevation and of the eclipse, which is not the azimuth's.
pub fn slope(y: i64, x: i64) -> i64 {
    arctangent(y, x).unwrap_or(0)
}

/// The turning of (x, y) onto the axis in 30 steps, in a given width; signs by mask, as in `negate_if`.
macro_rules! turning {
    ($name:ident, $int:ty) => {
        fn $name(y: $int, x: $int) -> i64 {
            let (mut y, mut x, mut angle) =
                if x < 0 { (-y * 1024, -x * 1024, HALF_TURN) } else { (y * 1024, x * 1024, 0) };
            for (k, &step) in ARCTANGENT.iter().enumerate() {
                if y == 0 {
                    break;
                }
                let sign = y >> (<$int>::BITS - 1); // 0, or -1 below zero
                let (across, along) = (y >> k, x >> k);
                x += (across ^ sign) - sign;
                y -= (along ^ sign) - sign;
                angle += negate_if(sign as i64, step);
            }
            angle
        }
    };
}
turning!(narrow_arctangent, i64);
turning!(wide_arctangent, i128);

/// The greatest whole number whose square is not above `n`.
#[inline]
pub fn root(n: u64) -> u64 {
    n.isqrt()
}

#[cfg(test)]
mod tests {
    use super::*;

    /// A small generator of numbers for the tests below.
    fn numbers(seed: u64) -> impl FnMut() -> i64 {
        let mut state = seed;
        move || {
            state ^= state << 13;
            state ^= state >> 7;
            state ^= state << 17;
            state as i64
        }
    }

    #[test]
    fn floors_go_down() {
        let mut next = numbers(3);
        for shift in 0..63 {
            for _ in 0..1_000 {
                let (a, b) = (next() >> shift, (next() >> (shift / 2)).saturating_abs().max(1));
                assert_eq!(floor_div(a, b), a.div_euclid(b), "{a} {b}");
                assert_eq!(floor_rem(a, b), a.rem_euclid(b), "{a} {b}");
            }
        }
        for a in [i64::MIN, i64::MIN + 1, -7, -1, 0, 1, 7, i64::MAX] {
            for b in [1, 2, 7, TURN] {
                assert_eq!((floor_div(a, b), floor_rem(a, b)), (a.div_euclid(b), a.rem_euclid(b)), "{a} {b}");
            }
        }
    }

    #[test]
    fn split_products_equal_wide_ones() {
        fn check<const A: i64, const B: i64>(c: i64, n: i64) {
            let wide = (i128::from(c) * i128::from(n)).div_euclid(i128::from(A) * i128::from(B));
            assert_eq!(i128::from(floor_mul_div::<A, B>(c, n)), wide, "{c} {n} {A} {B}");
        }
        let mut next = numbers(7);
        for _ in 0..200_000 {
            let (c, n) = (next() >> 17, next() >> 32);
            check::<60_000, 1_440>(c, n);
            check::<100_000, 100_000>(c >> 2, n);
            check::<1_440, 60_000>(c, n >> 10);
        }
        for c in [1 - (1 << 46), -1, 0, 1, (1 << 46) - 1] {
            for n in [1 - (1 << 32), -1, 0, 1, (1 << 32) - 1] {
                check::<60_000, 1_440>(c, n >> 1);
                check::<{ 1 << 16 }, 1>(c, n);
                check::<{ 1 << 16 }, { 1 << 46 }>(c, n);
                check::<1, 1>(c >> 16, n);
            }
        }
    }

    #[test]
    fn both_widths_of_the_arctangent_agree() {
        let mut next = numbers(11);
        for shift in 13..63 {
            for _ in 0..2_000 {
                let (y, x) = (next() >> shift, next() >> shift);
                assert_eq!(narrow_arctangent(y, x), wide_arctangent(y.into(), x.into()), "{y} {x}");
            }
        }
    }

    #[test]
    fn every_whole_number_is_taken() {
        let ends = [i64::MIN, i64::MIN + 1, -1, 0, 1, i64::MAX - 1, i64::MAX];
        for y in ends {
            assert!(sine(y).abs() <= ONE + 1 && cosine(y).abs() <= ONE + 1);
            for x in ends {
                assert_eq!(arctangent(y, x).is_none(), (y, x) == (0, 0));
                assert!((0..TURN).contains(&slope(y, x)));
            }
        }
        assert_eq!(slope(0, 0), 0);
        assert_eq!(root(u64::MAX), u64::from(u32::MAX));
    }
}
