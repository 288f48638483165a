//! An instant in UT and TT, the powers of its time, and polynomials in them.

use crate::numbers::{floor_div, floor_mul_div, floor_rem, reduce};
use crate::request::{check_start, Start};

/// Milliseconds in a day.
const DAY: i64 = 86_400_000;
/// Milliseconds in a Julian century.
pub const CENTURY: i64 = 3_155_760_000_000;
/// Milliseconds in a Julian millennium.
pub const MILLENNIUM: i64 = 10 * CENTURY;

/// The scale of `Time`'s powers.
const MILLION: i64 = 1_000_000;

/// First moment of UTC that is accepted, 1900-01-01 00:00, in milliseconds from 2000-01-01 00:00.
const FIRST_UTC: i64 = DAY * -36_524;

/// Last moment of UTC that is accepted, 2100-12-31 23:59:59.999, in milliseconds from 2000-01-01 00:00.
const LAST_UTC: i64 = DAY * 36_889 + (DAY - 1);

/// An accepted instant, in milliseconds from 2000-01-01 12:00.
#[derive(Clone, Copy, Debug, PartialEq, Eq)]
pub struct Instant {
    pub ut: i64,
    pub tt: i64,
    /// Milliseconds from this instant to the last one accepted.
    left: i64,
}

impl Instant {
    /// The start's instant, or refusal 1 to 6.
    pub fn new(start: &Start) -> Result<Self, u8> {
        let utc = check_start(start)?;
        let ut = utc - DAY / 2 + start.ut1;
        Ok(Self { ut, tt: ut + start.delta_t, left: LAST_UTC - utc })
    }

    /// Whether the instant so many milliseconds later is still accepted.
    pub fn reaches(&self, offset: u32) -> bool {
        i64::from(offset) <= self.left
    }

    /// The instant so many milliseconds later; the same time corrections hold.
    pub fn after(&self, offset: u32) -> Self {
        let offset = i64::from(offset);
        Self { ut: self.ut + offset, tt: self.tt + offset, left: self.left - offset }
    }

    /// The instant so many milliseconds earlier, where it is accepted; the same time corrections hold.
    pub fn before(&self, offset: u32) -> Option<Self> {
        let offset = i64::from(offset);
        let left = self.left + offset;
        (FIRST_UTC <= LAST_UTC - left).then(|| Self { ut: self.ut - offset, tt: self.tt - offset, left })
    }
}

/// A time n in milliseconds, with its count of centuries u and the powers of u, each times 10⁶.
///
/// Made from n of an accepted instant; the sums rest on its size (|n| below 2⁴²).
#[derive(Clone, Copy, Debug)]
pub struct Time {
    pub n: i64,
    /// n as whole days and the rest, 0 up to a day.
    days: i64,
    of_day: i64,
    pub u: i64,
    pub p2: i64,
    pub p3: i64,
    pub p4: i64,
}

impl Time {
    pub fn new(n: i64) -> Self {
        let u = floor_div(MILLION * n, CENTURY);
        let p2 = floor_div(u * u, MILLION);
        let (p3, p4) = (floor_div(p2 * u, MILLION), floor_div(p2 * p2, MILLION));
        Self { n, days: floor_div(n, DAY), of_day: floor_rem(n, DAY), u, p2, p3, p4 }
    }

    /// c · n / D, floored, D being whole days: how far an angle has moved that moves by c in the time D.
    ///
    /// The product passes 64 bits, so c goes with the days, and with the minutes of the day and the milliseconds of the
    /// minute. Holds for |c| below 2⁴⁶: there are less than 2¹⁶ of each.
    #[inline(always)]
    pub fn moved<const D: i64>(&self, c: i64) -> i64 {
        const { assert!(D % DAY == 0) };
        let of_day = floor_mul_div::<60_000, 1_440>(c, self.of_day);
        floor_div(c * self.days + of_day, D / DAY)
    }
}

/// c0 + c1·T + c2·T² ± T³/k3 ± T⁴/k4, T in centuries: c0 to c2 in 10⁻⁸ degree, then (±100, k3) and (±100, k4),
/// or `ABSENT`.
pub struct Polynomial {
    pub c0: i64,
    pub c1: i64,
    pub c2: i64,
    pub cubic: (i64, i64),
    pub quartic: (i64, i64),
}

/// A term that a polynomial does not have.
pub const ABSENT: (i64, i64) = (0, 1);

impl Polynomial {
    /// The polynomial's angle, reduced. Inlined, so that each divisor is a constant.
    #[inline(always)]
    pub fn at(&self, time: &Time) -> i64 {
        reduce(
            self.c0
                + time.moved::<CENTURY>(self.c1)
                + floor_div(self.c2 * time.p2, MILLION)
                + floor_div(self.cubic.0 * time.p3, self.cubic.1)
                + floor_div(self.quartic.0 * time.p4, self.quartic.1),
        )
    }
}
