//! A request, and its numbered refusals 1 to 11.

use crate::calendar::day_count;

/// A moment of UTC with its two time corrections.
#[derive(Clone, Copy, Debug, PartialEq, Eq)]
pub struct Start {
    /// 1900 to 2100.
    pub year: i64,
    pub month: i64,
    pub day: i64,
    pub hour: i64,
    pub minute: i64,
    pub second: i64,
    /// 0 to 999.
    pub millisecond: i64,
    /// UT1 minus UTC, milliseconds.
    pub ut1: i64,
    /// TT minus UT, milliseconds.
    pub delta_t: i64,
}

/// The body looked at.
#[derive(Clone, Copy, Debug, PartialEq, Eq)]
pub enum Body {
    Sun,
    Moon,
}

/// A point on Earth.
#[derive(Clone, Copy, Debug, PartialEq, Eq)]
pub struct Point {
    /// 10⁻⁷ degree, east positive.
    pub longitude: i64,
    /// 10⁻⁷ degree, north positive.
    pub latitude: i64,
    /// Metres.
    pub height: i64,
}

/// The air that bends the light.
#[derive(Clone, Copy, Debug, PartialEq)]
pub enum Air {
    /// No refraction.
    None,
    /// Pressure in mbar and temperature in °C.
    Measured(f64, f64),
}

/// Refusals 1 to 6; otherwise UTC as milliseconds from 2000-01-01 00:00.
pub fn check_start(start: &Start) -> Result<i64, u8> {
    let days = day_count(start.year, start.month, start.day)?;
    let time_exists = (0..24).contains(&start.hour)
        && (0..60).contains(&start.minute)
        && (0..60).contains(&start.second)
        && (0..1_000).contains(&start.millisecond);
    if !time_exists {
        return Err(4);
    }
    if !(-900..=900).contains(&start.ut1) {
        return Err(5);
    }
    if !(-8_000_000..=8_000_000).contains(&start.delta_t) {
        return Err(6);
    }
    let seconds = 3_600 * start.hour + 60 * start.minute + start.second;
    Ok(86_400_000 * days + 1_000 * seconds + start.millisecond)
}

/// Refusals 7 to 9.
pub fn check_point(point: &Point) -> Result<(), u8> {
    if !(-1_800_000_000..=1_800_000_000).contains(&point.longitude) {
        return Err(7);
    }
    if !(-900_000_000..=900_000_000).contains(&point.latitude) {
        return Err(8);
    }
    if !(-500..=9_000).contains(&point.height) {
        return Err(9);
    }
    Ok(())
}

/// Refusals 10 and 11. A float that is not a number fails.
pub fn check_air(air: &Air) -> Result<(), u8> {
    if let Air::Measured(pressure, temperature) = air {
        if !(0.0..=1200.0).contains(pressure) {
            return Err(10);
        }
        if !(-80.0..=80.0).contains(temperature) {
            return Err(11);
        }
    }
    Ok(())
}
