//! What is asked: when, of which body, from where and through which air.
#![forbid(unsafe_code)]

/// A moment in UTC (no zone, Gregorian calendar) to the millisecond, with UT1 minus UTC and delta-T (TT minus UT1).
///
/// With the feature `std`, `Start::try_from` takes a `SystemTime`.
#[repr(C)]
#[derive(Clone, Copy, Debug, PartialEq, Eq, Hash)]
pub struct Start {
    /// Gregorian, 1900 to 2100.
    pub year: i64,
    /// 1 to 12.
    pub month: i64,
    /// From 1.
    pub day: i64,
    /// UTC, 0 to 23.
    pub hour: i64,
    /// 0 to 59.
    pub minute: i64,
    /// 0 to 59: a leap second is refused.
    pub second: i64,
    /// Milliseconds after the whole second, 0 to 999.
    pub fraction_ms: i64,
    /// UT1 minus UTC in milliseconds, -900 to 900.
    pub ut1_ms: i64,
    /// Delta-T, TT minus UT1, in milliseconds, -8,000,000 to 8,000,000.
    pub delta_t_ms: i64,
}

impl Start {
    /// A whole second of UTC (no zone, Gregorian calendar), with UT1 minus UTC and delta-T both 0 until they are given.
    ///
    /// Delta-T is about 69 s in 2020, in which the Moon goes 0.01 degree: give it by [`delta_t_ms`](Start::delta_t_ms).
    ///
    /// ```
    /// use raddlehue::Start;
    ///
    /// let start = Start::utc(2003, 10, 17, 19, 30, 31);
    /// assert_eq!((start.year, start.hour, start.delta_t_ms), (2003, 19, 0));
    /// ```
    #[must_use]
    pub const fn utc(year: i64, month: i64, day: i64, hour: i64, minute: i64, second: i64) -> Start {
        Start { year, month, day, hour, minute, second, fraction_ms: 0, ut1_ms: 0, delta_t_ms: 0 }
    }

    /// The same, this many milliseconds (0 to 999) after its whole second of UTC.
    ///
    /// ```
    /// assert_eq!(raddlehue::Start::utc(2003, 10, 17, 19, 30, 30).fraction_ms(500).fraction_ms, 500);
    /// ```
    #[must_use]
    pub const fn fraction_ms(self, fraction_ms: i64) -> Start {
        Start { fraction_ms, ..self }
    }

    /// The same, with UT1 minus UTC (not UTC minus UT1) in milliseconds, -900 to 900.
    ///
    /// ```
    /// assert_eq!(raddlehue::Start::utc(2003, 10, 17, 19, 30, 30).ut1_ms(-400).ut1_ms, -400);
    /// ```
    #[must_use]
    pub const fn ut1_ms(self, ut1_ms: i64) -> Start {
        Start { ut1_ms, ..self }
    }

    /// The same, with delta-T (TT minus UT1, not UTC) in milliseconds, -8,000,000 to 8,000,000: 67 s is 67,000.
    ///
    /// ```
    /// assert_eq!(raddlehue::Start::utc(2003, 10, 17, 19, 30, 30).delta_t_ms(67_000).delta_t_ms, 67_000);
    /// ```
    #[must_use]
    pub const fn delta_t_ms(self, delta_t_ms: i64) -> Start {
        Start { delta_t_ms, ..self }
    }
}

/// A date in UTC (no zone, Gregorian calendar), with UT1 minus UTC and delta-T (TT minus UT1) for all of it.
#[repr(C)]
#[derive(Clone, Copy, Debug, PartialEq, Eq, Hash)]
pub struct Date {
    /// Gregorian, 1900 to 2100.
    pub year: i64,
    /// 1 to 12.
    pub month: i64,
    /// From 1.
    pub day: i64,
    /// UT1 minus UTC in milliseconds, -900 to 900.
    pub ut1_ms: i64,
    /// Delta-T, TT minus UT1, in milliseconds, -8,000,000 to 8,000,000.
    pub delta_t_ms: i64,
}

impl Date {
    /// A date of UTC (no zone, Gregorian calendar), with UT1 minus UTC and delta-T both 0 until they are given.
    ///
    /// ```
    /// use raddlehue::Date;
    ///
    /// let date = Date::utc(2009, 6, 21);
    /// assert_eq!((date.year, date.day, date.delta_t_ms), (2009, 21, 0));
    /// ```
    #[must_use]
    pub const fn utc(year: i64, month: i64, day: i64) -> Date {
        Date { year, month, day, ut1_ms: 0, delta_t_ms: 0 }
    }

    /// The same, with UT1 minus UTC (not UTC minus UT1) in milliseconds, -900 to 900.
    ///
    /// ```
    /// assert_eq!(raddlehue::Date::utc(2009, 6, 21).ut1_ms(-400).ut1_ms, -400);
    /// ```
    #[must_use]
    pub const fn ut1_ms(self, ut1_ms: i64) -> Date {
        Date { ut1_ms, ..self }
    }

    /// The same, with delta-T (TT minus UT1, not UTC) in milliseconds, -8,000,000 to 8,000,000: 65.9 s is 65,900.
    ///
    /// ```
    /// assert_eq!(raddlehue::Date::utc(2009, 6, 21).delta_t_ms(65_900).delta_t_ms, 65_900);
    /// ```
    #[must_use]
    pub const fn delta_t_ms(self, delta_t_ms: i64) -> Date {
        Date { delta_t_ms, ..self }
    }
}

/// The body whose azimuth (from north over east) and elevation (from the horizon upward) are asked for.
#[derive(Clone, Copy, Debug, PartialEq, Eq, Hash)]
pub enum Body {
    /// The centre of the Sun.
    Sun,
    /// The centre of the Moon.
    Moon,
}

impl Body {
    pub(crate) const fn code(self) -> u32 {
        match self {
            Body::Sun => 0,
            Body::Moon => 1,
        }
    }
}

/// Where the observer stands: longitude (east positive, from Greenwich), latitude (north positive, from the equator) and height above the sea.
#[repr(C)]
#[derive(Clone, Copy, Debug, PartialEq, Eq, Hash)]
pub struct Point {
    /// 10⁻⁷ degree from Greenwich, east positive, within 1,800,000,000 either way.
    pub longitude_e7: i64,
    /// 10⁻⁷ degree from the equator, north positive, within 900,000,000 either way.
    pub latitude_e7: i64,
    /// Metres above the sea, -500 to 9,000.
    pub height_metres: i64,
}

impl Point {
    /// Degrees east of Greenwich (west is negative), then degrees north (south is negative), to the nearest 10⁻⁷, and metres of height.
    ///
    /// Degrees that are not a number, or too many, give a point that is refused.
    ///
    /// ```
    /// use raddlehue::Point;
    ///
    /// let boulder = Point { longitude_e7: -1_051_786_000, latitude_e7: 397_424_760, height_metres: 1830 };
    /// assert_eq!(Point::east_north(-105.1786, 39.742476, 1830), boulder);
    /// ```
    #[must_use]
    pub const fn east_north(longitude_degrees: f64, latitude_degrees: f64, height_metres: i64) -> Point {
        Point { longitude_e7: units_e7(longitude_degrees), latitude_e7: units_e7(latitude_degrees), height_metres }
    }
}

// The nearest whole number, a half away from zero, as `round` has it, which needs `std`. A cast cuts towards zero and stops at the least or the greatest `i64`, which is
// refused too, but would make 0 of what is not a number.
const fn units_e7(degrees: f64) -> i64 {
    if degrees.is_nan() {
        return i64::MAX;
    }
    let units = degrees * 1e7;
    let whole = units as i64;
    let rest = units - whole as f64;
    whole.saturating_add((2.0 * rest) as i64)
}

/// The air that lifts a body towards the zenith, by its pressure and its temperature at the point.
#[derive(Clone, Copy, Debug, PartialEq)]
pub enum Air {
    /// No refraction.
    None,
    /// What a barometer and a thermometer say at the point.
    Measured {
        /// mbar where the observer stands (not reduced to sea level), 0 to 1200.
        pressure_mbar: f64,
        /// °C, -80 to 80.
        temperature_celsius: f64,
    },
}

impl Air {
    /// C's code of the air, and the two numbers that are read only where measured.
    pub(crate) const fn parts(self) -> (u32, f64, f64) {
        match self {
            Air::None => (0, 0.0, 0.0),
            Air::Measured { pressure_mbar, temperature_celsius } => (2, pressure_mbar, temperature_celsius),
        }
    }
}
