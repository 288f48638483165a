//! Why a request is not answered.
#![forbid(unsafe_code)]

use core::error::Error;
use core::fmt;

/// Why a request is not answered: the first reason that applies, in the order in which they are checked.
///
/// [`Display`](fmt::Display) writes the sentence of the C header and of `docs/REFUSALS.md`, and after it the index of a [`TooLate`](Refusal::TooLate) and the minute of a
/// [`ProposalOut`](Refusal::ProposalOut).
///
/// ```
/// use raddlehue::{day_count, Refusal};
///
/// let refusal = day_count(1900, 2, 29).unwrap_err();
/// assert_eq!(refusal, Refusal::Day);
/// assert_eq!(refusal.to_string(), "that month of the Gregorian calendar has no such day");
/// ```
#[derive(Clone, Copy, Debug, PartialEq, Eq, Hash)]
#[non_exhaustive]
pub enum Refusal {
    /// 101: the body's code is unknown; a [`Body`](crate::Body) has none such.
    UnknownBody,
    /// 102: the air's code is unknown; an [`Air`](crate::Air) has none such.
    UnknownAir,
    /// 103: the elevation to refract is not within 9,000,000,000 of 10⁻⁸ degree either way.
    NoElevation,
    /// 104: the instant of a sum is not within 3,190,473,360,000 milliseconds (101.1 years) of 2000-01-01 12:00.
    OutOfReach,
    /// 105: the separation is not 0 to 18,000,000,000 of 10⁻⁸ degree, the Sun's radius not 20,000,000 to 30,000,000, or the Moon's not 0 to 30,000,000.
    NoDisks,
    /// 106: the strip has no step of that index.
    NoStep,
    /// 16: a line that a program reads is not whole numbers with single spaces; no function of this package gives it.
    NotALine,
    /// 1: the year (Gregorian, UTC) is not 1900 to 2100.
    Year,
    /// 2: the month (Gregorian, UTC) is not 1 to 12.
    Month,
    /// 3: the day (Gregorian, UTC) is not in that month.
    Day,
    /// 4: the clock (UTC) is not hour 0 to 23, minute 0 to 59, second 0 to 59, millisecond 0 to 999.
    Clock,
    /// 5: UT1 minus UTC is not -900 to 900 milliseconds.
    Ut1,
    /// 6: delta-T (TT minus UT1) is not -8,000,000 to 8,000,000 milliseconds.
    DeltaT,
    /// 7: the longitude (east positive) is not within 1,800,000,000 of 10⁻⁷ degree either way.
    Longitude,
    /// 8: the latitude (north positive) is not within 900,000,000 of 10⁻⁷ degree either way.
    Latitude,
    /// 9: the height is not -500 to 9,000 metres.
    Height,
    /// 10: the measured pressure is not 0 to 1200 mbar, or not a number.
    Pressure,
    /// 11: the measured temperature is not -80 to 80 °C, or not a number.
    Temperature,
    /// 12: a buffer has fewer entries than the list of offsets.
    ShortBuffer,
    /// 13: a start plus its offset lies after 2100-12-31 23:59:59.999 UTC.
    TooLate {
        /// Which offset is the first such, counted from 0.
        index: usize,
    },
    /// 15: an azimuth is not 0 to 35,999,999,999 of 10⁻⁸ degree.
    NotReduced,
    /// 14: the two azimuths lie exactly half a turn apart, and have no middle.
    Opposite,
    /// 20: the length is under 16, not that of the bytes, or not that of the step; where a strip is written, another number of azimuths than its step has.
    StripLength,
    /// 21: the version byte is not 1.
    StripVersion,
    /// 22: the air byte or the body byte is neither 0 nor 1.
    StripAirOrBody,
    /// 23: the date is none of the Gregorian calendar from 1900 to 2100.
    StripDate,
    /// 24: the longitude is not within 1,800,000,000 of 10⁻⁷ degree either way, or the latitude not within 900,000,000.
    StripPoint,
    /// 25: the step is not 1, 2, 5 or 10 minutes.
    StripStep,
    /// 26: an azimuth is not 0 to 3,599,999,999 of 10⁻⁷ degree, and not the mark of an absent one.
    StripAzimuth,
    /// 27: neither of two strips bears the date asked for.
    StripNotFound,
    /// 32: the air of a strip that is to be written is measured, whether it was carried over or not.
    StripMeasuredAir,
    /// 28: a buffer is too small for a strip, or for the azimuths of one.
    StripBuffer,
    /// 29: the turning points are fewer than 2 or more than 1,440, their minutes do not rise from 0 to 1439, an azimuth is not 0 to 35,999,999,999 of 10⁻⁸ degree, or one
    /// list is longer than the other.
    ProposalPoints,
    /// 30: two neighbouring turning points lie exactly half a turn apart, so that neither way round is the short one.
    ProposalOpposite,
    /// 31: at some minute the proposal's azimuth is further from the body's than the tolerance, the short way round.
    ProposalOut {
        /// Which minute is the first such, counted from 00:00 UTC, 0 to 1439.
        minute: u32,
    },
    /// 107: a minute of the day has no azimuth, or two adjacent minutes are exactly opposite; [`plan`](crate::plan) says `None` there, so that no function of this package
    /// gives it.
    NoPlan,
    /// A number that this package has no name for: the archive is newer.
    Other(u32),
}

// All that have a name, in the order of the checks.
const NAMED: [Refusal; 36] = [
    Refusal::UnknownBody,
    Refusal::UnknownAir,
    Refusal::NoElevation,
    Refusal::OutOfReach,
    Refusal::NoDisks,
    Refusal::NoStep,
    Refusal::NotALine,
    Refusal::Year,
    Refusal::Month,
    Refusal::Day,
    Refusal::Clock,
    Refusal::Ut1,
    Refusal::DeltaT,
    Refusal::Longitude,
    Refusal::Latitude,
    Refusal::Height,
    Refusal::Pressure,
    Refusal::Temperature,
    Refusal::ShortBuffer,
    Refusal::TooLate { index: 0 },
    Refusal::NotReduced,
    Refusal::Opposite,
    Refusal::StripLength,
    Refusal::StripVersion,
    Refusal::StripAirOrBody,
    Refusal::StripDate,
    Refusal::StripPoint,
    Refusal::StripStep,
    Refusal::StripAzimuth,
    Refusal::StripNotFound,
    Refusal::StripMeasuredAir,
    Refusal::StripBuffer,
    Refusal::ProposalPoints,
    Refusal::ProposalOpposite,
    Refusal::ProposalOut { minute: 0 },
    Refusal::NoPlan,
];

impl Refusal {
    // Number, name and sentence; tests/refusals.rs reads these rows against docs/REFUSALS.md.
    const fn row(self) -> (u32, &'static str, &'static str) {
        match self {
            Refusal::UnknownBody => (101, "UNKNOWN_BODY", "the body is neither Sun nor Moon"),
            Refusal::UnknownAir => (102, "UNKNOWN_AIR", "the air is neither none nor measured"),
            Refusal::NoElevation => (103, "NO_ELEVATION", "the elevation is not within 90 degrees"),
            Refusal::OutOfReach => {
                (104, "OUT_OF_REACH", "the instant is not within 3,190,473,360,000 milliseconds of 2000-01-01 12:00")
            }
            Refusal::NoDisks => (
                105,
                "NO_DISKS",
                "the separation is not 0 to 180 degrees, the Sun's radius not 0.2 to 0.3 or the Moon's not 0 to 0.3",
            ),
            Refusal::NoStep => (106, "NO_STEP", "the strip has no such step"),
            Refusal::NotALine => (16, "NOT_A_LINE", "the line is not whole numbers with single spaces"),
            Refusal::Year => (1, "YEAR", "the year is not 1900 to 2100"),
            Refusal::Month => (2, "MONTH", "the month is not 1 to 12"),
            Refusal::Day => (3, "DAY", "that month of the Gregorian calendar has no such day"),
            Refusal::Clock => {
                (4, "CLOCK", "the time of the day is not hour 0 to 23, minute 0 to 59, second 0 to 59, millisecond 0 to 999")
            }
            Refusal::Ut1 => (5, "UT1", "UT1 minus UTC is not -900 to 900 milliseconds"),
            Refusal::DeltaT => (6, "DELTA_T", "delta-T is not -8,000,000 to 8,000,000 milliseconds"),
            Refusal::Longitude => (7, "LONGITUDE", "the longitude is not within 180 degrees"),
            Refusal::Latitude => (8, "LATITUDE", "the latitude is not within 90 degrees"),
            Refusal::Height => (9, "HEIGHT", "the height is not -500 to 9,000 metres"),
            Refusal::Pressure => (10, "PRESSURE", "the measured pressure is not 0 to 1200 mbar"),
            Refusal::Temperature => (11, "TEMPERATURE", "the measured temperature is not -80 to 80 degrees Celsius"),
            Refusal::ShortBuffer => (12, "SHORT_BUFFER", "a buffer is shorter than the list of offsets"),
            Refusal::TooLate { .. } => (13, "TOO_LATE", "a start plus offset lies after 2100-12-31 23:59:59.999 UTC"),
            Refusal::NotReduced => (15, "NOT_REDUCED", "an azimuth is not from 0 up to but not 360 degrees"),
            Refusal::Opposite => (14, "OPPOSITE", "two azimuths half a turn apart have no middle"),
            Refusal::StripLength => (
                20,
                "STRIP_LENGTH",
                "the strip's length does not agree with its bytes, with its step or with the number of azimuths",
            ),
            Refusal::StripVersion => (21, "STRIP_VERSION", "the strip is not of version 1"),
            Refusal::StripAirOrBody => {
                (22, "STRIP_AIR_OR_BODY", "the strip's air byte is not 0 or 1, or its body byte not 0 or 1")
            }
            Refusal::StripDate => (23, "STRIP_DATE", "the strip's date is not one of 1900 to 2100 in the Gregorian calendar"),
            Refusal::StripPoint => {
                (24, "STRIP_POINT", "the strip's longitude is not within 180 degrees, or its latitude not within 90")
            }
            Refusal::StripStep => (25, "STRIP_STEP", "the step is not 1, 2, 5 or 10 minutes"),
            Refusal::StripAzimuth => {
                (26, "STRIP_AZIMUTH", "an azimuth of the strip is neither absent nor from 0 up to but not 360 degrees")
            }
            Refusal::StripNotFound => (27, "STRIP_NOT_FOUND", "neither strip bears that date"),
            Refusal::StripMeasuredAir => {
                (32, "STRIP_MEASURED_AIR", "a strip in measured air is not written, whether it was carried over or not")
            }
            Refusal::StripBuffer => (28, "STRIP_BUFFER", "the buffer is too small for the strip or its azimuths"),
            Refusal::ProposalPoints => (
                29,
                "PROPOSAL_POINTS",
                "the turning points are not 2 to 1,440 minutes that rise from 0 to 1439, each with an azimuth from 0 up to but not 360 degrees",
            ),
            Refusal::ProposalOpposite => {
                (30, "PROPOSAL_OPPOSITE", "two neighbouring turning points lie exactly half a turn apart")
            }
            Refusal::ProposalOut { .. } => (31, "PROPOSAL_OUT", "a minute of the proposal is out of tolerance"),
            Refusal::NoPlan => (
                107,
                "NO_PLAN",
                "there is no plan: a minute of the day has no azimuth, or two adjacent minutes are exactly opposite",
            ),
            Refusal::Other(number) => (number, "UNKNOWN", "unknown refusal"),
        }
    }

    /// The refusal's number, as C has it; never 0.
    ///
    /// ```
    /// assert_eq!(raddlehue::Refusal::Day.number(), 3);
    /// ```
    #[must_use]
    pub const fn number(self) -> u32 {
        self.row().0
    }

    /// The refusal's name, as C has it after `RADDLEHUE_`.
    ///
    /// ```
    /// assert_eq!(raddlehue::Refusal::ShortBuffer.name(), "SHORT_BUFFER");
    /// ```
    #[must_use]
    pub const fn name(self) -> &'static str {
        self.row().1
    }

    /// The refusal in words, as C has them; the index of a [`TooLate`](Refusal::TooLate) and the minute of a [`ProposalOut`](Refusal::ProposalOut) are not in them.
    ///
    /// ```
    /// assert_eq!(raddlehue::Refusal::Year.sentence(), "the year is not 1900 to 2100");
    /// ```
    #[must_use]
    pub const fn sentence(self) -> &'static str {
        self.row().2
    }
}

impl fmt::Display for Refusal {
    fn fmt(&self, f: &mut fmt::Formatter<'_>) -> fmt::Result {
        match self {
            Refusal::TooLate { index } => write!(f, "{} (index {index})", self.sentence()),
            Refusal::ProposalOut { minute } => write!(f, "{} (minute {minute})", self.sentence()),
            Refusal::Other(number) => write!(f, "{} {number}", self.sentence()),
            _ => f.pad(self.sentence()),
        }
    }
}

impl Error for Refusal {}

/// The archive's number, where 0 accepts.
pub(crate) fn accepted(number: u32) -> Result<(), Refusal> {
    if number == 0 {
        return Ok(());
    }
    Err(NAMED.into_iter().find(|refusal| refusal.number() == number).unwrap_or(Refusal::Other(number)))
}

/// What an export writes, begun with zeros, or its refusal.
pub(crate) fn answer<T: Default>(export: impl FnOnce(&mut T) -> u32) -> Result<T, Refusal> {
    let mut written = T::default();
    accepted(export(&mut written))?;
    Ok(written)
}

#[cfg(test)]
mod tests {
    use super::*;

    #[test]
    fn every_number_is_itself_again() {
        assert_eq!(accepted(0), Ok(()));
        for number in (1..1000).chain([u32::MAX]) {
            assert_eq!(accepted(number).map_err(Refusal::number), Err(number));
        }
        let named = (1..=u8::MAX).filter(|&number| accepted(number.into()) != Err(Refusal::Other(number.into())));
        assert_eq!(named.count(), NAMED.len());
    }
}
