//! Day strips: a day's azimuths as bytes, to and from the phone.
#![forbid(unsafe_code)]

use crate::refusal::answer;
use crate::{archive, Air, Body, Date, Point, Refusal, DAY_MINUTES};
#[cfg(feature = "alloc")]
use alloc::{vec, vec::Vec};
use core::fmt;
use core::hash::{Hash, Hasher};
use core::iter::FusedIterator;
use core::ops::Range;

/// Bytes of a strip's header, which stand before its azimuths.
pub const STRIP_HEADER: usize = 18;

/// An absent azimuth of a strip: the largest `u32`, which is no azimuth.
pub const NO_AZIMUTH_E7: u32 = u32::MAX;

/// How many azimuths a strip has whose step is 1, 2, 5 or 10 minutes; 0 for any other step, which no strip has.
///
/// ```
/// use raddlehue::strip_steps;
///
/// assert_eq!([1, 2, 5, 10].map(strip_steps), [1440, 720, 288, 144]);
/// assert_eq!(strip_steps(7), 0);
/// ```
#[must_use]
pub const fn strip_steps(step_minutes: i64) -> usize {
    match step_minutes {
        1 => DAY_MINUTES,
        2 => DAY_MINUTES / 2,
        5 => DAY_MINUTES / 5,
        10 => DAY_MINUTES / 10,
        _ => 0,
    }
}

/// How many bytes a strip has whose step is 1, 2, 5 or 10 minutes; 0 for any other step, which no strip has.
///
/// ```
/// use raddlehue::strip_bytes;
///
/// assert_eq!([1, 2, 5, 10].map(strip_bytes), [5_778, 2_898, 1_170, 594]);
/// assert_eq!(strip_bytes(0), 0);
/// ```
#[must_use]
pub const fn strip_bytes(step_minutes: i64) -> usize {
    match strip_steps(step_minutes) {
        0 => 0,
        steps => STRIP_HEADER.saturating_add(steps.saturating_mul(4)),
    }
}

/// What a number of [`day_azimuths`] or of a strip says: an angle, or, where it is [`NO_AZIMUTH_E7`], that there is none.
///
/// ```
/// use raddlehue::{azimuth_in, NO_AZIMUTH_E7};
///
/// assert_eq!((azimuth_in(939_701_327), azimuth_in(NO_AZIMUTH_E7)), (Some(939_701_327), None));
/// ```
#[must_use]
pub fn azimuth_in(entry_e7: u32) -> Option<u32> {
    (entry_e7 != NO_AZIMUTH_E7).then_some(entry_e7)
}

// ---- making and writing

/// What a strip says beside its azimuths, as it is handed to [`write_strip`].
#[derive(Clone, Copy, Debug, PartialEq)]
pub struct StripHeader {
    /// None: measured air is refused, carried over or not, by [`StripMeasuredAir`](Refusal::StripMeasuredAir).
    pub air: StripAir,
    /// Whose azimuths these are.
    pub body: Body,
    /// Gregorian, 1900 to 2100, of a UTC date.
    pub year: i64,
    /// 1 to 12.
    pub month: i64,
    /// From 1.
    pub day: i64,
    /// 10⁻⁷ degree from Greenwich, east positive, within 1,800,000,000 either way.
    pub longitude_e7: i64,
    /// 10⁻⁷ degree from the equator, north positive, within 900,000,000 either way.
    pub latitude_e7: i64,
    /// Minutes from one azimuth to the next: 1, 2, 5 or 10.
    pub step_minutes: i64,
}

impl StripHeader {
    /// The header of what [`day_azimuths`] works for the same date, body, point and step, without air. A strip has no room for UT1, delta-T and height.
    ///
    /// ```
    /// use raddlehue::{Body, Date, Point, StripHeader};
    ///
    /// let header = StripHeader::of(Date::utc(2003, 10, 17), Body::Moon, Point::east_north(-105.1786, 39.742476, 1830), 5);
    /// assert_eq!((header.year, header.longitude_e7, header.step_minutes), (2003, -1_051_786_000, 5));
    /// ```
    #[must_use]
    pub const fn of(date: Date, body: Body, point: Point, step_minutes: i64) -> StripHeader {
        let Date { year, month, day, .. } = date;
        let Point { longitude_e7, latitude_e7, .. } = point;
        StripHeader { air: StripAir::None, body, year, month, day, longitude_e7, latitude_e7, step_minutes }
    }

    fn codes(self) -> archive::Strip {
        let StripHeader { year, month, day, longitude_e7, latitude_e7, step_minutes, .. } = self;
        let (air_kind, body) = (self.air.kind(), self.body.code().into());
        archive::Strip { air_kind, body, year, month, day, longitude_e7, latitude_e7, step_minutes }
    }
}

/// A day's azimuths for a strip into a lent buffer, in 10⁻⁷ degree from north over east, rounded down.
///
/// Entry i is the body's azimuth i steps after 00:00 UTC, with the date's UT1 minus UTC and delta-T, or [`NO_AZIMUTH_E7`] where it stands straight overhead or straight
/// underfoot. The answer is how many were written, [`strip_steps`] of the step. What lies beyond keeps its contents, and a refused day writes nothing.
///
/// # Errors
/// [`Year`](Refusal::Year) to [`Day`](Refusal::Day), 1 to 3, [`Ut1`](Refusal::Ut1) to [`Height`](Refusal::Height), 5 to 9, then [`StripStep`](Refusal::StripStep), 25, and
/// [`StripBuffer`](Refusal::StripBuffer), 28, for fewer entries than steps.
///
/// ```
/// use raddlehue::{day_azimuths, strip_steps, Body, Date, Point, Refusal};
///
/// let boulder = Point::east_north(-105.1786, 39.742476, 1830);
/// let date = Date::utc(2003, 10, 17).delta_t_ms(67_000);
/// let mut azimuths_e7 = [0; strip_steps(10)];
/// assert_eq!(day_azimuths(date, Body::Sun, boulder, 10, &mut azimuths_e7), Ok(144));
/// assert_eq!(azimuths_e7[117], 1_941_824_835); // 19:30
/// assert_eq!(day_azimuths(date, Body::Sun, boulder, 5, &mut azimuths_e7), Err(Refusal::StripBuffer));
/// ```
pub fn day_azimuths(date: Date, body: Body, point: Point, step_minutes: i64, azimuths_e7: &mut [u32]) -> Result<usize, Refusal> {
    let count: u64 = answer(|count| archive::day_azimuths(&date, body.code(), &point, step_minutes, azimuths_e7, count))?;
    // It is not above the slice's length, so that a cast loses nothing.
    Ok(count as usize)
}

/// Writes a strip into a lent buffer, from its start on: a header, and its azimuths in 10⁻⁷ degree from north over east, [`NO_AZIMUTH_E7`] for one that is absent.
///
/// The answer is how many bytes the strip has, [`strip_bytes`] of its step. What lies beyond keeps its contents, and a refused strip writes nothing. Reading what was written
/// gives the same strip, and writing what was read gives the same bytes, but for old strips: air byte 1 is read, and never written.
///
/// # Errors
/// [`StripDate`](Refusal::StripDate) to [`StripStep`](Refusal::StripStep), 23 to 25, [`StripLength`](Refusal::StripLength), 20, for another number of azimuths than the
/// step has, [`StripAzimuth`](Refusal::StripAzimuth), 26, [`StripMeasuredAir`](Refusal::StripMeasuredAir), 32, and [`StripBuffer`](Refusal::StripBuffer), 28, in this order.
///
/// A strip of Boulder made, written, read and looked up:
///
/// ```
/// use raddlehue::*;
///
/// let date = Date::utc(2003, 10, 17).delta_t_ms(67_000);
/// let boulder = Point::east_north(-105.1786, 39.742476, 1830);
/// let mut azimuths_e7 = [0; strip_steps(10)];
/// day_azimuths(date, Body::Sun, boulder, 10, &mut azimuths_e7)?;
///
/// let mut bytes = [0; strip_bytes(10)];
/// let header = StripHeader::of(date, Body::Sun, boulder, 10);
/// assert_eq!(write_strip(header, &azimuths_e7, &mut bytes), Ok(594));
///
/// let strip = Strip::try_from(&bytes[..])?;
/// assert_eq!((strip.year(), strip.month(), strip.day(), strip.step_minutes()), (2003, 10, 17, 10));
/// assert_eq!(strip.at_minute(19 * 60 + 30), Ok(Some(1_941_824_835)));
///
/// let found = find_strip(&bytes, &bytes, 2003, 10, 17)?;
/// assert_eq!((found.which, found.azimuth_bytes), (Which::First, &bytes[STRIP_HEADER..]));
/// assert_eq!(find_strip(&bytes, &bytes, 2003, 10, 18), Err(Refusal::StripNotFound));
/// # Ok::<(), Refusal>(())
/// ```
pub fn write_strip(header: StripHeader, azimuths_e7: &[u32], bytes: &mut [u8]) -> Result<usize, Refusal> {
    let written: u64 = answer(|written| archive::strip_write(&header.codes(), azimuths_e7, bytes, written))?;
    // It is not above the slice's length, so that a cast loses nothing.
    Ok(written as usize)
}

/// The same as [`write_strip`], into a `Vec` of the strip's own length.
///
/// # Errors
/// Those of [`write_strip`], but for 28.
///
/// ```
/// use raddlehue::{strip_to_vec, Body, Date, Point, Strip, StripHeader, NO_AZIMUTH_E7};
///
/// let header = StripHeader::of(Date::utc(2026, 11, 15), Body::Moon, Point::east_north(170.5, -45.5, 0), 10);
/// let bytes = strip_to_vec(header, &[NO_AZIMUTH_E7; 144])?;
/// assert_eq!(Strip::try_from(&bytes[..])?.header(), header);
/// # Ok::<(), raddlehue::Refusal>(())
/// ```
#[cfg(feature = "alloc")]
pub fn strip_to_vec(header: StripHeader, azimuths_e7: &[u32]) -> Result<Vec<u8>, Refusal> {
    let mut bytes = vec![0; strip_bytes(header.step_minutes)];
    let written = write_strip(header, azimuths_e7, &mut bytes)?;
    bytes.truncate(written);
    Ok(bytes)
}

// ---- reading

/// The air of a strip. Air byte 1 of an old strip, which meant standard air, is read as measured air that was carried over; no strip is written with it.
///
/// ```
/// use raddlehue::*;
///
/// let header = StripHeader::of(Date::utc(2026, 11, 15), Body::Sun, Point::east_north(0.0, 0.0, 0), 10);
/// let mut bytes = [0; strip_bytes(10)];
/// write_strip(header, &[900_000_000; strip_steps(10)], &mut bytes)?;
/// bytes[3] = 1;
///
/// let old = Strip::try_from(&bytes[..])?;
/// assert_eq!(old.air(), StripAir::CarriedOver { pressure_mbar: 1010.0, temperature_celsius: 10.0 });
/// assert_eq!(Air::from(old.air()), Air::Measured { pressure_mbar: 1010.0, temperature_celsius: 10.0 });
/// assert_eq!(write_strip(old.header(), &[900_000_000; strip_steps(10)], &mut [0; 600]), Err(Refusal::StripMeasuredAir));
/// # Ok::<(), Refusal>(())
/// ```
#[derive(Clone, Copy, Debug, PartialEq)]
pub enum StripAir {
    /// No refraction.
    None,
    /// What a barometer and a thermometer said. No strip that is read has it, and none is written with it.
    Measured {
        /// mbar.
        pressure_mbar: f64,
        /// °C.
        temperature_celsius: f64,
    },
    /// Measured air with the mark that it was carried over from an old strip.
    CarriedOver {
        /// mbar: 1010 where it was read.
        pressure_mbar: f64,
        /// °C: 10 where it was read.
        temperature_celsius: f64,
    },
}

impl StripAir {
    // C's code.
    const fn kind(self) -> i64 {
        match self {
            StripAir::None => 0,
            StripAir::Measured { .. } => 2,
            StripAir::CarriedOver { .. } => 3,
        }
    }
}

/// The air of a request for the same place: the mark is left behind. Where it was carried over the shown place has the bits that it had in standard air.
impl From<StripAir> for Air {
    fn from(air: StripAir) -> Air {
        match air {
            StripAir::None => Air::None,
            StripAir::Measured { pressure_mbar, temperature_celsius }
            | StripAir::CarriedOver { pressure_mbar, temperature_celsius } => {
                Air::Measured { pressure_mbar, temperature_celsius }
            }
        }
    }
}

/// A strip that stays where it is: a view of lent bytes, all of which were judged when it was made. Nothing but the header's numbers is copied.
///
/// `Strip::try_from` takes the whole strip's bytes, and an iteration gives its [`StripStep`]s:
///
/// ```
/// use raddlehue::*;
///
/// let mut azimuths_e7 = [900_000_000; strip_steps(10)];
/// azimuths_e7[72] = NO_AZIMUTH_E7;
/// let header = StripHeader::of(Date::utc(2026, 11, 15), Body::Sun, Point::east_north(0.0, 0.0, 0), 10);
/// let mut bytes = [0; strip_bytes(10)];
/// write_strip(header, &azimuths_e7, &mut bytes)?;
///
/// let strip = Strip::try_from(&bytes[..])?;
/// assert_eq!((strip.air(), strip.body(), strip.header()), (StripAir::None, Body::Sun, header));
/// let overhead = strip.into_iter().find(|step| step.azimuth_e7.is_none());
/// assert_eq!(overhead.map(|step| step.minute), Some(12 * 60));
/// assert_eq!(Strip::try_from(&bytes[1..]), Err(Refusal::StripLength));
/// # Ok::<(), Refusal>(())
/// ```
#[derive(Clone, Copy)]
pub struct Strip<'a> {
    header: archive::Strip,
    measured: archive::Measured,
    bytes: &'a [u8],
}

// All that a strip says stands in its bytes.
impl PartialEq for Strip<'_> {
    fn eq(&self, other: &Self) -> bool {
        self.bytes == other.bytes
    }
}

impl Eq for Strip<'_> {}

impl Hash for Strip<'_> {
    fn hash<H: Hasher>(&self, state: &mut H) {
        self.bytes.hash(state);
    }
}

/// # Errors
/// [`StripLength`](Refusal::StripLength), 20, against the bytes, [`StripVersion`](Refusal::StripVersion) to [`StripStep`](Refusal::StripStep), 21 to 25, 20 against the
/// step, then [`StripAzimuth`](Refusal::StripAzimuth), 26.
impl<'a> TryFrom<&'a [u8]> for Strip<'a> {
    type Error = Refusal;

    fn try_from(bytes: &'a [u8]) -> Result<Strip<'a>, Refusal> {
        let mut measured = archive::Measured::default();
        let header = answer(|header| archive::strip_read(bytes, header, &mut measured))?;
        Ok(Strip { header, measured, bytes })
    }
}

impl<'a> Strip<'a> {
    /// None, or measured air that was carried over from an old strip.
    #[must_use]
    pub const fn air(&self) -> StripAir {
        let archive::Measured { pressure_mbar, temperature_celsius } = self.measured;
        match self.header.air_kind {
            0 => StripAir::None,
            _ => StripAir::CarriedOver { pressure_mbar, temperature_celsius },
        }
    }

    /// Whose azimuths these are.
    #[must_use]
    pub const fn body(&self) -> Body {
        match self.header.body {
            0 => Body::Sun,
            _ => Body::Moon,
        }
    }

    /// Gregorian, 1900 to 2100, of a UTC date.
    #[must_use]
    pub const fn year(&self) -> i64 {
        self.header.year
    }

    /// 1 to 12.
    #[must_use]
    pub const fn month(&self) -> i64 {
        self.header.month
    }

    /// From 1.
    #[must_use]
    pub const fn day(&self) -> i64 {
        self.header.day
    }

    /// 10⁻⁷ degree from Greenwich, east positive, within 1,800,000,000 either way.
    #[must_use]
    pub const fn longitude_e7(&self) -> i64 {
        self.header.longitude_e7
    }

    /// 10⁻⁷ degree from the equator, north positive, within 900,000,000 either way.
    #[must_use]
    pub const fn latitude_e7(&self) -> i64 {
        self.header.latitude_e7
    }

    /// Minutes from one azimuth to the next: 1, 2, 5 or 10.
    #[must_use]
    pub const fn step_minutes(&self) -> i64 {
        self.header.step_minutes
    }

    /// How many azimuths there are: [`strip_steps`] of the step.
    #[must_use]
    pub const fn steps(&self) -> usize {
        strip_steps(self.header.step_minutes)
    }

    /// All of the header, as [`write_strip`] takes it.
    #[must_use]
    pub fn header(&self) -> StripHeader {
        let archive::Strip { year, month, day, longitude_e7, latitude_e7, step_minutes, .. } = self.header;
        let (air, body) = (self.air(), self.body());
        StripHeader { air, body, year, month, day, longitude_e7, latitude_e7, step_minutes }
    }

    /// The whole strip, as it was lent.
    #[must_use]
    pub const fn bytes(&self) -> &'a [u8] {
        self.bytes
    }

    /// Its azimuths, 4 bytes each, the highest byte first: what [`strip_azimuth`] takes.
    #[must_use]
    pub fn azimuth_bytes(&self) -> &'a [u8] {
        // No strip is shorter than its header.
        self.bytes.get(STRIP_HEADER..).unwrap_or_default()
    }

    /// The azimuth of a step, counted from 0, in 10⁻⁷ degree from north over east; none where it is absent.
    ///
    /// # Errors
    /// [`NoStep`](Refusal::NoStep), 106: an index beyond the last step is an error and no second kind of `None`, which says that the body has no azimuth there.
    ///
    /// ```
    /// # use raddlehue::*;
    /// # let header = StripHeader::of(Date::utc(2026, 11, 15), Body::Sun, Point::east_north(0.0, 0.0, 0), 10);
    /// # let mut bytes = [0; strip_bytes(10)];
    /// # write_strip(header, &[900_000_000; strip_steps(10)], &mut bytes)?;
    /// let strip = Strip::try_from(&bytes[..])?;
    /// assert_eq!(strip.azimuth(143), Ok(Some(900_000_000)));
    /// assert_eq!(strip.azimuth(144), Err(Refusal::NoStep));
    /// # Ok::<(), Refusal>(())
    /// ```
    pub fn azimuth(&self, index: usize) -> Result<Option<u32>, Refusal> {
        strip_azimuth(self.azimuth_bytes(), index)
    }

    /// The azimuth at a minute of the UTC day, in 10⁻⁷ degree from north over east; none where it is absent.
    ///
    /// # Errors
    /// [`NoStep`](Refusal::NoStep), 106, for a minute that is not 0 to 1439, and for one between two steps, of which the strip does not tell.
    ///
    /// ```
    /// # use raddlehue::*;
    /// # let header = StripHeader::of(Date::utc(2026, 11, 15), Body::Sun, Point::east_north(0.0, 0.0, 0), 10);
    /// # let mut bytes = [0; strip_bytes(10)];
    /// # write_strip(header, &[900_000_000; strip_steps(10)], &mut bytes)?;
    /// let strip = Strip::try_from(&bytes[..])?;
    /// assert_eq!(strip.at_minute(1430), Ok(Some(900_000_000)));
    /// assert_eq!((strip.at_minute(1431), strip.at_minute(1440)), (Err(Refusal::NoStep), Err(Refusal::NoStep)));
    /// # Ok::<(), Refusal>(())
    /// ```
    pub fn at_minute(&self, minute: u16) -> Result<Option<u32>, Refusal> {
        let (minute, step) = (i64::from(minute), self.header.step_minutes);
        match (minute.checked_div(step), minute.checked_rem(step)) {
            (Some(index), Some(0)) => self.azimuth(index as usize),
            _ => Err(Refusal::NoStep),
        }
    }

    /// Each step from minute 0 on.
    ///
    /// ```
    /// # use raddlehue::*;
    /// # let header = StripHeader::of(Date::utc(2026, 11, 15), Body::Sun, Point::east_north(0.0, 0.0, 0), 10);
    /// # let mut bytes = [0; strip_bytes(10)];
    /// # write_strip(header, &[900_000_000; strip_steps(10)], &mut bytes)?;
    /// let strip = Strip::try_from(&bytes[..])?;
    /// assert_eq!(strip.iter().len(), 144);
    /// assert_eq!(strip.iter().next_back().map(|step| step.minute), Some(1430));
    /// # Ok::<(), Refusal>(())
    /// ```
    #[must_use]
    pub const fn iter(&self) -> StripSteps<'a> {
        StripSteps { strip: *self, left: 0..self.steps() }
    }
}

// The header in its own words; the bytes are up to 5,778 numbers.
impl fmt::Debug for Strip<'_> {
    fn fmt(&self, f: &mut fmt::Formatter<'_>) -> fmt::Result {
        f.debug_struct("Strip").field("header", &self.header()).field("steps", &self.steps()).finish_non_exhaustive()
    }
}

// ---- iteration

/// One azimuth of a strip.
#[derive(Clone, Copy, Debug, PartialEq, Eq, Hash)]
pub struct StripStep {
    /// Minutes from 00:00 UTC, 0 to 1439.
    pub minute: u16,
    /// 10⁻⁷ degree from north over east, 0 to 3,599,999,999; none where it is absent.
    pub azimuth_e7: Option<u32>,
}

/// The steps of a [`Strip`], from either end.
#[derive(Clone, Debug)]
pub struct StripSteps<'a> {
    strip: Strip<'a>,
    left: Range<usize>,
}

impl StripSteps<'_> {
    // A strip was judged as a whole, so that none of its own steps is refused; nor is a minute above 1439, so that no cast loses anything.
    fn step(&self, index: usize) -> Option<StripStep> {
        let azimuth_e7 = self.strip.azimuth(index).ok()?;
        Some(StripStep { minute: (index as u16).saturating_mul(self.strip.header.step_minutes as u16), azimuth_e7 })
    }
}

impl Iterator for StripSteps<'_> {
    type Item = StripStep;

    fn next(&mut self) -> Option<StripStep> {
        self.left.next().and_then(|index| self.step(index))
    }

    fn size_hint(&self) -> (usize, Option<usize>) {
        self.left.size_hint()
    }

    fn nth(&mut self, skipped: usize) -> Option<StripStep> {
        self.left.nth(skipped).and_then(|index| self.step(index))
    }
}

impl DoubleEndedIterator for StripSteps<'_> {
    fn next_back(&mut self) -> Option<StripStep> {
        self.left.next_back().and_then(|index| self.step(index))
    }
}

impl ExactSizeIterator for StripSteps<'_> {}
impl FusedIterator for StripSteps<'_> {}

impl<'a> IntoIterator for Strip<'a> {
    type Item = StripStep;
    type IntoIter = StripSteps<'a>;

    fn into_iter(self) -> StripSteps<'a> {
        self.iter()
    }
}

impl<'a> IntoIterator for &Strip<'a> {
    type Item = StripStep;
    type IntoIter = StripSteps<'a>;

    fn into_iter(self) -> StripSteps<'a> {
        self.iter()
    }
}

// ---- looking up

/// Which of two strips.
#[derive(Clone, Copy, Debug, PartialEq, Eq, Hash)]
pub enum Which {
    /// The first.
    First,
    /// The second.
    Second,
}

/// The azimuths of one of two strips, as [`find_strip`] hands them back.
#[derive(Clone, Copy, PartialEq, Eq, Hash)]
pub struct FoundStrip<'a> {
    /// The strip that bears the date.
    pub which: Which,
    /// Its azimuths, a part of its lent bytes, for [`strip_azimuth`].
    pub azimuth_bytes: &'a [u8],
}

// The bytes are up to 5,760 numbers.
impl fmt::Debug for FoundStrip<'_> {
    fn fmt(&self, f: &mut fmt::Formatter<'_>) -> fmt::Result {
        let length = self.azimuth_bytes.len();
        f.debug_struct("FoundStrip").field("which", &self.which).field("bytes", &length).finish_non_exhaustive()
    }
}

/// Near midnight the watch has two strips: the azimuths of whichever bears the UTC date, of the first if both do. Both are judged as a whole, whichever it is.
///
/// # Errors
/// Those of `Strip::try_from` for the first, then for the second, then [`StripNotFound`](Refusal::StripNotFound), 27.
///
/// ```
/// use raddlehue::*;
///
/// let on = |day| StripHeader::of(Date::utc(2026, 11, day), Body::Sun, Point::east_north(0.0, 0.0, 0), 10);
/// let (mut today, mut tomorrow) = ([0; strip_bytes(10)], [0; strip_bytes(10)]);
/// write_strip(on(15), &[10; strip_steps(10)], &mut today)?;
/// write_strip(on(16), &[20; strip_steps(10)], &mut tomorrow)?;
/// let found = find_strip(&today, &tomorrow, 2026, 11, 16)?;
/// assert_eq!(found.which, Which::Second);
/// assert_eq!(strip_azimuth(found.azimuth_bytes, 0), Ok(Some(20)));
/// # Ok::<(), raddlehue::Refusal>(())
/// ```
pub fn find_strip<'a>(first: &'a [u8], second: &'a [u8], year: i64, month: i64, day: i64) -> Result<FoundStrip<'a>, Refusal> {
    let part: archive::StripPart = answer(|part| archive::strip_find(first, second, year, month, day, part))?;
    let (which, bytes) = if part.strip == 1 { (Which::First, first) } else { (Which::Second, second) };
    // The part lies within the strip, so that this is never refused and no cast loses anything.
    let azimuths = bytes.get(part.offset as usize..).and_then(|behind| behind.get(..part.length as usize));
    Ok(FoundStrip { which, azimuth_bytes: azimuths.ok_or(Refusal::StripLength)? })
}

/// The azimuth of a step, counted from 0, in the azimuth bytes of a strip, in 10⁻⁷ degree from north over east; none where it is absent.
///
/// # Errors
/// [`NoStep`](Refusal::NoStep), 106, then [`StripAzimuth`](Refusal::StripAzimuth), 26, which bytes of a strip that was read do not give.
///
/// ```
/// use raddlehue::{strip_azimuth, Refusal};
///
/// let azimuth_bytes = [0, 0, 1, 2, 255, 255, 255, 255, 214, 147, 164, 0];
/// assert_eq!([0, 1].map(|index| strip_azimuth(&azimuth_bytes, index)), [Ok(Some(258)), Ok(None)]);
/// assert_eq!(strip_azimuth(&azimuth_bytes, 2), Err(Refusal::StripAzimuth)); // 360 degrees
/// assert_eq!(strip_azimuth(&azimuth_bytes, 3), Err(Refusal::NoStep));
/// ```
pub fn strip_azimuth(azimuth_bytes: &[u8], index: usize) -> Result<Option<u32>, Refusal> {
    answer(|azimuth_e7| archive::strip_azimuth(azimuth_bytes, index as u64, azimuth_e7)).map(azimuth_in)
}
