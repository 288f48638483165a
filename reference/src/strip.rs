//! Day strips to and from the phone: a day's azimuths as bytes (document 02, Item 6; their air, Item 9).
//!
//! All numbers are big-endian. A length of all that follows (2 bytes); version (1), air (1), body (1), year (2),
//! month (1), day (1), longitude (4), latitude (4), step (1); then an azimuth (4) for each step from minute 0.
//!
//! Air byte 0 is none. Byte 1 was standard air; strips that hold it are still read, but it is never written again.

use crate::calendar::day_count;
use crate::day::{midnight, Date, MINUTE, MINUTES};
use crate::instant::Instant;
use crate::place::{Observer, Place};
use crate::request::{check_point, Air, Body, Point};

/// What stands for an azimuth that is absent.
pub const NO_AZIMUTH: u32 = 4_294_967_295;

/// From here up a number is no azimuth: a whole turn, 10⁻⁷ degree.
const TURN: u32 = 3_600_000_000;

/// Bytes before the azimuths: of the length itself, and of all that it counts up to there.
const LENGTH_BYTES: usize = 2;
const LEAST_LENGTH: usize = 16;

const VERSION: u64 = 1;
const NO_AIR: u64 = 0;
const AZIMUTH_BYTES: usize = 4;

/// The air of a strip. Only a strip without air is written.
#[derive(Clone, Copy, Debug, PartialEq)]
pub enum StripAir {
    None,
    /// Pressure in mbar and temperature in °C.
    Measured(f64, f64),
    /// Likewise, with the mark that it was carried over: a strip's byte 1 says so, and no barometer measured it.
    CarriedOver(f64, f64),
}

/// The air of a request. Air that was carried over bends the light like air that was measured so.
impl From<StripAir> for Air {
    fn from(air: StripAir) -> Self {
        match air {
            StripAir::None => Air::None,
            StripAir::Measured(pressure, temperature) | StripAir::CarriedOver(pressure, temperature) => {
                Air::Measured(pressure, temperature)
            }
        }
    }
}

/// What a strip says beside its azimuths.
#[derive(Clone, Copy, Debug, PartialEq)]
pub struct Strip {
    pub air: StripAir,
    pub body: Body,
    /// 1900 to 2100.
    pub year: i64,
    pub month: i64,
    pub day: i64,
    /// 10⁻⁷ degree, east positive.
    pub longitude: i64,
    /// 10⁻⁷ degree, north positive.
    pub latitude: i64,
    /// Minutes from one azimuth to the next: 1, 2, 5 or 10.
    pub step: i64,
}

// ---- reading

/// What the strip says, and its azimuth bytes, or its first refusal: 20, 21 to 25, 20 against the step, 26.
pub fn read_strip(bytes: &[u8]) -> Result<(Strip, &[u8]), u8> {
    let mut rest = bytes;
    let length = if bytes.len() < LENGTH_BYTES { 0 } else { taken(&mut rest, LENGTH_BYTES) as usize };
    if length < LEAST_LENGTH || length != rest.len() {
        return Err(20);
    }
    if taken(&mut rest, 1) != VERSION {
        return Err(21);
    }
    let (air, body) = (read_air(taken(&mut rest, 1)), read_body(taken(&mut rest, 1)));
    let (Some(air), Some(body)) = (air, body) else { return Err(22) };
    let [year, month, day] = [2, 1, 1].map(|count| taken(&mut rest, count) as i64);
    check_date(year, month, day)?;
    let [longitude, latitude] = [4, 4].map(|count| signed(taken(&mut rest, count)));
    check_strip_point(longitude, latitude)?;
    let step = taken(&mut rest, 1) as i64;
    if length != LEAST_LENGTH + AZIMUTH_BYTES * steps(step)? {
        return Err(20);
    }
    check_azimuths(rest.chunks(AZIMUTH_BYTES).map(number))?;
    Ok((Strip { air, body, year, month, day, longitude, latitude, step }, rest))
}

/// Takes a number of so many bytes off the front.
fn taken(rest: &mut &[u8], count: usize) -> u64 {
    let (front, behind) = rest.split_at(count);
    *rest = behind;
    front.iter().fold(0, |number, &byte| 256 * number + u64::from(byte))
}

/// The number of an azimuth's four bytes.
fn number(mut bytes: &[u8]) -> u32 {
    taken(&mut bytes, AZIMUTH_BYTES) as u32
}

/// The number that has these 32 bits in two's complement.
fn signed(bits: u64) -> i64 {
    let number = bits as i64;
    if number < 1 << 31 {
        number
    } else {
        number - (1 << 32)
    }
}

/// Byte 1 was standard air: 1010 mbar and 10 °C.
fn read_air(byte: u64) -> Option<StripAir> {
    match byte {
        NO_AIR => Some(StripAir::None),
        1 => Some(StripAir::CarriedOver(1010.0, 10.0)),
        _ => None,
    }
}

fn read_body(byte: u64) -> Option<Body> {
    match byte {
        0 => Some(Body::Sun),
        1 => Some(Body::Moon),
        _ => None,
    }
}

// ---- writing

/// Writes the strip from the buffer's start on, and gives its count of bytes; what lies behind keeps its contents.
///
/// A refusal is its number: 23 to 25, 20 for another number of azimuths than the step has, 26, then 32 for air that is
/// measured or carried over, then 28 for a buffer that is too small. A refused strip writes nothing.
pub fn write_strip(strip: &Strip, azimuths: &[u32], buffer: &mut [u8]) -> Result<usize, u8> {
    let body = match strip.body {
        Body::Sun => 0,
        Body::Moon => 1,
    };
    let &Strip { year, month, day, longitude, latitude, step, .. } = strip;
    check_date(year, month, day)?;
    check_strip_point(longitude, latitude)?;
    if azimuths.len() != steps(step)? {
        return Err(20);
    }
    check_azimuths(azimuths.iter().copied())?;
    if strip.air != StripAir::None {
        return Err(32);
    }
    let length = LEAST_LENGTH + AZIMUTH_BYTES * azimuths.len();
    let mut rest = buffer.get_mut(..LENGTH_BYTES + length).ok_or(28)?;
    for (number, count) in [(length as i64, LENGTH_BYTES), (VERSION as i64, 1), (NO_AIR as i64, 1), (body, 1)] {
        put(&mut rest, number, count);
    }
    for (number, count) in [(year, 2), (month, 1), (day, 1), (longitude, 4), (latitude, 4), (step, 1)] {
        put(&mut rest, number, count);
    }
    for &azimuth in azimuths {
        put(&mut rest, i64::from(azimuth), AZIMUTH_BYTES);
    }
    Ok(LENGTH_BYTES + length)
}

/// Puts a number at the front in so many bytes, below zero in two's complement, and goes behind it.
fn put(rest: &mut &mut [u8], number: i64, count: usize) {
    let (front, behind) = std::mem::take(rest).split_at_mut(count);
    let mut left = number;
    for byte in front.iter_mut().rev() {
        *byte = left.rem_euclid(256) as u8;
        left = left.div_euclid(256);
    }
    *rest = behind;
}

// ---- what both ask

/// 23 for a date that document 01 refuses.
fn check_date(year: i64, month: i64, day: i64) -> Result<(), u8> {
    day_count(year, month, day).map(|_| ()).map_err(|_| 23)
}

/// 24 for a longitude or latitude that document 01 refuses. A strip has no height.
fn check_strip_point(longitude: i64, latitude: i64) -> Result<(), u8> {
    check_point(&Point { longitude, latitude, height: 0 }).map_err(|_| 24)
}

/// How many azimuths the day has at a step, or 25.
fn steps(step: i64) -> Result<usize, u8> {
    match step {
        1 | 2 | 5 | 10 => Ok(MINUTES / step as usize),
        _ => Err(25),
    }
}

/// 26 where one is a whole turn or more, and not the mark.
fn check_azimuths(mut azimuths: impl Iterator<Item = u32>) -> Result<(), u8> {
    if azimuths.all(|azimuth| azimuth < TURN || azimuth == NO_AZIMUTH) {
        Ok(())
    } else {
        Err(26)
    }
}

// ---- of strips that were read

/// The azimuth of a step, counted from 0, in the azimuth bytes of a strip; `NO_AZIMUTH` where it is absent.
///
/// Refused: 106 (the C function's own number) where the bytes have no such step, then 26.
pub fn strip_azimuth(azimuths: &[u8], step: u64) -> Result<u32, u8> {
    let at = usize::try_from(step).map_err(|_| 106)?;
    let azimuth = number(azimuths.chunks_exact(AZIMUTH_BYTES).nth(at).ok_or(106)?);
    check_azimuths([azimuth].into_iter())?;
    Ok(azimuth)
}

/// Which of two strips bears the date (year, month, day), 1 or 2, and its azimuth bytes; the first if both do.
///
/// Refused: as the first strip is, then as the second is, then 27 for a date in neither.
pub fn find_strip<'a>(first: &'a [u8], second: &'a [u8], date: [i64; 3]) -> Result<(usize, &'a [u8]), u8> {
    let strips = [read_strip(first)?, read_strip(second)?];
    for (at, (strip, azimuths)) in strips.into_iter().enumerate() {
        if [strip.year, strip.month, strip.day] == date {
            return Ok((at + 1, azimuths));
        }
    }
    Err(27)
}

// ---- a day's azimuths

/// The body's azimuth at each step of the day from minute 0, floored to 10⁻⁷ degree, or `NO_AZIMUTH`, into the lent
/// list, whose entries behind the last step keep their contents. Gives the count of steps.
///
/// A refusal is its number: 1 to 3, 5 to 9, then 25 for the step, then 28 for a list that is too short. A refused
/// day writes nothing.
pub fn day_azimuths(date: Date, body: Body, point: Point, step: i64, azimuths: &mut [u32]) -> Result<usize, u8> {
    let midnight = Instant::new(&midnight(&date))?;
    check_point(&point)?;
    let entries = azimuths.get_mut(..steps(step)?).ok_or(28)?;
    let observer = Observer::new(&point);
    for (at, entry) in entries.iter_mut().enumerate() {
        let Place { azimuth, .. } = observer.look(body, &midnight.after(MINUTE * step as u32 * at as u32));
        *entry = azimuth.map_or(NO_AZIMUTH, |azimuth| (azimuth / 10) as u32);
    }
    Ok(entries.len())
}

#[cfg(test)]
mod tests {
    use super::*;

    #[test]
    fn numbers_are_big_endian_and_come_off_the_front() {
        let mut rest: &[u8] = &[1, 2, 3, 4, 5, 6, 7];
        assert_eq!([2, 1, 4].map(|count| taken(&mut rest, count)), [0x0102, 3, 0x0405_0607]);
        assert!(rest.is_empty());
    }

    #[test]
    fn two_s_complement() {
        for (number, bytes) in [
            (0, [0, 0, 0, 0]),
            (1, [0, 0, 0, 1]),
            (-1, [255, 255, 255, 255]),
            (1_800_000_000, [0x6b, 0x49, 0xd2, 0x00]),
            (-1_800_000_000, [0x94, 0xb6, 0x2e, 0x00]),
            (i64::from(i32::MAX), [0x7f, 255, 255, 255]),
            (i64::from(i32::MIN), [0x80, 0, 0, 0]),
        ] {
            let mut written = [7; 5];
            let mut rest = &mut written[..];
            put(&mut rest, number, 4);
            assert_eq!(rest, [7]);
            assert_eq!((written[..4].to_vec(), signed(taken(&mut &bytes[..], 4))), (bytes.to_vec(), number));
        }
    }

    #[test]
    fn four_steps_there_are() {
        let accepted: Vec<i64> = (-1..=256).filter(|&step| steps(step).is_ok()).collect();
        assert_eq!(accepted, [1, 2, 5, 10]);
        assert_eq!([1, 2, 5, 10].map(steps), [1440, 720, 288, 144].map(Ok));
        assert_eq!([i64::MIN, i64::MAX, 1 << 32 | 1].map(steps), [Err(25); 3]);
    }

    #[test]
    fn below_a_turn_or_the_mark() {
        let check = |azimuth: u32| check_azimuths([0, azimuth, NO_AZIMUTH].into_iter());
        assert_eq!([0, TURN - 1, NO_AZIMUTH].map(check), [Ok(()); 3]);
        assert_eq!([TURN, TURN + 1, NO_AZIMUTH - 1].map(check), [Err(26); 3]);
    }
}
