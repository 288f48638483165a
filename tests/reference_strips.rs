// The ordinary Rust version's strips in the form of the archive's calls (archive.rs): the codes judged as C has them, the body first, and poison where nothing is written.
#![allow(dead_code)]

use raddlehue_reference as reference;
use reference::{Body, Strip, StripAir};

use crate::archive::{Answer, Header, HeaderRead, POISON};
use crate::compared::{answer, answer_one, answer_or};

#[path = "strip_codes.rs"]
mod strip_codes;
use strip_codes::strip_of;

fn header_of(strip: Strip) -> HeaderRead {
    let (air, pressure, temperature) = match strip.air {
        StripAir::None => (0, 0.0, 0.0),
        StripAir::Measured(pressure, temperature) => (2, pressure, temperature),
        StripAir::CarriedOver(pressure, temperature) => (3, pressure, temperature),
    };
    let body = i64::from(strip.body == Body::Moon);
    let [pressure, temperature] = [pressure, temperature].map(|x: f64| x.to_bits() as i64);
    [air, body, strip.year, strip.month, strip.day, strip.longitude, strip.latitude, strip.step, pressure, temperature]
}

pub fn strip_write(header: &Header, azimuths: &[u32], bytes: &mut [u8]) -> Answer<i64> {
    let found = strip_of(*header).and_then(|strip| reference::write_strip(&strip, azimuths, bytes).map_err(u32::from));
    answer_one(found.map(|count| count as i64))
}

pub fn strip_read(bytes: &[u8]) -> Answer<HeaderRead> {
    let found = reference::read_strip(bytes).map_err(u32::from);
    answer(found.map(|(strip, _)| header_of(strip)))
}

pub fn strip_azimuth(azimuths: &[u8], step: u64) -> Answer<u32> {
    answer_or(reference::strip_azimuth(azimuths, step).map_err(u32::from), POISON as u32)
}

// The part lies behind the header of the strip that it is found in.
pub fn strip_find(first: &[u8], second: &[u8], date: [i64; 3]) -> Answer<[i64; 3]> {
    let found = reference::find_strip(first, second, date).map_err(u32::from);
    let lengths = [first.len(), second.len()];
    answer(found.map(|(which, part)| [which, lengths[which - 1] - part.len(), part.len()].map(|number| number as i64)))
}
