// The ordinary Rust version's verdict on a proposal in the form of the archive's call (archive.rs): the body's code judged first, and poison where nothing is written.
#![allow(dead_code)]

use raddlehue_reference as reference;
use reference::{AzimuthCurve, Proposal};

use crate::archive::{Answer, MOON, SUN, UNWRITTEN_MINUTE};

// A day's request of eight numbers and a body's code, as the reference takes it.
pub fn request(numbers: &[i64; 8], body: u32) -> Result<(reference::Date, reference::Body, reference::Point), u32> {
    let [year, month, day, ut1, delta_t, longitude, latitude, height] = *numbers;
    let body = match body {
        SUN => reference::Body::Sun,
        MOON => reference::Body::Moon,
        _ => return Err(101),
    };
    Ok((reference::Date { year, month, day, ut1, delta_t }, body, reference::Point { longitude, latitude, height }))
}

pub fn azimuth_curve(numbers: &[i64; 8], body: u32) -> Result<AzimuthCurve, u32> {
    let (date, body, point) = request(numbers, body)?;
    reference::azimuth_curve(date, body, point).map_err(u32::from)
}

pub fn judge(numbers: &[i64; 8], body: u32, tolerance: u64, minutes: &[u32], azimuths: &[i64]) -> Answer<u32> {
    match request(numbers, body) {
        Err(refusal) => (refusal, UNWRITTEN_MINUTE),
        Ok((date, body, point)) => told(reference::judge(date, body, point, Proposal { minutes, azimuths }, tolerance)),
    }
}

// Where the day is worked already.
pub fn judge_against(curve: &AzimuthCurve, tolerance: u64, minutes: &[u32], azimuths: &[i64]) -> Answer<u32> {
    told(reference::judge_against(curve, Proposal { minutes, azimuths }, tolerance))
}

fn told(verdict: Result<(), (u8, u32)>) -> Answer<u32> {
    match verdict {
        Ok(()) => (0, UNWRITTEN_MINUTE),
        Err((31, minute)) => (31, minute),
        Err((refusal, _)) => (u32::from(refusal), UNWRITTEN_MINUTE),
    }
}
