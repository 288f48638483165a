//! Many places of one body from one point.

use crate::instant::Instant;
use crate::place::Observer;
use crate::request::{check_point, Body, Point, Start};

/// What stands in a batch's azimuths where a place has none: the largest number, which is no azimuth.
pub const NO_DIRECTION: i64 = i64::MAX;

/// The body's place, without refraction, at the start plus each offset (milliseconds): azimuths and elevations
/// (10⁻⁸ degree) into the two lent buffers, whose entries past the list keep their contents. An azimuth that is absent
/// is `NO_DIRECTION`; the elevation beside it is the place's.
///
/// Gives the count of places. A refusal is its number and an index, which is 0 but for 13: 1 to 9 of the request;
/// 12 when a buffer is shorter than the list; 13 at the first offset that passes the end of 2100. A refused batch
/// writes nothing.
pub fn batch(
    start: Start,
    body: Body,
    point: Point,
    offsets: &[u32],
    azimuths: &mut [i64],
    elevations: &mut [i64],
) -> Result<usize, (u8, usize)> {
    let instant = Instant::new(&start).map_err(|number| (number, 0))?;
    check_point(&point).map_err(|number| (number, 0))?;
    if azimuths.len() < offsets.len() || elevations.len() < offsets.len() {
        return Err((12, 0));
    }
    if let Some(index) = offsets.iter().position(|&offset| !instant.reaches(offset)) {
        return Err((13, index));
    }
    let observer = Observer::new(&point);
    for ((&offset, azimuth), elevation) in offsets.iter().zip(azimuths).zip(elevations) {
        let place = observer.look(body, &instant.after(offset));
        *azimuth = place.azimuth.unwrap_or(NO_DIRECTION);
        *elevation = place.elevation;
    }
    Ok(offsets.len())
}
