//! Azimuths as a line on a flat sheet: the circle unrolled, so that no line jumps from the north to the north.

use crate::sky::DEGREE_E8;
use std::ops::RangeInclusive;

pub const HALF_TURN_E8: i64 = 180 * DEGREE_E8;
const TURN_E8: i64 = 2 * HALF_TURN_E8;

/// From 0 up to but not a whole turn.
pub fn is_azimuth(units_e8: i64) -> bool {
    (0..TURN_E8).contains(&units_e8)
}

/// The short way from one azimuth to another, below zero where it leads back.
fn way(from_e8: i64, to_e8: i64) -> i64 {
    (to_e8 - from_e8 + HALF_TURN_E8).rem_euclid(TURN_E8) - HALF_TURN_E8
}

/// Each azimuth the short way from the one before, beyond a whole turn or below zero where that way leads over the north.
pub fn unrolled(azimuths_e8: impl Iterator<Item = i64>) -> Vec<i64> {
    let mut line: Vec<i64> = Vec::new();
    for azimuth_e8 in azimuths_e8 {
        line.push(line.last().map_or(azimuth_e8, |&before| before + way(before, azimuth_e8)));
    }
    line
}

/// The whole turns by which an unrolled line is moved, once for each, so that a sheet from north to north shows all of it.
pub fn turns(line_e8: &[i64], margin_e8: i64) -> RangeInclusive<i64> {
    let [least, most] = [line_e8.iter().min(), line_e8.iter().max()].map(|end| end.copied().unwrap_or(0));
    -(most + margin_e8).div_euclid(TURN_E8)..=-(least - margin_e8).div_euclid(TURN_E8)
}

#[cfg(test)]
mod tests {
    use super::*;

    const fn degrees(units: i64) -> i64 {
        units * DEGREE_E8
    }

    #[test]
    fn a_line_over_the_north_goes_on() {
        let over = [350, 10, 20, 355].map(degrees);
        assert_eq!(unrolled(over.into_iter()), [350, 370, 380, 355].map(degrees));
        let back = [10, 350, 180, 5].map(degrees);
        assert_eq!(unrolled(back.into_iter()), [10, -10, -180, -355].map(degrees));
        assert_eq!(unrolled([].into_iter()), []);
    }

    // Moved by each of these turns some of the line lies between 0 and 360 degrees, and by no other.
    #[test]
    fn every_part_of_a_line_is_on_the_sheet_once() {
        assert_eq!(turns(&[90, 270].map(degrees), 0), 0..=0);
        assert_eq!(turns(&[255, 612].map(degrees), 0), -1..=0);
        assert_eq!(turns(&[10, -10].map(degrees), 0), 0..=1);
        assert_eq!(turns(&[90, 270].map(degrees), degrees(89)), 0..=0);
        assert_eq!(turns(&[90, 270].map(degrees), degrees(91)), -1..=1);
        assert_eq!(turns(&[0, 0], degrees(180)), 0..=1);
    }
}
