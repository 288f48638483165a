//! How the sky lies on the sheet: a dome, whose upper end is the zenith and one point, so that a path over the zenith is one line.
//!
//! Elevation runs upward in equal steps; azimuth runs across, and narrows slowly at first, then faster towards the zenith. The side opposite to the middle is the dome's left and
//! right edge.

use crate::svg::Spot;

/// The lowest elevation on the sheet, in degrees: a little below the horizon, to show where a body comes up.
pub const LOWEST: f64 = -10.0;

pub const MIDDLE: f64 = 500.0;
pub const HALF_WIDTH: f64 = 415.0;
pub const ZENITH: f64 = 185.0;
pub const HORIZON: f64 = 770.0;

/// A point of the sky in degrees: right of the middle, from -180 to 180, and above the horizon.
#[derive(Clone, Copy, Debug, PartialEq)]
pub struct Dot {
    pub right: f64,
    pub up: f64,
}

pub fn spot(dot: Dot) -> Spot {
    let height = dot.up / 90.0;
    (MIDDLE + HALF_WIDTH * dot.right / 180.0 * (1.0 - height.powi(4)), HORIZON - (HORIZON - ZENITH) * height)
}

/// The same angle from -180 up to but not 180.
pub fn short_way(angle: f64) -> f64 {
    (angle + 180.0).rem_euclid(360.0) - 180.0
}

/// `to` as it is reached from `from` the short way round: beyond an edge, where that way leads over it.
pub fn onward(from: Dot, to: Dot) -> Dot {
    Dot { right: from.right + short_way(to.right - from.right), up: to.up }
}

/// How far it is on the sheet from one to the other, the short way round.
pub fn length(from: Dot, to: Dot) -> f64 {
    let (a, b) = (spot(from), spot(onward(from, to)));
    (b.0 - a.0).hypot(b.1 - a.1)
}

/// A line of one azimuth from the lower edge of the sheet to an elevation.
pub fn meridian(right: f64, highest: f64) -> Vec<Spot> {
    const STEPS: u32 = 25;
    let up = |step: u32| LOWEST + (highest - LOWEST) * f64::from(step) / f64::from(STEPS);
    (0..=STEPS).map(|step| spot(Dot { right, up: up(step) })).collect()
}

#[cfg(test)]
mod tests {
    use super::*;

    #[test]
    fn the_zenith_is_one_point() {
        for right in [-180.0, -90.0, 0.0, 90.0, 180.0] {
            let (x, y) = spot(Dot { right, up: 90.0 });
            assert!((x - MIDDLE).abs() < 1e-9 && (y - ZENITH).abs() < 1e-9);
        }
        assert!(length(Dot { right: -90.0, up: 89.999 }, Dot { right: 90.0, up: 89.999 }) < 0.1);
    }

    #[test]
    fn the_short_way_leads_over_an_edge() {
        assert_eq!(onward(Dot { right: 170.0, up: 0.0 }, Dot { right: -170.0, up: 5.0 }), Dot { right: 190.0, up: 5.0 });
        assert_eq!(onward(Dot { right: -170.0, up: 0.0 }, Dot { right: 170.0, up: 5.0 }), Dot { right: -190.0, up: 5.0 });
    }
}
