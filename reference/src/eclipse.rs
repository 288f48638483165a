//! How much of the Sun is covered (document 02, Item 4): the two disks' separation and radii (report 003, section 5)
//! and the covered share, rounded as docs/ECLIPSE.md says.

use std::ops::RangeInclusive;

use crate::instant::Instant;
use crate::moon::{moon_at, Moon};
use crate::numbers::{floor_div, root, scaled, sine, slope, HALF_TURN, ONE, TURN};
use crate::place::{Observer, Sky, Vector};
use crate::request::{check_point, Point, Start};
use crate::sun::{sun_at, Sun};

/// The whole of the Sun's disk, in millionths.
pub const WHOLE: i64 = 1_000_000;

/// The separations and radii that `covered_share` is asked for, in 10⁻⁸ degree; radii that occur lie well within.
pub const SEPARATIONS: RangeInclusive<i64> = 0..=HALF_TURN;
pub const SUN_RADII: RangeInclusive<i64> = 20_000_000..=30_000_000;
pub const MOON_RADII: RangeInclusive<i64> = 0..=30_000_000;

/// The disks of the Sun and the Moon, seen from a point.
#[derive(Clone, Copy, Debug, PartialEq, Eq)]
pub struct Eclipse {
    /// Of the two centres, 10⁻⁸ degree, 0 to 180 degrees.
    pub separation: i64,
    /// 10⁻⁸ degree.
    pub sun_radius: i64,
    /// 10⁻⁸ degree.
    pub moon_radius: i64,
    /// Of the Sun's disk that the Moon's covers, millionths.
    pub share: i64,
}

/// The disks from a point at an instant, or the first refusal of 1 to 9.
pub fn eclipse(start: Start, point: Point) -> Result<Eclipse, u8> {
    let instant = Instant::new(&start)?;
    check_point(&point)?;
    let (observer, sky) = (Observer::new(&point), Sky::new(&instant));
    let (sun, moon) = (sun_at(&sky.time), moon_at(&sky.time));
    let (apparent_sun, apparent_moon) = (sky.sun(&sun), sky.moon(&moon));
    let to_sun = observer.direction(&sky, &apparent_sun);
    let to_moon = observer.direction(&sky, &apparent_moon);
    let elevation = observer.horizontal(&to_moon).elevation;
    let separation = separation(&to_sun, &to_moon);
    let sun_radius = sun_radius(&sun);
    let moon_radius = moon_radius(&moon, apparent_moon.parallax, elevation);
    Ok(Eclipse { separation, sun_radius, moon_radius, share: covered_share(separation, sun_radius, moon_radius) })
}

/// The angle between two directions of any length.
fn separation(to_sun: &Vector, to_moon: &Vector) -> i64 {
    let (s, m) = (to_sun, to_moon);
    let cross =
        [scaled(s.y, m.z) - scaled(s.z, m.y), scaled(s.z, m.x) - scaled(s.x, m.z), scaled(s.x, m.y) - scaled(s.y, m.x)];
    let length = root(cross.iter().map(|part| (part * part) as u64).sum());
    let dot = scaled(s.x, m.x) + scaled(s.y, m.y) + scaled(s.z, m.z);
    short_arctangent(length as i64, dot)
}

/// The arctangent, or a whole turn less it where that is smaller; 0 for the zero vector.
fn short_arctangent(y: i64, x: i64) -> i64 {
    let angle = slope(y, x);
    angle.min(TURN - angle)
}

/// The radius of the Sun's disk (report 003, equation 58). The dividend needs all 64 bits.
fn sun_radius(sun: &Sun) -> i64 {
    (9_596_300_000_000_000_000 / (36 * sun.radius as u64)) as i64
}

/// The radius of the Moon's disk (report 003, equation 59), which is greater overhead, where the Moon is nearer.
fn moon_radius(moon: &Moon, parallax: i64, elevation: i64) -> i64 {
    let nearer = ONE + scaled(parallax, sine(elevation));
    floor_div(358_473_400 * nearer, 36 * moon.metres)
}

/// Whether `covered_share` is asked for these three.
pub fn are_disks(separation: i64, sun_radius: i64, moon_radius: i64) -> bool {
    SEPARATIONS.contains(&separation) && SUN_RADII.contains(&sun_radius) && MOON_RADII.contains(&moon_radius)
}

/// The share of the Sun's disk that is covered, in millionths. Any separation from 0 up will do, with radii of
/// `SUN_RADII` and `MOON_RADII`.
pub fn covered_share(separation: i64, sun_radius: i64, moon_radius: i64) -> i64 {
    if separation >= sun_radius + moon_radius {
        0
    } else if moon_radius >= sun_radius && separation <= moon_radius - sun_radius {
        WHOLE
    } else if moon_radius < sun_radius && separation <= sun_radius - moon_radius {
        ring(sun_radius, moon_radius)
    } else {
        floor_div(lens(separation, sun_radius, moon_radius), ONE / WHOLE).clamp(0, WHOLE)
    }
}

/// The share of a Moon that lies within the Sun's disk. The product may pass 64 bits.
fn ring(sun_radius: i64, moon_radius: i64) -> i64 {
    let [sun_square, moon_square] = [sun_radius, moon_radius].map(|radius| i128::from(radius * radius));
    (i128::from(WHOLE) * moon_square / sun_square) as i64
}

/// The overlap of two circles that cross, in 10⁻⁹ of the Sun's disk. Their common chord splits it into a segment of
/// either disk; a unit lost in the one's height is the other's, so that the chord moves for both.
fn lens(separation: i64, sun_radius: i64, moon_radius: i64) -> i64 {
    let width = sun_radius + moon_radius - separation;
    let sun_height = floor_div(width * (separation + moon_radius - sun_radius), 2 * separation);
    let by_ratio = |part: i64| floor_div(part * moon_radius, sun_radius);
    segment(sun_height, sun_radius) + by_ratio(by_ratio(segment(width - sun_height, moon_radius)))
}

/// The part of a disk on one side of a chord, in 10⁻⁹ of the disk. The height is the segment's, from the chord to the
/// rim; half its angle seen from the centre is ω, and (2ω - sin 2ω)/2π of the disk is its area.
fn segment(height: i64, radius: i64) -> i64 {
    const INVERSE_TURN: i64 = 159_154_943; // 1/2π, times 10⁹
    let half_chord = root((height * (2 * radius - height)) as u64);
    let omega = short_arctangent(half_chord as i64, radius - height);
    // ω of half a turn is the whole disk
    floor_div(omega, HALF_TURN / ONE) - scaled(INVERSE_TURN, sine(2 * omega))
}

#[cfg(test)]
mod tests {
    use super::*;
    use crate::numbers::QUARTER_TURN;

    /// The separation's greatest error (docs/ECLIPSE.md), in units.
    const NEAR: i64 = 30;

    fn vector(x: i64, y: i64, z: i64) -> Vector {
        Vector { x, y, z }
    }

    #[test]
    fn separations_by_hand() {
        let north = vector(0, 0, ONE);
        let apart = |x, y, z| separation(&north, &vector(x, y, z));
        assert_eq!([apart(0, 0, ONE), apart(0, 0, -ONE)], [0, HALF_TURN]);
        for quarter in [apart(ONE, 0, 0), apart(0, -ONE, 0)] {
            assert!((quarter - QUARTER_TURN).abs() <= NEAR, "{quarter}");
        }
        assert!((apart(0, ONE, ONE) - QUARTER_TURN / 2).abs() <= NEAR);
        assert!((apart(0, ONE, -ONE) - 3 * QUARTER_TURN / 2).abs() <= NEAR);
        assert_eq!(apart(0, 0, 0), 0);
    }

    /// A direction's length cannot be seen in the angle, nor which of the two comes first.
    #[test]
    fn lengths_and_order_do_not_count() {
        let to_sun = vector(600_000_000, 0, 800_000_000);
        for percent in [98, 100, 102] {
            let to_moon = vector(600_000_000, 8_000_000, 800_000_000);
            let to_moon = vector(to_moon.x * percent / 100, to_moon.y * percent / 100, to_moon.z * percent / 100);
            let found = separation(&to_sun, &to_moon);
            assert_eq!(found, separation(&to_moon, &to_sun));
            // the angle's tangent is 0.008
            assert!((found - 45_835_646).abs() <= NEAR, "{found}");
        }
    }

    /// The rule of 02 for an angle below zero; a length never has one, so that only this shows it.
    #[test]
    fn the_short_way_round() {
        assert_eq!([short_arctangent(1, ONE), short_arctangent(-1, ONE), short_arctangent(0, 0)], [7, 7, 0]);
        assert_eq!(short_arctangent(0, -1), HALF_TURN);
        assert!((short_arctangent(-1_000_000, 0) - QUARTER_TURN).abs() <= NEAR);
    }

    /// By hand: 959.63/3600 degree at one astronomical unit; the Moon's is greater overhead and less underfoot.
    #[test]
    fn radii_by_hand() {
        let sun = |radius| sun_radius(&Sun { longitude: 0, latitude: 0, radius });
        assert_eq!([sun(10_000_000_000), sun(9_832_898_912)], [26_656_388, 27_109_389]);
        let moon = Moon { longitude: 0, latitude: 0, metres: 358_473_400 };
        let at = |elevation| moon_radius(&moon, 17_000_000, elevation);
        assert_eq!([at(0), at(QUARTER_TURN), at(-QUARTER_TURN)], [27_777_777, 28_250_000, 27_305_555]);
        assert_eq!(at(QUARTER_TURN / 3), 28_013_888);
    }

    #[test]
    fn segments_by_hand() {
        for radius in [20_000_000, 26_656_388, 30_000_000] {
            assert_eq!([0, 2 * radius].map(|height| segment(height, radius)), [0, ONE]);
            assert!((segment(radius, radius) - ONE / 2).abs() <= 2);
            // a third of half a turn of ω: 1/3 - √3/4π
            assert!((segment(radius / 2, radius) - 195_501_109).abs() <= 30);
        }
        assert_eq!(segment(0, 0), 0);
    }

    #[test]
    fn rings_pass_64_bits() {
        let moons = [0, 15_000_000, 29_999_999, 30_000_000];
        assert_eq!(moons.map(|moon| ring(30_000_000, moon)), [0, 250_000, 999_999, WHOLE]);
    }
}
