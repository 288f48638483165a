//! From the Earth's centre to the runner: azimuth and elevation at a point.

use crate::instant::{Instant, Time};
use crate::moon::{moon_at, Moon};
use crate::numbers::{arctangent, floor_div, root, scaled, sine_cosine, slope, HALF_TURN, ONE, QUARTER_TURN, TURN};
use crate::nutation::nutation_at;
use crate::refraction::refraction;
use crate::request::{check_air, check_point, Air, Body, Point, Start};
use crate::sidereal::apparent_sidereal;
use crate::sun::{self, sun_at, Sun};

/// The Earth's equatorial radius, metres.
const EARTH_RADIUS: i64 = 6_378_140;

/// A body's place in the sky, without refraction.
#[derive(Clone, Copy, Debug, PartialEq, Eq)]
pub struct Place {
    /// 10⁻⁸ degree from north over east, reduced; absent straight overhead and underfoot.
    pub azimuth: Option<i64>,
    /// 10⁻⁸ degree, within ±90 degrees.
    pub elevation: i64,
}

/// A body's place as shown, in degrees.
#[derive(Clone, Copy, Debug, PartialEq)]
pub struct Shown {
    /// From north over east; absent straight overhead and underfoot, where its double is 0.
    pub azimuth: Option<f64>,
    /// With refraction.
    pub elevation: f64,
    pub refraction: f64,
}

/// The body's place without refraction, or the first refusal of 1 to 11.
pub fn place(start: Start, body: Body, point: Point, air: Air) -> Result<Place, u8> {
    let instant = Instant::new(&start)?;
    check_point(&point)?;
    check_air(&air)?;
    Ok(Observer::new(&point).look(body, &instant))
}

/// The body's place as shown, with refraction, or the first refusal of 1 to 11.
pub fn shown_place(start: Start, body: Body, point: Point, air: Air) -> Result<Shown, u8> {
    let Place { azimuth, elevation } = place(start, body, point, air)?;
    let refraction = refraction(elevation, air);
    Ok(Shown { azimuth: azimuth.map(degrees), elevation: degrees(elevation) + refraction, refraction })
}

fn degrees(angle: i64) -> f64 {
    angle as f64 / 1e8
}

/// A body from the Earth's centre: apparent ecliptic longitude and latitude (10⁻⁸ degree, longitude not reduced)
/// and the sine of its parallax (times 10⁹).
pub(crate) struct Apparent {
    longitude: i64,
    latitude: i64,
    pub(crate) parallax: i64,
}

/// A vector of sine-scaled numbers.
pub(crate) struct Vector {
    pub(crate) x: i64,
    pub(crate) y: i64,
    pub(crate) z: i64,
}

/// What the place path needs of an instant, the same for both bodies and for every point.
pub(crate) struct Sky {
    pub(crate) time: Time,
    nutation_longitude: i64,
    obliquity_sine: i64,
    obliquity_cosine: i64,
    /// Apparent sidereal time at Greenwich, 10⁻⁸ degree, not reduced.
    sidereal: i64,
}

impl Sky {
    /// The sky at an accepted instant.
    pub(crate) fn new(instant: &Instant) -> Self {
        let time = Time::new(instant.tt);
        let nutation = nutation_at(&time);
        let (sin, cos) = sine_cosine(nutation.true_obliquity);
        Self {
            time,
            nutation_longitude: nutation.longitude,
            obliquity_sine: sin,
            obliquity_cosine: cos,
            sidereal: apparent_sidereal(instant.ut, nutation.longitude, cos),
        }
    }

    pub(crate) fn sun(&self, sun: &Sun) -> Apparent {
        let (longitude, latitude) = sun::apparent(sun, self.nutation_longitude);
        Apparent { longitude, latitude, parallax: sun::parallax(sun) }
    }

    pub(crate) fn moon(&self, moon: &Moon) -> Apparent {
        Apparent {
            longitude: moon.longitude + self.nutation_longitude,
            latitude: moon.latitude,
            parallax: floor_div(EARTH_RADIUS * ONE, moon.metres),
        }
    }

    /// The unit vector of a body, turned from the ecliptic to the equator.
    fn equatorial(&self, body: &Apparent) -> Vector {
        let (longitude_sin, longitude_cos) = sine_cosine(body.longitude);
        let (z, latitude_cos) = sine_cosine(body.latitude);
        let x = scaled(latitude_cos, longitude_cos);
        let y = scaled(latitude_cos, longitude_sin);
        Vector {
            x,
            y: scaled(y, self.obliquity_cosine) - scaled(z, self.obliquity_sine),
            z: scaled(y, self.obliquity_sine) + scaled(z, self.obliquity_cosine),
        }
    }
}

/// What the place path needs of a point, worked once for any number of looks.
pub(crate) struct Observer {
    /// 10⁻⁸ degree, east positive.
    longitude: i64,
    latitude_sine: i64,
    latitude_cosine: i64,
    /// Distance from the Earth's axis, in equatorial radii times 10⁹.
    from_axis: i64,
    /// Distance from the equator's plane, north positive, in equatorial radii times 10⁹.
    from_equator: i64,
}

impl Observer {
    /// The observer at an accepted point.
    pub(crate) fn new(point: &Point) -> Self {
        let (sin, cos) = sine_cosine(10 * point.latitude);
        let w = arctangent(flattened(sin), cos).expect("where a sine is near 0, the cosine is near 1");
        let (w_sin, w_cos) = sine_cosine(w);
        Self {
            longitude: 10 * point.longitude,
            latitude_sine: sin,
            latitude_cosine: cos,
            from_axis: w_cos + floor_div(point.height * cos, EARTH_RADIUS),
            from_equator: flattened(w_sin) + floor_div(point.height * sin, EARTH_RADIUS),
        }
    }

    /// The place of a body at an accepted instant.
    pub(crate) fn look(&self, body: Body, instant: &Instant) -> Place {
        let sky = Sky::new(instant);
        let apparent = match body {
            Body::Sun => sky.sun(&sun_at(&sky.time)),
            Body::Moon => sky.moon(&moon_at(&sky.time)),
        };
        self.horizontal(&self.direction(&sky, &apparent))
    }

    /// The direction of a body after the parallax: x to the equator on the point's meridian, y east, z along the
    /// Earth's axis to the north. The parallax shortens or lengthens it, and it is left so.
    pub(crate) fn direction(&self, sky: &Sky, body: &Apparent) -> Vector {
        let from_centre = sky.equatorial(body);
        let (sin, cos) = sine_cosine(sky.sidereal + self.longitude);
        Vector {
            x: scaled(from_centre.x, cos) + scaled(from_centre.y, sin) - scaled(body.parallax, self.from_axis),
            y: scaled(from_centre.y, cos) - scaled(from_centre.x, sin),
            z: from_centre.z - scaled(body.parallax, self.from_equator),
        }
    }

    /// A direction tilted to the horizon.
    pub(crate) fn horizontal(&self, direction: &Vector) -> Place {
        let &Vector { x, y: east, z } = direction;
        let up = scaled(x, self.latitude_cosine) + scaled(z, self.latitude_sine);
        let north = scaled(z, self.latitude_cosine) - scaled(x, self.latitude_sine);
        let level = root((north * north) as u64 + (east * east) as u64);
        let elevation = signed_elevation(slope(up, level as i64));
        Place { azimuth: arctangent(east, north), elevation }
    }
}

/// A sine times 1 less the Earth's flattening.
fn flattened(sine: i64) -> i64 {
    floor_div(99_664_719 * sine, 100_000_000)
}

/// A reduced angle as an elevation: below zero from half a turn up, kept within ±90 degrees.
fn signed_elevation(angle: i64) -> i64 {
    let signed = if angle >= HALF_TURN { angle - TURN } else { angle };
    signed.clamp(-QUARTER_TURN, QUARTER_TURN)
}

#[cfg(test)]
mod tests {
    use super::*;

    /// No real place has been seen to reach the bounds; (1, 0) and (-1, 0) do, by the arctangent's own error.
    #[test]
    fn elevations_stay_within_a_quarter_turn() {
        let of = |up, level| signed_elevation(slope(up, level));
        assert_eq!([of(1, 0), of(-1, 0)], [QUARTER_TURN, -QUARTER_TURN]);
        assert_eq!([of(1, ONE), of(-1, ONE), of(0, 0)], [7, -7, 0]);
        let angles = [0, QUARTER_TURN, HALF_TURN - 1, HALF_TURN, 3 * QUARTER_TURN, TURN - 1];
        let expected = [0, QUARTER_TURN, QUARTER_TURN, -QUARTER_TURN, -QUARTER_TURN, -1];
        assert_eq!(angles.map(signed_elevation), expected);
    }

    /// Whatever length the parallax leaves a direction, the arctangent's error is the same, and no bound is reached.
    #[test]
    fn straight_overhead_is_seven_units_short() {
        for up in (975_000_000..=1_025_000_000).step_by(997) {
            let [overhead, underfoot] = [up, -up].map(|up| signed_elevation(slope(up, 0)));
            assert_eq!([overhead, underfoot], [QUARTER_TURN - 7, 7 - QUARTER_TURN], "{up}");
        }
    }

    /// A sine of latitude is near 0 by the equator only, and a cosine by the poles only, so that w has a direction.
    #[test]
    fn every_latitude_has_an_observer() {
        for latitude in (-900_000_000..=900_000_000).step_by(12_345) {
            Observer::new(&Point { longitude: 0, latitude, height: 0 });
        }
        for edge in [-900_000_000, 0, 900_000_000] {
            for latitude in (edge - 10_000).max(-900_000_000)..=(edge + 10_000).min(900_000_000) {
                Observer::new(&Point { longitude: 0, latitude, height: 0 });
            }
        }
    }
}
