// Points from which a body stands straight overhead or straight underfoot, so that it has no azimuth.
use raddlehue_reference::{place, Air, Body, Place, Point, Start};

use crate::random_days::reduced;

// The two azimuths of a body that is neither east nor west, in 1e-8 degree.
const NORTH: i64 = 0;
const SOUTH: i64 = 18_000_000_000;

// The Moon's parallax leaves a sixtieth of the way at each step, so that six end within two units of longitude and of latitude; one more is looked at.
const STEPS: usize = 6;
const REACH: i64 = 3;

// A point at this height where the body has no azimuth, straight below it or on the other side of the Earth; two in three instants have none. Whether the body is neither east
// nor west is the longitude's matter alone, so that some twenty places are worked.
pub fn without_azimuth(start: Start, body: Body, height: i64, is_overhead: bool) -> Option<Point> {
    let look = |point| place(start, body, point, Air::None).ok();
    let near = straight_below(look, height, is_overhead)?;
    let beside = |step| Point { longitude: reduced(near.longitude + step), ..near };
    let meridians = (-REACH..=REACH).map(beside).filter(|point| look(*point).is_some_and(is_on_meridian));
    let mut points = meridians.flat_map(|on| (-REACH..=REACH).map(move |step| Point { latitude: on.latitude + step, ..on }));
    points.find(|point| look(*point).is_some_and(|place| place.azimuth.is_none()))
}

fn is_on_meridian(place: Place) -> bool {
    matches!(place.azimuth, None | Some(NORTH | SOUTH))
}

// About where the vertical goes through the body; nothing where the request is refused.
fn straight_below(look: impl Fn(Point) -> Option<Place>, height: i64, is_overhead: bool) -> Option<Point> {
    let mut point = Point { longitude: 0, latitude: 0, height };
    for _ in 0..STEPS {
        let Place { azimuth, elevation } = look(point)?;
        point = under(point, [azimuth.unwrap_or(NORTH), elevation], if is_overhead { 1.0 } else { -1.0 });
    }
    Some(point)
}

// The point whose vertical has the direction in which the body is seen from this one, or the opposite one.
fn under(from: Point, seen: [i64; 2], sign: f64) -> Point {
    let [azimuth, elevation] = seen.map(|angle| (angle as f64 / 1e8).to_radians());
    let [longitude, latitude] = [from.longitude, from.latitude].map(|angle| (angle as f64 / 1e7).to_radians());
    let [up, north, east] = [elevation.sin(), elevation.cos() * azimuth.cos(), elevation.cos() * azimuth.sin()].map(|part| sign * part);
    let to_equator = up * latitude.cos() - north * latitude.sin();
    let along_axis = up * latitude.sin() + north * latitude.cos();
    let found = [longitude + east.atan2(to_equator), along_axis.atan2(to_equator.hypot(east))];
    let [longitude, latitude] = found.map(|angle| (angle.to_degrees() * 1e7).round() as i64);
    Point { longitude: reduced(longitude), latitude, ..from }
}
