//! The rules once more without any shortcut, in 128 bits and from the repository's comma-separated tables, held
//! against the library over many instants and requests. These tests run with overflow checks.

use std::collections::HashMap;
use std::fs;
use std::path::Path;

use raddlehue_reference::instant::{Instant, Time};
use raddlehue_reference::moon::arguments;
use raddlehue_reference::tables::{ARCTANGENT, SINE};
use raddlehue_reference::*;

mod lines;
mod random;
use lines::{read, start_and_point};
use random::Random;

const TURN: i128 = 36_000_000_000;
const BILLION: i128 = 1_000_000_000;
const CENTURY: i128 = 3_155_760_000_000;
const MILLENNIUM: i128 = 31_557_600_000_000;

/// First and last accepted TT.
const FIRST_TT: i64 = -3_155_724_800_900;
const LAST_TT: i64 = 3_187_260_800_899;

/// Last accepted moment of UTC, from 2000-01-01 00:00.
const LAST_UTC: i128 = 86_400_000 * 36_889 + 86_399_999;

fn floor(a: i128, b: i128) -> i128 {
    a.div_euclid(b)
}

fn plain_sine(angle: i128) -> i128 {
    let x = angle.rem_euclid(TURN);
    if x >= TURN / 2 {
        return -plain_sine(x - TURN / 2);
    }
    let x = if x > TURN / 4 { TURN / 2 - x } else { x };
    let (k, h) = ((x / 25_000_000) as usize, x % 25_000_000);
    let r = floor(1_745_329_252 * h, 10 * BILLION);
    let q = floor(r * r, BILLION);
    let ch = BILLION - floor(r * r, 2 * BILLION);
    let sh = r - floor(q * r, 6 * BILLION);
    floor(i128::from(SINE[k]) * ch + i128::from(SINE[360 - k]) * sh, BILLION)
}

fn plain_cosine(angle: i128) -> i128 {
    plain_sine(angle + TURN / 4)
}

fn plain_arctangent(y: i128, x: i128) -> Option<i128> {
    if (y, x) == (0, 0) {
        return None;
    }
    let (mut y, mut x, mut angle) = if x < 0 { (-1024 * y, -1024 * x, TURN / 2) } else { (1024 * y, 1024 * x, 0) };
    for (k, &t) in ARCTANGENT.iter().enumerate() {
        let (across, along) = (floor(y, 1 << k), floor(x, 1 << k));
        match y.signum() {
            1 => (x, y, angle) = (x + across, y - along, angle + i128::from(t)),
            -1 => (x, y, angle) = (x - across, y + along, angle - i128::from(t)),
            _ => {}
        }
    }
    Some(angle.rem_euclid(TURN))
}

/// The arctangent where two zeros make 0.
fn plain_slope(y: i128, x: i128) -> i128 {
    plain_arctangent(y, x).unwrap_or(0)
}

/// The rows of a table: the first cell as it stands, and all cells that are whole numbers.
fn table(name: &str) -> Vec<(String, Vec<i128>)> {
    let path = Path::new(env!("CARGO_MANIFEST_DIR")).join("../tests/tables").join(name);
    let text = fs::read_to_string(path).expect("the tables are in the repository");
    let cells = |line: &str| line.split(',').filter_map(|cell| cell.parse().ok()).collect();
    text.lines().skip(1).map(|line| (line.split(',').next().unwrap().to_string(), cells(line))).collect()
}

struct Plain {
    polynomials: HashMap<String, Vec<i128>>,
    moon_longitude: Vec<(String, Vec<i128>)>,
    moon_latitude: Vec<(String, Vec<i128>)>,
    nutation: Vec<(String, Vec<i128>)>,
    sun: Vec<(String, Vec<i128>)>,
}

impl Plain {
    fn new() -> Self {
        Self {
            polynomials: table("polynomials.csv").into_iter().collect(),
            moon_longitude: table("moon_longitude_distance.csv"),
            moon_latitude: table("moon_latitude.csv"),
            nutation: table("nutation.csv"),
            sun: table("sun.csv"),
        }
    }

    fn polynomial(&self, name: &str, n: i128) -> i128 {
        let [_, p2, p3, p4] = powers(n);
        let [c0, c1, c2, sign3, k3, sign4, k4] = self.polynomials[name][..] else { panic!("seven numbers") };
        let cubic = floor(sign3 * 100 * p3, k3) + floor(sign4 * 100 * p4, k4);
        (c0 + floor(c1 * n, CENTURY) + floor(c2 * p2, 1_000_000) + cubic).rem_euclid(TURN)
    }

    fn moon(&self, n: i128) -> [i128; 3] {
        let [u, p2, _, _] = powers(n);
        let at = |name| self.polynomial(name, n);
        let (mean, m_prime, f) = (at("Lp"), at("Mp"), at("F"));
        let base = [at("D"), at("M"), m_prime, f];
        let e = 1_000_000 + floor(-2516 * u, 1_000_000) + floor(-74 * p2, 10_000_000);
        let e2 = floor(e * e, 1_000_000);
        let weight = |m: i128, l: i128| match m.abs() {
            0 => 100 * l,
            1 => floor(l * e, 10_000),
            _ => floor(l * e2, 10_000),
        };
        let angle = |row: &[i128]| row.iter().zip(base).map(|(multiple, x)| multiple * x).sum::<i128>();
        let (mut along, mut up, mut out) = (0, 0, 0);
        for (_, row) in &self.moon_longitude {
            along += weight(row[1], row[4]) * plain_sine(angle(&row[..4]));
            out += weight(row[1], row[5]) * plain_cosine(angle(&row[..4]));
        }
        for (_, row) in &self.moon_latitude {
            up += weight(row[1], row[4]) * plain_sine(angle(&row[..4]));
        }
        let (a1, a2, a3) = (at("A1"), at("A2"), at("A3"));
        for (added, angle) in [(3958, a1), (1962, mean - f), (318, a2)] {
            along += 100 * added * plain_sine(angle);
        }
        let additions =
            [(-2235, mean), (382, a3), (175, a1 - f), (175, a1 + f), (127, mean - m_prime), (-115, mean + m_prime)];
        for (added, angle) in additions {
            up += 100 * added * plain_sine(angle);
        }
        let longitude = (mean + floor(along, BILLION)).rem_euclid(TURN);
        [longitude, floor(up, BILLION), 385_000_560 + floor(out, 100 * BILLION)]
    }

    fn sun_group(&self, name: &str, n: i128) -> i128 {
        let rows = self.sun.iter().filter(|(group, _)| group == name);
        rows.map(|(_, row)| {
            let radians = (row[1] + floor(row[2] * n, MILLENNIUM)).rem_euclid(628_318_531);
            floor(row[0] * plain_cosine(floor(radians * 5_729_577_951, 100_000_000)), 10_000_000)
        })
        .sum()
    }

    fn sun_series(&self, letter: &str, highest: usize, n: i128) -> i128 {
        let u = powers(n)[0];
        let mut v = self.sun_group(&format!("{letter}{highest}"), n);
        for i in (0..highest).rev() {
            let carried = if i == 0 { floor(v * n, MILLENNIUM) } else { floor(v * u, 10_000_000) };
            v = self.sun_group(&format!("{letter}{i}"), n) + carried;
        }
        v
    }

    fn sun(&self, n: i128) -> [i128; 3] {
        [self.sun_series("L", 5, n), self.sun_series("B", 1, n), self.sun_series("R", 4, n)]
    }

    fn nutation(&self, n: i128) -> [i128; 3] {
        let [u, p2, p3, _] = powers(n);
        let base = ["X0", "X1", "X2", "X3", "X4"].map(|name| self.polynomial(name, n));
        let (mut by_sine, mut by_cosine) = (0, 0);
        for (_, row) in &self.nutation {
            let angle: i128 = row.iter().zip(base).map(|(multiple, x)| multiple * x).sum();
            by_sine += (10 * row[5] + floor(row[6] * u, 1_000_000)) * plain_sine(angle);
            by_cosine += (10 * row[7] + floor(row[8] * u, 1_000_000)) * plain_cosine(angle);
        }
        let psi = floor(25 * by_sine, 90 * BILLION);
        let epsilon = floor(25 * by_cosine, 90 * BILLION);
        let mean = floor(84_381_448 * 250, 9)
            + floor(-468_093 * u, 360_000)
            + floor(-155 * p2, 36_000_000)
            + floor(199_925 * p3, 3_600_000_000);
        [psi, epsilon, mean + epsilon]
    }

    /// Longitude and latitude of a body from the Earth's centre, its parallax, and metres or R.
    fn apparent(&self, body: Body, tt: i128, psi: i128) -> [i128; 4] {
        match body {
            Body::Moon => {
                let [longitude, latitude, metres] = self.moon(tt);
                [longitude + psi, latitude, floor(6_378_140 * BILLION, metres), metres]
            }
            Body::Sun => {
                let [l, b, r] = self.sun(tt);
                let l = floor(l.rem_euclid(62_831_853_072) * 5_729_577_951, 10 * BILLION);
                let b = floor(b * 5_729_577_951, 10 * BILLION);
                let aberration = floor(-569_161 * 10 * BILLION, r);
                [l + TURN / 2 + psi + aberration, -b, floor(42_635 * 10 * BILLION, r), r]
            }
        }
    }

    /// The vector after the parallax, the parallax, and metres or R.
    fn direction(&self, body: Body, [ut, tt]: [i128; 2], point: &Point) -> ([i128; 3], i128, i128) {
        let [psi, _, epsilon] = self.nutation(tt);
        let [l, t, p, distance] = self.apparent(body, tt, psi);
        let cos_t = plain_cosine(t);
        let (x, y0, z0) = (times(cos_t, plain_cosine(l)), times(cos_t, plain_sine(l)), plain_sine(t));
        let (cos_e, sin_e) = (plain_cosine(epsilon), plain_sine(epsilon));
        let (y, z) = (times(y0, cos_e) - times(z0, sin_e), times(y0, sin_e) + times(z0, cos_e));
        let theta = plain_sidereal(ut) + times(psi, cos_e) + 10 * i128::from(point.longitude);
        let (cos_h, sin_h) = (plain_cosine(theta), plain_sine(theta));
        let (a, b) = (times(x, cos_h) + times(y, sin_h), times(y, cos_h) - times(x, sin_h));
        let (cos_p, sin_p, height) = (plain_cosine(phi(point)), plain_sine(phi(point)), i128::from(point.height));
        let w = plain_arctangent(floor(99_664_719 * sin_p, 100_000_000), cos_p).unwrap();
        let f = plain_cosine(w) + floor(height * cos_p, 6_378_140);
        let g = floor(99_664_719 * plain_sine(w), 100_000_000) + floor(height * sin_p, 6_378_140);
        ([a - times(p, f), b, z - times(p, g)], p, distance)
    }

    fn place(&self, body: Body, ut_tt: [i128; 2], point: &Point) -> (Option<i128>, i128) {
        plain_horizontal(self.direction(body, ut_tt, point).0, point)
    }

    fn eclipse(&self, ut_tt: [i128; 2], point: &Point) -> [i128; 4] {
        let (s, _, r) = self.direction(Body::Sun, ut_tt, point);
        let (m, p, metres) = self.direction(Body::Moon, ut_tt, point);
        let cross = |i: usize, j: usize| times(s[i], m[j]) - times(s[j], m[i]);
        let length = (cross(1, 2).pow(2) + cross(2, 0).pow(2) + cross(0, 1).pow(2)).isqrt();
        let dot = times(s[0], m[0]) + times(s[1], m[1]) + times(s[2], m[2]);
        let d = plain_short(length, dot);
        let rs = floor(95_963 * 100_000 * BILLION, 36 * r);
        let (_, e) = plain_horizontal(m, point);
        let rm = floor(358_473_400 * (BILLION + times(p, plain_sine(e))), 36 * metres);
        [d, rs, rm, plain_share(d, rs, rm)]
    }
}

/// The product of two sine-scaled numbers.
fn times(a: i128, b: i128) -> i128 {
    floor(a * b, BILLION)
}

/// The point's latitude.
fn phi(point: &Point) -> i128 {
    10 * i128::from(point.latitude)
}

/// Azimuth, where there is one, and elevation of the vector after the parallax.
fn plain_horizontal([a, b, z]: [i128; 3], point: &Point) -> (Option<i128>, i128) {
    let (cos_p, sin_p) = (plain_cosine(phi(point)), plain_sine(phi(point)));
    let up = times(a, cos_p) + times(z, sin_p);
    let north = times(z, cos_p) - times(a, sin_p);
    let level = (north * north + b * b).isqrt();
    let elevation = plain_slope(up, level);
    let elevation = if elevation >= TURN / 2 { elevation - TURN } else { elevation };
    (plain_arctangent(b, north), elevation.clamp(-TURN / 4, TURN / 4))
}

/// The arctangent, or a whole turn less it where that is smaller.
fn plain_short(y: i128, x: i128) -> i128 {
    let angle = plain_slope(y, x);
    if TURN - angle < angle {
        TURN - angle
    } else {
        angle
    }
}

/// docs/ECLIPSE.md, section 4.
fn plain_share(d: i128, rs: i128, rm: i128) -> i128 {
    if d >= rs + rm {
        return 0;
    }
    if rm >= rs && d <= rm - rs {
        return 1_000_000;
    }
    if rm < rs && d <= rs - rm {
        return floor(1_000_000 * rm * rm, rs * rs);
    }
    let k = floor((rs + rm - d) * (d + rm - rs), 2 * d);
    let moon_piece = plain_piece(rs + rm - d - k, rm);
    let lens = plain_piece(k, rs) + floor(floor(moon_piece * rm, rs) * rm, rs);
    if lens < 0 {
        return 0;
    }
    floor(lens, 1_000).min(1_000_000)
}

fn plain_piece(k: i128, r: i128) -> i128 {
    let omega = plain_short((k * (2 * r - k)).isqrt(), r - k);
    floor(omega, 18) - floor(159_154_943 * plain_sine(2 * omega), BILLION)
}

fn plain_sidereal(ut: i128) -> i128 {
    let [_, p2, p3, _] = powers(ut);
    let days = floor(36_098_564_736_629 * ut, 86_400_000_000);
    (28_046_061_837 + days + floor(387_933 * p2, 10_000_000) + floor(-100 * p3, 38_710_000)).rem_euclid(TURN)
}

/// UTC of an accepted start, from 2000-01-01 00:00.
fn plain_utc(start: &Start) -> i128 {
    let days = day_count(start.year, start.month, start.day).unwrap();
    let seconds = 60 * (60 * start.hour + start.minute) + start.second;
    i128::from(86_400_000 * days + 1_000 * seconds + start.millisecond)
}

/// UT and TT of an accepted start plus an offset.
fn plain_ut_tt(start: &Start, offset: u32) -> [i128; 2] {
    let ut = plain_utc(start) + i128::from(offset) - 43_200_000 + i128::from(start.ut1);
    [ut, ut + i128::from(start.delta_t)]
}

/// u, p2, p3, p4.
fn powers(n: i128) -> [i128; 4] {
    let u = floor(1_000_000 * n, CENTURY);
    let p2 = floor(u * u, 1_000_000);
    [u, p2, floor(p2 * u, 1_000_000), floor(p2 * p2, 1_000_000)]
}

impl Random {
    /// One of the bounds a third of the time.
    fn edgy(&mut self, first: i64, last: i64) -> i64 {
        match self.within(0, 5) {
            0 => first,
            1 => last,
            _ => self.within(first, last),
        }
    }

    fn start(&mut self) -> Start {
        let (year, month) = (self.edgy(1900, 2100), self.edgy(1, 12));
        let last_day = (28..=31).rev().find(|&day| day_count(year, month, day).is_ok()).unwrap();
        Start {
            year,
            month,
            day: self.edgy(1, last_day),
            hour: self.edgy(0, 23),
            minute: self.edgy(0, 59),
            second: self.edgy(0, 59),
            millisecond: self.edgy(0, 999),
            ut1: self.edgy(-900, 900),
            delta_t: self.edgy(-8_000_000, 8_000_000),
        }
    }

    fn point(&mut self) -> Point {
        Point {
            longitude: self.edgy(-1_800_000_000, 1_800_000_000),
            latitude: self.edgy(-900_000_000, 900_000_000),
            height: self.edgy(-500, 9_000),
        }
    }
}

#[test]
fn sums() {
    let plain = Plain::new();
    let mut random = Random(41);
    let instants = (0..1_500).map(|_| random.edgy(FIRST_TT, LAST_TT));
    for n in instants.chain([-1, 0, 1]) {
        let wide = i128::from(n);
        let Moon { longitude, latitude, metres } = moon(n);
        assert_eq!([longitude, latitude, metres].map(i128::from), plain.moon(wide), "moon at {n}");
        let Sun { longitude, latitude, radius } = sun(n);
        assert_eq!([longitude, latitude, radius].map(i128::from), plain.sun(wide), "sun at {n}");
        let Nutation { longitude, obliquity, true_obliquity } = nutation(n);
        let got = [longitude, obliquity, true_obliquity].map(i128::from);
        assert_eq!(got, plain.nutation(wide), "nutation at {n}");
    }
}

/// Whatever moves with the time, over every divisor of the rules and for |c| up to the bound.
#[test]
fn products_with_the_time() {
    const MOST: i64 = (1 << 46) - 1;
    let mut random = Random(37);
    for _ in 0..100_000 {
        let (n, c) = (random.edgy(FIRST_TT, LAST_TT), random.edgy(-MOST, MOST));
        let (time, product) = (Time::new(n), i128::from(c) * i128::from(n));
        let moved = [time.moved::<3_155_760_000_000>(c), time.moved::<31_557_600_000_000>(c)];
        assert_eq!(moved.map(i128::from), [floor(product, CENTURY), floor(product, MILLENNIUM)], "{c} {n}");
        assert_eq!(i128::from(time.moved::<86_400_000_000>(c)), floor(product, 86_400_000_000), "{c} {n}");
    }
}

#[test]
fn sidereal_times_and_arguments() {
    let plain = Plain::new();
    let mut random = Random(53);
    for _ in 0..100_000 {
        let n = random.edgy(FIRST_TT, LAST_TT);
        assert_eq!(i128::from(mean_sidereal(n)), plain_sidereal(n.into()), "sidereal at {n}");
    }
    for _ in 0..5_000 {
        let n = random.edgy(FIRST_TT, LAST_TT);
        let expected = ["Lp", "D", "M", "Mp", "F"].map(|name| plain.polynomial(name, n.into()));
        assert_eq!(arguments(&Time::new(n)).map(i128::from), expected, "arguments at {n}");
    }
}

#[test]
fn places() {
    let plain = Plain::new();
    let mut random = Random(43);
    let mut uneven = 0;
    for _ in 0..1_500 {
        let (start, point) = (random.start(), random.point());
        let Instant { ut, tt, .. } = Instant::new(&start).unwrap();
        assert_eq!([ut, tt].map(i128::from), plain_ut_tt(&start, 0), "{start:?}");
        assert!((FIRST_TT..=LAST_TT).contains(&tt), "{start:?}");
        uneven += usize::from(ut % 100 != 0 && tt % 100 != 0);
        for body in [Body::Sun, Body::Moon] {
            check_place(&plain, body, start, point);
        }
    }
    // no multiples of 100, as all of them were before milliseconds
    assert!(uneven > 1_300, "{uneven}");
}

/// Starts of the last two months, since the greatest offset is less than 50 days.
#[test]
fn batches() {
    let plain = Plain::new();
    let mut random = Random(71);
    let mut refused = 0;
    for turn in 0..400 {
        let month = random.within(11, 12);
        let start = Start { year: 2100, month, day: random.edgy(1, 30), ..random.start() };
        let (body, point) = ([Body::Sun, Body::Moon][turn % 2], random.point());
        let left = LAST_UTC - plain_utc(&start);
        // up to the last moment, and half the time one beyond it, where an offset goes so far
        let [last, beyond] = [left, left + 1].map(|offset| offset.min(u32::MAX.into()) as i64);
        let mut offsets = [0; 3].map(|_| random.edgy(0, last) as u32);
        if turn % 4 < 2 {
            offsets[random.within(0, 2) as usize] = random.edgy(beyond, u32::MAX.into()) as u32;
        }
        let bad = offsets.iter().position(|&offset| i128::from(offset) > left);
        let (mut azimuths, mut elevations) = ([-7; 3], [-8; 3]);
        let answer = batch(start, body, point, &offsets, &mut azimuths, &mut elevations);
        assert_eq!(answer, bad.map_or(Ok(3), |index| Err((13, index))), "{start:?} {offsets:?}");
        if bad.is_some() {
            assert_eq!((azimuths, elevations), ([-7; 3], [-8; 3]));
            refused += 1;
            continue;
        }
        for (i, offset) in offsets.into_iter().enumerate() {
            let (azimuth, elevation) = plain.place(body, plain_ut_tt(&start, offset), &point);
            let expected = (azimuth.unwrap_or(i64::MAX.into()), elevation);
            assert_eq!((azimuths[i].into(), elevations[i].into()), expected, "{start:?} {offset} {point:?}");
        }
    }
    assert!((80..320).contains(&refused), "{refused}");
}

/// Straight overhead and underfoot, and next to it.
#[test]
fn places_without_azimuth() {
    let plain = Plain::new();
    let mut absent = [0; 2];
    for line in read("vectors/overhead.txt").lines().filter(|line| !line.starts_with('#')) {
        let words: Vec<&str> = line.split(' ').collect();
        let (start, point) = start_and_point(&words[1..13].join(" "));
        let body = if words[0] == "sun" { Body::Sun } else { Body::Moon };
        absent[body as usize] += usize::from(check_place(&plain, body, start, point).azimuth.is_none());
    }
    assert!(absent.iter().all(|&count| count > 90), "{absent:?}");
}

fn check_place(plain: &Plain, body: Body, start: Start, point: Point) -> Place {
    let found = place(start, body, point, Air::None).unwrap();
    let expected = plain.place(body, plain_ut_tt(&start, 0), &point);
    let got = (found.azimuth.map(i128::from), i128::from(found.elevation));
    assert_eq!(got, expected, "{body:?} {start:?} {point:?}");
    found
}

/// From any point at any instant, and near the middle of the eclipse of 2009-07-22, where the share is not 0.
#[test]
fn eclipses() {
    let plain = Plain::new();
    let mut random = Random(61);
    let mut covered = 0;
    for turn in 0..1_000 {
        let (mut start, mut point) = (random.start(), random.point());
        if turn % 2 == 0 {
            start = Start { year: 2009, month: 7, day: 22, hour: 2, delta_t: 66_400, ..start };
            let (longitude, latitude) = (random.within(1_300_000_000, 1_600_000_000), random.within(0, 400_000_000));
            point = Point { longitude, latitude, ..point };
        }
        let Eclipse { separation, sun_radius, moon_radius, share } = eclipse(start, point).unwrap();
        let expected = plain.eclipse(plain_ut_tt(&start, 0), &point);
        let got = [separation, sun_radius, moon_radius, share].map(i128::from);
        assert_eq!(got, expected, "{start:?} {point:?}");
        covered += usize::from(share > 0);
    }
    assert!(covered > 400, "{covered}");
}

#[test]
fn shares() {
    let mut random = Random(59);
    for _ in 0..100_000 {
        let sun = random.edgy(20_000_000, 30_000_000);
        let moon = if random.within(0, 3) == 0 {
            sun.min(29_999_997) + random.within(0, 3)
        } else {
            random.edgy(0, 30_000_000)
        };
        let separation = (random.edgy((sun - moon).abs(), sun + moon) + random.within(-3, 3)).max(0);
        let expected = plain_share(separation.into(), sun.into(), moon.into());
        assert_eq!(i128::from(covered_share(separation, sun, moon)), expected, "{separation} {sun} {moon}");
    }
}

#[test]
fn sines_and_arctangents() {
    let mut random = Random(47);
    for _ in 0..300_000 {
        let angle = random.within(-80_000_000_000, 80_000_000_000);
        assert_eq!(i128::from(sine(angle)), plain_sine(angle.into()), "{angle}");
        assert_eq!(i128::from(cosine(angle)), plain_cosine(angle.into()), "{angle}");
    }
    for shift in 0..62 {
        let bound = i64::MAX >> shift;
        for _ in 0..300 {
            let (y, x) = (random.edgy(-bound / 2, bound / 2), random.edgy(-bound / 2, bound / 2));
            assert_eq!(arctangent(y, x).map(i128::from), plain_arctangent(y.into(), x.into()), "{y} {x}");
        }
    }
    for whole_quarters in -2_000..2_000 {
        for near in -2..=2 {
            let angle = 25_000_000 * whole_quarters + near;
            assert_eq!(i128::from(sine(angle)), plain_sine(angle.into()), "{angle}");
        }
    }
}
