//! Eclipses: report 003's Table 4, the edges of every case of the share, the area of two circles, and the refusals.

use std::f64::consts::PI;

use raddlehue_reference::eclipse::{are_disks, MOON_RADII, SUN_RADII, WHOLE};
use raddlehue_reference::*;

mod lines;
mod random;
use lines::{exactly, read, start_and_point};
use random::Random;

/// The report's uncertainty of an azimuth, in degrees, which it holds its own separations to.
const UNCERTAINTY: f64 = 0.003;

/// Separations that no sum of radii reaches.
const FAR: [i64; 3] = [60_000_001, 18_000_000_000, i64::MAX];

/// Radii of the Sun and the Moon: the least, the greatest, and some between.
const SUNS: [i64; 4] = [*SUN_RADII.start(), 26_236_064, 27_034_383, *SUN_RADII.end()];
const MOONS: [i64; 6] = [1, 2, 24_099_272, 26_874_029, 28_346_192, *MOON_RADII.end()];

#[test]
fn table_4() {
    let text = read("outside/table4.txt");
    let rows: Vec<&str> = text.lines().filter(|line| !line.starts_with('#')).collect();
    assert_eq!(rows.len(), 7);
    for row in rows {
        let [asked, printed, answer] = row.split('|').collect::<Vec<_>>()[..] else { panic!("not three parts: {row}") };
        let (start, point) = start_and_point(asked);
        let Eclipse { separation, sun_radius, moon_radius, share } = eclipse(start, point).expect("accepted");
        assert_eq!([separation, sun_radius, moon_radius, share], exactly(answer), "{row}");
        let degrees: f64 = printed.trim().parse().expect("degrees");
        assert!((separation as f64 / 1e8 - degrees).abs() <= UNCERTAINTY, "{row}");
        assert_eq!(share < WHOLE, start.year == 1981, "{row}");
    }
}

/// Report 003's Table A.1.2. Its separation has refraction in it, so that the share is asked for by itself.
#[test]
fn example_of_the_report() {
    let (start, point) = start_and_point("2009 7 22 1 33 0 0 0 66400 1433616700 246116700 0");
    let found = eclipse(start, point).expect("accepted");
    let printed = 37_481_367;
    assert!((found.separation - printed).abs() as f64 <= 1e8 * UNCERTAINTY, "{found:?}");
    // 0.26236 degree, and 78.3733 % that is not covered
    assert_eq!((found.sun_radius + 500) / 1_000, 26_236);
    let share = covered_share(printed, found.sun_radius, found.moon_radius);
    assert!((share - (WHOLE - 783_733)).abs() <= 1, "{share}");
}

#[test]
fn nothing_from_the_sum_of_the_radii_up() {
    for sun in SUNS {
        for moon in MOONS {
            for separation in [sun + moon, sun + moon + 1].into_iter().chain(FAR) {
                assert_eq!(covered_share(separation, sun, moon), 0, "{separation} {sun} {moon}");
            }
            // the lens is a unit wide, and less than a millionth
            assert_eq!(covered_share(sun + moon - 1, sun, moon), 0, "{sun} {moon}");
        }
    }
    // the widest without a millionth, and the next
    let near = |width: i64| covered_share(26_236_064 + 28_346_192 - width, 26_236_064, 28_346_192);
    assert_eq!([near(4_588), near(4_589)], [0, 1]);
}

#[test]
fn the_whole_up_to_the_difference() {
    for sun in SUNS {
        for more in [0, 1, 2, 10_000, 2_110_128].into_iter().filter(|more| MOON_RADII.contains(&(sun + more))) {
            let share = |separation| covered_share(separation, sun, sun + more);
            assert_eq!([share(0), share(more / 2), share(more)], [WHOLE; 3], "{sun} {more}");
            assert!((WHOLE - 1..=WHOLE).contains(&share(more + 1)), "{sun} {more}");
            assert!(share(more + 1_000) < WHOLE, "{sun} {more}");
        }
    }
}

#[test]
fn the_ring_up_to_the_difference() {
    for sun in SUNS {
        for moon in MOONS.into_iter().chain([sun - 1, sun - 2]).filter(|&moon| moon < sun) {
            let squares = [sun, moon].map(|radius| i128::from(radius).pow(2));
            let floor = (i128::from(WHOLE) * squares[1] / squares[0]) as i64;
            for separation in [0, 1, (sun - moon) / 2, sun - moon - 1, sun - moon] {
                assert_eq!(covered_share(separation, sun, moon), floor, "{separation} {sun} {moon}");
            }
            assert!((floor - 1..=floor).contains(&covered_share(sun - moon + 1, sun, moon)), "{sun} {moon}");
        }
    }
}

/// Equal disks are whole on one another only; with the one's rim at the other's centre it is 2/3 - √3/2π.
#[test]
fn equal_radii() {
    for radius in SUNS {
        let found = [0, 1, 2, radius].map(|separation| covered_share(separation, radius, radius));
        assert_eq!(found, [WHOLE, WHOLE - 1, WHOLE - 1, 391_002], "{radius}");
    }
}

/// A Moon of radius 0 covers nothing from anywhere.
#[test]
fn no_moon() {
    for sun in SUNS {
        for separation in [0, 1, sun / 2, sun - 1, sun, sun + 1].into_iter().chain(FAR) {
            assert_eq!(covered_share(separation, sun, 0), 0, "{separation} {sun}");
        }
    }
}

/// The area of the overlap in millionths of the Sun's disk, in doubles; the sums of squares are exact in them.
fn area(separation: i64, sun: i64, moon: i64) -> f64 {
    let [d, rs, rm] = [separation, sun, moon].map(|number| number as f64);
    if separation >= sun + moon {
        return 0.0;
    }
    if separation <= (sun - moon).abs() {
        return 1e6 * (rm / rs).powi(2).min(1.0);
    }
    // four times the triangle of both centres and a point where the circles cross
    let triangles = ((rs + rm - d) * (d + rs - rm) * (d + rm - rs) * (d + rs + rm)).sqrt();
    let sun_angle = triangles.atan2(d * d + rs * rs - rm * rm);
    let moon_angle = triangles.atan2(d * d + rm * rm - rs * rs);
    1e6 * (rs * rs * sun_angle + rm * rm * moon_angle - triangles / 2.0) / (PI * rs * rs)
}

/// A separation at a contact or near it, or anywhere up to beyond the sum.
fn separation_about(random: &mut Random, sun: i64, moon: i64) -> i64 {
    let (inner, outer) = ((sun - moon).abs(), sun + moon);
    match random.within(0, 4) {
        0 => inner + random.within(-2, 2_000),
        1 => outer - random.within(-2, 2_000),
        2 => inner + (1 << random.within(0, 24)),
        3 => outer - (1 << random.within(0, 24)),
        _ => random.within(inner, outer + 1_000),
    }
    .max(0)
}

/// The last floor takes off up to 1, and all else is worth 0.03 of a millionth.
#[test]
fn the_area_of_two_circles() {
    let mut random = Random(67);
    let (mut least, mut greatest) = (0.0_f64, 0.0_f64);
    for turn in 0..200_000 {
        let sun = random.within(*SUN_RADII.start(), *SUN_RADII.end());
        let moon = match turn % 4 {
            0 => (sun + random.within(-3, 3)).min(*MOON_RADII.end()),
            1 => random.within(*MOON_RADII.start(), *MOON_RADII.end()),
            _ => random.within(24_099_272, 28_441_008),
        };
        let separation = separation_about(&mut random, sun, moon);
        let error = covered_share(separation, sun, moon) as f64 - area(separation, sun, moon);
        assert!((-1.03..=0.03).contains(&error), "{separation} {sun} {moon}: {error}");
        (least, greatest) = (error.min(least), error.max(greatest));
    }
    assert!(least < -0.99 && greatest > 0.0, "{least} {greatest}");
}

/// Words that nothing refuses, and what refuses each of them where it is out of all range.
const GOOD: [&str; 12] = ["2009", "7", "22", "2", "33", "0", "0", "0", "66400", "1433617000", "246117000", "0"];
const REFUSALS: [u8; 12] = [1, 2, 3, 4, 4, 4, 4, 5, 6, 7, 8, 9];

/// One number is wrong, or all from it on are; a place gives the same refusal.
#[test]
fn the_first_refusal_is_given() {
    for (at, refusal) in REFUSALS.into_iter().enumerate() {
        for far in ["-9223372036854775808", "-3000000000", "3000000000", "9223372036854775807"] {
            let (mut one, mut rest) = (GOOD, GOOD);
            one[at] = far;
            rest[at..].fill(far);
            for words in [one, rest] {
                let (start, point) = start_and_point(&words.join(" "));
                assert_eq!(eclipse(start, point), Err(refusal), "{words:?}");
                assert_eq!(place(start, Body::Moon, point, Air::None), Err(refusal), "{words:?}");
            }
        }
    }
}

/// At either end of every number the disks are ones that the share is asked for.
#[test]
fn the_edges_of_a_request() {
    for start in ["1900 1 1 0 0 0 0 -900 -8000000", "2100 12 31 23 59 59 999 900 8000000"] {
        for point in ["-1800000000 -900000000 -500", "1800000000 900000000 9000", "0 0 0"] {
            let (start, point) = start_and_point(&format!("{start} {point}"));
            let found = eclipse(start, point).expect("accepted");
            assert!(are_disks(found.separation, found.sun_radius, found.moon_radius), "{found:?}");
        }
    }
}
