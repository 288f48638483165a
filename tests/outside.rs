// Places against an outside ephemeris (tests/outside/places.csv: JPL's DE431), through the archive: a test of truth rather than of rules.
//
// Azimuth times cos(elevation), and elevation, are compared. What is allowed, 0.0003 degree for the Sun and 0.005 degree for the Moon, is ours, set from what was
// measured (docs/FIGURES.md). The reports state: 004 for the Sun 0.0003 degree; 003 for the Moon 0.001 degree in zenith angle and 0.003 degree in azimuth.
use std::env;
use std::fs;
use std::process::exit;

mod archive;
use archive::{place, MOON, NO_AIR, SUN};

const LINES: usize = 116;

// In degrees, ours: the theory's own error and the coarseness of the reports' rules, with room.
const SUN_WITHIN: f64 = 0.0003;
const MOON_WITHIN: f64 = 0.005;

fn fail(why: String) -> ! {
    eprintln!("outside: {why}");
    exit(1)
}

fn number<T: std::str::FromStr>(word: &str) -> T {
    word.parse().unwrap_or_else(|_| fail(format!("'{word}' is no number")))
}

// How far the place lies from the line's, in degrees along the horizon and up.
fn differences(line: &str) -> (bool, [f64; 2]) {
    let words: Vec<&str> = line.split(',').collect();
    let whole: Vec<i64> = words[..12].iter().map(|word| number(word)).collect();
    let numbers: &[i64; 12] = whole.first_chunk().unwrap();
    let is_moon = words[12] == "moon";
    let [azimuth, elevation] = [13, 14].map(|at| number::<f64>(words[at]));
    let (refusal, seen) = place(numbers, if is_moon { MOON } else { SUN }, NO_AIR);
    if refusal != 0 {
        fail(format!("{line}: refused {refusal}"));
    }
    if seen.has_azimuth != 1 {
        fail(format!("{line}: no azimuth"));
    }
    let turned = (seen.numbers[0] as f64 / 1e8 - azimuth + 540.0).rem_euclid(360.0) - 180.0;
    let up = seen.numbers[1] as f64 / 1e8 - elevation;
    (is_moon, [(turned * elevation.to_radians().cos()).abs(), up.abs()])
}

fn main() {
    let path = env::args().nth(1).unwrap_or_else(|| fail("the file of places?".to_string()));
    let text = fs::read_to_string(&path).unwrap_or_else(|error| fail(format!("{path}: {error}")));
    let mut largest = [[0.0f64; 2]; 2];
    let mut count = 0;
    for line in text.lines().skip(1) {
        let (is_moon, found) = differences(line);
        let allowed = if is_moon { MOON_WITHIN } else { SUN_WITHIN };
        if found.iter().any(|difference| *difference > allowed) {
            fail(format!("{line}: {found:?} degree away"));
        }
        for (most, difference) in largest[usize::from(is_moon)].iter_mut().zip(found) {
            *most = most.max(difference);
        }
        count += 1;
    }
    if count != LINES {
        fail(format!("{count} lines, expected {LINES}"));
    }
    let [sun, moon] = largest.map(|[across, up]| format!("{across:.6} across and {up:.6} up"));
    println!("outside: {count} places, the Sun's within {SUN_WITHIN} and the Moon's within {MOON_WITHIN}; at most, in degrees, Sun {sun}, Moon {moon}");
}
