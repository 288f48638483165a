// Eclipses drawn at random: requests near the seven of report 003's Table 4, since any other hardly ever is one, and triples of a separation and the two radii, at the
// edges of every case of the share more often than chance.
use std::sync::LazyLock;

use raddlehue_reference::eclipse::{MOON_RADII, SEPARATIONS, SUN_RADII};

use crate::archive::{at_ms, clock_ms, MINUTE_MS};
use crate::{damage, Random, FIELDS};

// How far from one of the seven at most: two hours and, of delta-T, ten seconds, in milliseconds, and ten degrees in 1e-7 degree.
const TWO_HOURS: i64 = 120 * MINUTE_MS;
const TEN_DEGREES_E7: i64 = 100_000_000;
const TEN_SECONDS: i64 = 10_000;

// The cases of the share, in the order of `case_of`.
pub const CASES: [&str; 4] = ["nothing", "the whole", "a ring", "a lens"];

// The requests of the table, twelve numbers each.
static TABLE_4: LazyLock<Vec<[i64; 12]>> = LazyLock::new(|| {
    let rows = include_str!("outside/table4.txt").lines().filter(|line| !line.starts_with('#'));
    let request = |row: &str| row.split_whitespace().map_while(|word| word.parse().ok()).collect::<Vec<i64>>();
    rows.map(|row| request(row).try_into().expect("twelve numbers")).collect()
});

// One of the seven, moved in time and place by a little or by as much as there is, and now and then damaged. None of them is within two hours of midnight.
pub fn near(random: &mut Random) -> [i64; 12] {
    let mut numbers = TABLE_4[random.below(TABLE_4.len() as u64) as usize];
    let scale = random.below(12);
    let mut about = |reach: i64| random.between(-(reach >> scale), reach >> scale);
    numbers = at_ms(&numbers, clock_ms(&numbers) + about(TWO_HOURS));
    numbers[8] += about(TEN_SECONDS);
    numbers[9] += about(TEN_DEGREES_E7);
    numbers[10] = (numbers[10] + about(TEN_DEGREES_E7)).clamp(FIELDS[10].0, FIELDS[10].1);
    for at in [7, 11] {
        numbers[at] = random.field(FIELDS[at].0, FIELDS[at].1);
    }
    if random.one_in(8) {
        damage(random, &mut numbers);
    }
    numbers
}

// A separation, the Sun's radius and the Moon's, now and then damaged.
pub fn triple(random: &mut Random) -> [i64; 3] {
    let sun = random.field(*SUN_RADII.start(), *SUN_RADII.end());
    let moon = match random.below(4) {
        0 => sun,
        1 => sun + random.between(-3, 3),
        2 => random.between(9 * sun / 10, 11 * sun / 10),
        _ => random.field(*MOON_RADII.start(), *MOON_RADII.end()),
    };
    let mut numbers = [separation(random, sun, moon), sun, moon];
    if random.one_in(8) {
        let at = random.below(3) as usize;
        let range = &[SEPARATIONS, SUN_RADII, MOON_RADII][at];
        numbers[at] = random.outside(*range.start(), *range.end());
    }
    numbers
}

// At the contacts and beside them, within the inner one, between them, or anywhere.
fn separation(random: &mut Random, sun: i64, moon: i64) -> i64 {
    let (inner, outer) = ((sun - moon).abs(), sun + moon);
    match random.below(8) {
        0 => inner,
        1 => outer,
        2 => inner + random.between(-3, 3),
        3 => outer + random.between(-3, 3),
        4 => random.between(0, inner),
        5 => random.field(*SEPARATIONS.start(), *SEPARATIONS.end()),
        _ => random.between(inner, outer),
    }
}

pub fn case_of([separation, sun, moon]: [i64; 3]) -> usize {
    if separation >= sun + moon {
        0
    } else if moon >= sun && separation <= moon - sun {
        1
    } else if moon < sun && separation <= sun - moon {
        2
    } else {
        3
    }
}
