// Proposals drawn at random: about a day's azimuths, and damaged ones. Each list has an allocation of its own and ends where that ends, so that valgrind sees what is read outside.
#![allow(dead_code)]

use raddlehue_reference::{judge_against, AzimuthCurve, Proposal};

use crate::archive::{MINUTES, MOON, SUN};
use crate::random::Random;

pub const TURN: i64 = 36_000_000_000;
pub const HALF_TURN: i64 = TURN / 2;
pub const LAST: u32 = MINUTES as u32 - 1;

#[derive(Clone, Debug)]
pub struct Drawn {
    pub minutes: Box<[u32]>,
    pub azimuths: Box<[i64]>,
}

impl Drawn {
    pub fn proposal(&self) -> Proposal<'_> {
        Proposal { minutes: &self.minutes, azimuths: &self.azimuths }
    }
}

fn one_of<T: Copy>(random: &mut Random, list: &[T]) -> T {
    list[random.below(list.len() as u64) as usize]
}

// ---- well-formed ones

// Minute 0, the last, and between them few others, many, or all.
fn minutes(random: &mut Random) -> Vec<u32> {
    let inner = match random.below(8) {
        0 => 0,
        1 | 2 => random.below(4),
        3..6 => random.below(60),
        6 => random.below(1_438),
        _ => 1_438,
    };
    let mut minutes: Vec<u32> = (1..LAST).collect();
    while minutes.len() as u64 > inner {
        let at = random.below(minutes.len() as u64) as usize;
        minutes.swap_remove(at);
    }
    minutes.extend([0, LAST]);
    minutes.sort_unstable();
    minutes
}

// The day's own azimuths at some minutes, or these moved by a few units or by many. Where there is none, any.
pub fn about(random: &mut Random, curve: &AzimuthCurve) -> Drawn {
    let minutes = minutes(random);
    let reach = one_of(random, &[0, 0, 3, 1_000, HALF_TURN]);
    let azimuths = minutes.iter().map(|minute| {
        let azimuth = curve[*minute as usize].unwrap_or_else(|| random.between(0, TURN - 1));
        (azimuth + random.between(-reach, reach)).rem_euclid(TURN)
    });
    Drawn { azimuths: azimuths.collect(), minutes: minutes.into() }
}

// One of the points put opposite to its neighbour, or so many units beside that.
pub fn opposed(random: &mut Random, drawn: &Drawn, beside: i64) -> Drawn {
    let mut opposed = drawn.clone();
    let at = random.field(1, drawn.azimuths.len() as i64 - 1) as usize;
    opposed.azimuths[at] = (drawn.azimuths[at - 1] + HALF_TURN + beside).rem_euclid(TURN);
    opposed
}

// The least tolerance at which the proposal is accepted; nothing where none is wide enough.
pub fn least_tolerance(curve: &AzimuthCurve, drawn: &Drawn) -> Option<u64> {
    let is_accepted = |tolerance| judge_against(curve, drawn.proposal(), tolerance).is_ok();
    let (mut least, mut accepted) = (0, HALF_TURN as u64);
    if !is_accepted(accepted) {
        return None;
    }
    while least < accepted {
        let middle = (least + accepted) / 2;
        if is_accepted(middle) {
            accepted = middle;
        } else {
            least = middle + 1;
        }
    }
    Some(accepted)
}

// None at all, a unit, few, many, next to half a turn, or more than any distance.
pub fn tolerance(random: &mut Random) -> u64 {
    let half = HALF_TURN as u64;
    match random.below(8) {
        0 => 0,
        1 => 1,
        2 => random.below(1_000),
        3 => random.below(100_000_000),
        4 => random.below(half),
        5 => one_of(random, &[half - 1, half, half + 1]),
        6 => one_of(random, &[1 << 32, 1 << 63, i64::MAX as u64, u64::MAX]),
        _ => random.next() >> random.below(64),
    }
}

// ---- damaged ones

// What is done to a well-formed proposal; every one of them is refused by 29.
pub const DAMAGES: [&str; 10] = [
    "exchanged minutes",
    "equal minutes",
    "another first minute",
    "another last minute",
    "a minute far out",
    "an azimuth that is not reduced",
    "a shorter list",
    "a longer list",
    "too few points",
    "too many points",
];

// Damaged in one of these ways, and in which; now and then it has opposite neighbours too, which are judged behind it.
pub fn damaged(random: &mut Random, drawn: &Drawn) -> (Drawn, usize) {
    let drawn = if random.one_in(4) { opposed(random, drawn, 0) } else { drawn.clone() };
    let (mut minutes, mut azimuths) = (drawn.minutes.into_vec(), drawn.azimuths.into_vec());
    let way = random.below(DAMAGES.len() as u64) as usize;
    damage(random, way, &mut minutes, &mut azimuths);
    (Drawn { minutes: minutes.into(), azimuths: azimuths.into() }, way)
}

fn damage(random: &mut Random, way: usize, minutes: &mut Vec<u32>, azimuths: &mut Vec<i64>) {
    let last = minutes.len() - 1;
    let inner = random.field(0, last as i64 - 1) as usize;
    match way {
        0 => minutes.swap(inner, inner + 1),
        1 => minutes[inner + 1] = minutes[inner],
        2 => minutes[0] = one_of(random, &[1, 2, LAST, u32::MAX]),
        3 => minutes[last] = one_of(random, &[LAST - 1, LAST + 1, LAST + 256, 65_536 + LAST, u32::MAX, 0]),
        4 => minutes[inner] = one_of(random, &[LAST, LAST + 1, 65_536, 1 << 31, u32::MAX, u32::MAX - LAST]),
        5 => azimuths[random.field(0, last as i64) as usize] = not_reduced(random),
        6 if random.one_in(2) => minutes.truncate(random.below(last as u64 + 1) as usize),
        6 => azimuths.truncate(random.field(0, last as i64) as usize),
        7 if random.one_in(2) => minutes.push(LAST),
        7 => azimuths.extend(vec![0; 1 + random.below(9) as usize]),
        8 => {
            let left = random.below(2) as usize;
            minutes.truncate(left);
            azimuths.truncate(left);
        }
        _ => {
            *minutes = (0..=LAST + 1).map(|minute| minute.min(LAST)).collect();
            azimuths.resize(MINUTES + 1, 0);
        }
    }
}

fn not_reduced(random: &mut Random) -> i64 {
    match random.outside(0, TURN - 1) {
        reduced @ 0..TURN => reduced - TURN,
        outside => outside,
    }
}

// ---- days without a plan

// Requests with two adjacent minutes that are exactly opposite: the body goes through the zenith, or the point underfoot, between them. They were looked for about such points.
pub const OPPOSITE_DAYS: [(u32, [i64; 8]); 8] = [
    (SUN, [1903, 2, 22, -200, 146_600, -1_766_616_997, -106_962_078, 5696]),
    (MOON, [2062, 3, 15, 900, 156_100, -1_207_228_161, 234_905_762, 2726]),
    (SUN, [1901, 8, 14, -200, 123_800, 112_551_286, -143_675_526, 5679]),
    (MOON, [1911, 5, 2, -800, 80_400, 1_510_905_389, -276_705_642, 2588]),
    (SUN, [2011, 3, 26, 800, 123_800, -1_652_208_871, 23_596_233, 2712]),
    (MOON, [2023, 7, 20, 700, 129_500, -725_626_719, 150_951_216, 7918]),
    (SUN, [2097, 3, 26, -200, 35_900, -460_050_224, -24_837_312, 2393]),
    (MOON, [2052, 2, 25, 500, 187_300, -1_258_112_196, 183_271_222, 6912]),
];
