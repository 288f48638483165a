// Plans of many days (02, Item 7), the same days from the same seed: each is accepted by the archive's verdict and by that of the ordinary Rust version (reference/), and refused by the
// latter without any one of its inner points. A row for each tolerance and body: how many points, and how long a plan takes here.
//
//     plan_days [DAYS]    so many days and places, each with both bodies; 200 where nothing is said
use std::env;
use std::time::{Duration, Instant};

use raddlehue_reference as reference;
use reference::proposal::{first_needless, has_plan};
use reference::{AzimuthCurve, Proposal};

mod archive;
mod random;
mod random_days;
mod random_proposals;
mod reference_proposals;
use archive::*;
use random::{Random, FIELDS};
use random_proposals::OPPOSITE_DAYS;

const TOLERANCES: [(u64, &str); 5] = [(0, "0"), (1, "1"), (500, "500"), (1_000_000, "1,000,000"), (18_000_000_000, "half a turn")];
const BODIES: [(u32, &str); 2] = [(SUN, "Sun"), (MOON, "Moon")];

const POLE: i64 = 900_000_000;
const TROPIC: i64 = 234_400_000;
const POLAR_CIRCLE: i64 = 665_600_000;

// ---- days and places

// By turns the tropics, the equator, a pole, beyond a polar circle, next to a point that has the body overhead or underfoot, and anywhere.
fn day_and_place(random: &mut Random, turn: usize) -> [i64; 8] {
    let [year, month, day] = random_days::date(random);
    let sign = if random.one_in(2) { 1 } else { -1 };
    let latitude = match turn % 8 {
        0 | 1 => random.between(-TROPIC, TROPIC),
        2 => 0,
        3 => sign * POLE,
        4 => sign * random.between(POLAR_CIRCLE, POLE),
        5 => return beside_overhead(random),
        _ => random.between(-POLAR_CIRCLE, POLAR_CIRCLE),
    };
    let [ut1, delta_t, longitude, height] = [7, 8, 9, 11].map(|field: usize| random.field(FIELDS[field].0, FIELDS[field].1));
    [year, month, day, ut1, delta_t, longitude, latitude, height]
}

// Some units of latitude away from such a point: the azimuth turns by half the sky within a minute or two.
fn beside_overhead(random: &mut Random) -> [i64; 8] {
    let (_, mut numbers) = OPPOSITE_DAYS[random.below(OPPOSITE_DAYS.len() as u64) as usize];
    let reach = 1 << random.between(1, 20);
    numbers[6] += random.between(1, reach);
    numbers
}

// ---- plans

// Of the plans at a tolerance for a body, the counts of points and the times.
#[derive(Default)]
struct Measured {
    points: Vec<usize>,
    times: Vec<Duration>,
}

fn planned(numbers: &[i64; 8], body: u32, curve: &AzimuthCurve, tolerance: u64, measured: &mut Measured) {
    let begun = Instant::now();
    let (refusal, plan) = plan(numbers, body, tolerance);
    measured.times.push(begun.elapsed());
    let input = (numbers, body, tolerance);
    assert_eq!(refusal, 0, "{input:?}");
    let (minutes, azimuths) = plan.points();
    assert_eq!(judge(numbers, body, tolerance, minutes, azimuths), (0, UNWRITTEN_MINUTE), "{input:?} {minutes:?}");
    let expected = reference_proposals::judge_against(curve, tolerance, minutes, azimuths);
    assert_eq!(expected, (0, UNWRITTEN_MINUTE), "{input:?} {minutes:?}");
    let needless = first_needless(curve, Proposal { minutes, azimuths }, tolerance);
    assert_eq!(needless, None, "a point of {input:?} can be dropped: {minutes:?}");
    measured.points.push(minutes.len());
}

// Least, median and greatest.
fn spread<T: Copy + Ord>(measured: &mut [T]) -> [T; 3] {
    measured.sort_unstable();
    [measured[0], measured[measured.len() / 2], measured[measured.len() - 1]]
}

fn row(tolerance: &str, body: &str, measured: &mut Measured) -> String {
    let points = spread(&mut measured.points).map(|count| count.to_string());
    let times = spread(&mut measured.times).map(|time| format!("{:.1}", time.as_secs_f64() * 1e3));
    format!("| {tolerance} | {body} | {} | {} |", points.join(" | "), times.join(" | "))
}

fn main() {
    let count = env::args().nth(1).map_or(200, |word| word.parse().expect("a number of days"));
    let mut random = Random(7);
    let mut measured: [[Measured; 2]; 5] = Default::default();
    let mut without = 0;
    for turn in 0..count {
        let numbers = day_and_place(&mut random, turn);
        for (body, _) in BODIES {
            let curve = reference_proposals::azimuth_curve(&numbers, body).expect("an accepted day");
            if !has_plan(&curve) {
                assert!(plan(&numbers, body, 0) == (107, UNWRITTEN_PLAN), "{numbers:?} {body}");
                without += 1;
                continue;
            }
            for (at, (tolerance, _)) in TOLERANCES.into_iter().enumerate() {
                planned(&numbers, body, &curve, tolerance, &mut measured[at][body as usize]);
            }
        }
    }
    println!("| Tolerance | Body | points, least | median | most | ms, least | median | most |");
    println!("|---:|---|---:|---:|---:|---:|---:|---:|");
    for ((_, tolerance), both) in TOLERANCES.into_iter().zip(&mut measured) {
        for ((_, body), measured) in BODIES.into_iter().zip(both) {
            println!("{}", row(tolerance, body, measured));
        }
    }
    println!("\n{count} days and places with both bodies, {without} of these without a plan; every plan is accepted, and refused without any one of its inner points.");
}
