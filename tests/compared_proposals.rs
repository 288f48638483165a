// The archive's verdicts on proposals against the ordinary Rust version's, on proposals drawn at random; and its plans, which are held to what 02 asks of them by that version's verdict.
// A verdict costs a day's places up to the minute that is out, so that whole days are few, and their azimuths are worked once.
use raddlehue_reference as reference;
use reference::proposal::{first_needless, has_plan};
use reference::AzimuthCurve;

use crate::archive::*;
use crate::compared::{all_drawn, complete, same};
use crate::random_days::{self, body_of};
use crate::random_overhead::without_azimuth;
use crate::random_proposals::*;
use crate::{reference_proposals, Random};

type Request = ([i64; 8], u32);

// How often each refusal was given, by the kind of the call, and what else has to be drawn.
pub struct Tally {
    verdicts: [u64; 256],
    plans: [u64; 256],
    // of the proposals that were refused by 29, those damaged in each way
    damages: [u64; DAMAGES.len()],
    // of those about a day's azimuths, by EDGES
    edges: [u64; EDGES.len()],
    // of the plans, those of two points and those of more
    sizes: [u64; 2],
    // of the days without a plan, those by their cause
    causes: [u64; 2],
}

const EDGES: [&str; 5] = ["just within the tolerance", "a unit out of it", "beside an opposite neighbour", "opposite to it", "at a minute without an azimuth"];

pub const NO_TALLY: Tally = Tally {
    verdicts: [0; 256],
    plans: [0; 256],
    damages: [0; DAMAGES.len()],
    edges: [0; EDGES.len()],
    sizes: [0; 2],
    causes: [0; 2],
};

pub fn draw(random: &mut Random, turn: u64, seen: &mut Tally) {
    let somewhere = about(random, &[None; MINUTES]);
    refused_request(random, &somewhere, seen);
    refused_points(random, &somewhere, seen);
    if turn % 512 == 0 {
        whole_day(random, seen);
    }
    if turn % 1024 == 0 {
        absent_day(random, seen);
        opposite_day(random, seen);
    }
}

// ---- what is refused before a day is worked

fn judge_of((numbers, body): &Request, tolerance: u64, drawn: &Drawn, seen: &mut Tally) {
    let Drawn { minutes, azimuths } = drawn;
    let found = judge(numbers, *body, tolerance, minutes, azimuths);
    let expected = reference_proposals::judge(numbers, *body, tolerance, minutes, azimuths);
    same("verdict", (numbers, body, tolerance, drawn), found, expected, &mut seen.verdicts);
}

// A damaged request, with points that are damaged too or are not; and no plan for it.
fn refused_request(random: &mut Random, somewhere: &Drawn, seen: &mut Tally) {
    let (numbers, body) = random_days::damaged(random);
    let tolerance = tolerance(random);
    let points = if random.one_in(2) { damaged(random, somewhere).0 } else { somewhere.clone() };
    judge_of(&(numbers, body), tolerance, &points, seen);
    let refusal = reference_proposals::azimuth_curve(&numbers, body).err();
    let expected = (refusal.expect("a refusal"), UNWRITTEN_PLAN);
    same("plan", (numbers, body, tolerance), plan(&numbers, body, tolerance), expected, &mut seen.plans);
}

fn refused_points(random: &mut Random, somewhere: &Drawn, seen: &mut Tally) {
    let request = random_days::drawn(random);
    let tolerance = tolerance(random);
    let (spoilt, way) = damaged(random, somewhere);
    judge_of(&request, tolerance, &spoilt, seen);
    seen.damages[way] += 1;
    judge_of(&request, tolerance, &opposed(random, somewhere, 0), seen);
}

// ---- whole days

struct Day {
    request: Request,
    curve: AzimuthCurve,
}

fn worked((numbers, body): Request) -> Day {
    let curve = reference_proposals::azimuth_curve(&numbers, body).expect("an accepted day");
    Day { request: (numbers, body), curve }
}

// The verdict that the archive gives too.
fn judged(day: &Day, tolerance: u64, minutes: &[u32], azimuths: &[i64], seen: &mut Tally) -> Answer<u32> {
    let (numbers, body) = &day.request;
    let expected = reference_proposals::judge_against(&day.curve, tolerance, minutes, azimuths);
    let found = judge(numbers, *body, tolerance, minutes, azimuths);
    same("verdict", (numbers, body, tolerance, minutes, azimuths), found, expected, &mut seen.verdicts);
    expected
}

fn whole_day(random: &mut Random, seen: &mut Tally) {
    let day = worked(random_days::drawn(random));
    let near = about(random, &day.curve);
    edge_of(random, &day, &near, seen);
    let beside = if random.one_in(2) { 1 } else { -1 };
    let far = opposed(random, &near, beside);
    edge_of(random, &day, &far, seen);
    seen.edges[2] += 1;
    let opposite = opposed(random, &near, 0);
    judged(&day, tolerance(random), &opposite.minutes, &opposite.azimuths, seen);
    seen.edges[3] += 1;
    let wide = HALF_TURN as u64 + random.below(2) * random.below(1 << 40);
    for tolerance in [wide, random.below(500), tolerance(random)] {
        plan_of(random, &day, tolerance, seen);
    }
}

// At the least tolerance that accepts it, a unit below, and any other. Points far from the day's are opposite now and then, and have none.
fn edge_of(random: &mut Random, day: &Day, drawn: &Drawn, seen: &mut Tally) {
    let Drawn { minutes, azimuths } = drawn;
    let Some(least) = least_tolerance(&day.curve, drawn) else {
        assert_eq!(judged(day, u64::MAX, minutes, azimuths, seen).0, 30);
        return;
    };
    assert_eq!(judged(day, least, minutes, azimuths, seen).0, 0);
    seen.edges[0] += 1;
    if let Some(below) = least.checked_sub(1) {
        assert_eq!(judged(day, below, minutes, azimuths, seen).0, 31);
        seen.edges[1] += 1;
    }
    judged(day, tolerance(random), minutes, azimuths, seen);
}

// ---- plans

// Accepted by both verdicts; refused by the reference's without any one inner point, and by the archive's, which costs a day, without one of them.
fn plan_of(random: &mut Random, day: &Day, tolerance: u64, seen: &mut Tally) {
    let (numbers, body) = &day.request;
    let (refusal, plan) = plan(numbers, *body, tolerance);
    let expected = if has_plan(&day.curve) { 0 } else { 107 };
    let told = (refusal, refusal == 0 || plan == UNWRITTEN_PLAN);
    same("plan", (numbers, body, tolerance), told, (expected, true), &mut seen.plans);
    if refusal != 0 {
        return;
    }
    let (minutes, azimuths) = plan.points();
    let verdict = judged(day, tolerance, minutes, azimuths, seen);
    assert_eq!(verdict.0, 0, "a plan is refused: {:?} {tolerance} {minutes:?} {azimuths:?}", day.request);
    let inner = minutes.len() - 2;
    seen.sizes[usize::from(inner > 0)] += 1;
    let needless = first_needless(&day.curve, reference::Proposal { minutes, azimuths }, tolerance);
    assert_eq!(needless, None, "a point can be dropped: {:?} {tolerance} {minutes:?}", day.request);
    if inner > 0 {
        let (mut minutes, mut azimuths) = (minutes.to_vec(), azimuths.to_vec());
        let index = random.field(1, inner as i64) as usize;
        minutes.remove(index);
        azimuths.remove(index);
        judged(day, tolerance, &minutes, &azimuths, seen);
    }
}

// A day with the body straight overhead, or underfoot, at one of its minutes; one in three minutes has such a point.
fn absent_day(random: &mut Random, seen: &mut Tally) {
    loop {
        let (mut numbers, body) = random_days::drawn(random);
        let absent = random.field(0, 1439) as usize;
        let [year, month, day, hour, minute, second, millisecond, ut1, delta_t, _, _, height] = at_minute(&numbers, absent);
        let start = reference::Start { year, month, day, hour, minute, second, millisecond, ut1, delta_t };
        let Some(point) = without_azimuth(start, body_of(body), height, random.one_in(2)) else { continue };
        numbers[5..7].copy_from_slice(&[point.longitude, point.latitude]);
        let day = worked((numbers, body));
        assert_eq!(day.curve[absent], None, "{numbers:?} {absent}");
        let tolerance = tolerance(random);
        plan_of(random, &day, tolerance, seen);
        seen.causes[0] += 1;
        let drawn = about(random, &day.curve);
        edge_of(random, &day, &drawn, seen);
        seen.edges[4] += 1;
        return;
    }
}

// A day with opposite minutes has no plan; moved by a unit of latitude it mostly has one.
fn opposite_day(random: &mut Random, seen: &mut Tally) {
    let (body, mut numbers) = OPPOSITE_DAYS[random.below(OPPOSITE_DAYS.len() as u64) as usize];
    let day = worked((numbers, body));
    assert!(day.curve.iter().all(Option::is_some) && !has_plan(&day.curve), "{numbers:?}");
    let tolerance = tolerance(random);
    plan_of(random, &day, tolerance, seen);
    seen.causes[1] += 1;
    numbers[6] += random.between(-1, 1);
    plan_of(random, &worked((numbers, body)), tolerance, seen);
}

// What was drawn, a line for each kind.
pub fn summary(seen: &Tally) -> Vec<String> {
    vec![
        complete("verdicts on proposals", &seen.verdicts, [1, 2, 3, 5, 6, 7, 8, 9, 29, 30, 31, 101]),
        all_drawn("    refused by 29,", &DAMAGES, &seen.damages),
        all_drawn("    about a day's azimuths,", &EDGES, &seen.edges),
        complete("plans", &seen.plans, [1, 2, 3, 5, 6, 7, 8, 9, 101, 107]),
        all_drawn("    planned,", &["of two points", "of more"], &seen.sizes),
        all_drawn("    no plan,", &["a minute without an azimuth", "opposite minutes"], &seen.causes),
    ]
}
