//! Proposals: every line of the vectors, the values between turning points by hand, each refusal at its edge and in its
//! order, the verdict against a plainer one in 128 bits, and what is asked of a plan.

use raddlehue_reference::day::MINUTES;
use raddlehue_reference::numbers::{HALF_TURN, TURN};
use raddlehue_reference::proposal::{distance, first_needless, has_plan, is_needed, value_between, TurningPoint};
use raddlehue_reference::*;

#[path = "../../tests/proposal_lines.rs"]
mod proposal_lines;
mod random;
mod spoilt;
use proposal_lines::{proposal_lines, ProposalLine, Request};
use random::Random;
use spoilt::spoilt_days;

const LAST: u32 = MINUTES as u32 - 1;
const HALF: u64 = HALF_TURN as u64;

/// A body that stands still.
fn still(azimuth: i64) -> AzimuthCurve {
    [Some(azimuth); MINUTES]
}

/// The verdict on points that are given as pairs.
fn verdict(curve: &AzimuthCurve, points: &[(u32, i64)], tolerance: u64) -> Result<(), (u8, u32)> {
    let (minutes, azimuths): (Vec<u32>, Vec<i64>) = points.iter().copied().unzip();
    judge_against(curve, Proposal { minutes: &minutes, azimuths: &azimuths }, tolerance)
}

// ---- the vectors

fn request_of(request: Request) -> (Date, Body, Point) {
    let [year, month, day, ut1, delta_t, longitude, latitude, height] = request.numbers;
    let body = [Body::Sun, Body::Moon][request.body as usize];
    (Date { year, month, day, ut1, delta_t }, body, Point { longitude, latitude, height })
}

fn check_line(line: ProposalLine) {
    match line {
        ProposalLine::Judge { request, tolerance, minutes, azimuths, expected } => {
            let (date, body, point) = request_of(request);
            let proposal = Proposal { minutes: &minutes, azimuths: &azimuths };
            let told = match judge(date, body, point, proposal, tolerance) {
                Ok(()) => (0, None),
                Err((31, minute)) => (31, Some(minute)),
                Err((refusal, minute)) => (refusal.into(), (minute != 0).then_some(minute)),
            };
            assert_eq!(told, expected, "{request:?} {tolerance} {minutes:?} {azimuths:?}");
        }
        ProposalLine::Plan { request, expected } => {
            let (date, body, point) = request_of(request);
            let told = match azimuth_curve(date, body, point) {
                Ok(curve) if has_plan(&curve) => 0,
                Ok(_) => 107,
                Err(refusal) => refusal.into(),
            };
            assert_eq!(told, expected, "{request:?}");
        }
    }
}

#[test]
fn vectors() {
    let found = proposal_lines(include_str!("../../tests/vectors/proposals.txt"));
    assert_eq!(found.len(), 231);
    found.into_iter().for_each(check_line);
}

// ---- values and distances

/// The value at a minute between two points that are given as pairs.
fn value(earlier: (u32, i64), later: (u32, i64), minute: u32) -> i64 {
    let [earlier, later] = [earlier, later].map(|(minute, azimuth)| TurningPoint { minute, azimuth });
    value_between(earlier, later, minute)
}

/// From one azimuth to another in so many minutes: the value at each of them.
fn leg(from: i64, to: i64, minutes: u32) -> Vec<i64> {
    (7..=7 + minutes).map(|minute| value((7, from), (7 + minutes, to), minute)).collect()
}

#[test]
fn values_are_floored_from_the_earlier_point() {
    assert_eq!(leg(10, 13, 2), [10, 11, 13]);
    assert_eq!(leg(13, 10, 2), [13, 11, 10]);
    assert_eq!(leg(100, 101, 4), [100, 100, 100, 100, 101]);
    assert_eq!(leg(101, 100, 4), [101, 100, 100, 100, 100]);
    assert_eq!(leg(5, 5, 3), [5; 4]);
}

#[test]
fn values_go_the_short_way_over_north() {
    assert_eq!(leg(TURN - 10, 10, 4), [TURN - 10, TURN - 5, 0, 5, 10]);
    assert_eq!(leg(10, TURN - 10, 4), [10, 5, 0, TURN - 5, TURN - 10]);
    assert_eq!(leg(10, TURN - 11, 2), [10, TURN - 1, TURN - 11]);
    assert_eq!(leg(TURN - 11, 10, 2), [TURN - 11, TURN - 1, 10]);
}

#[test]
fn beside_half_a_turn_the_way_changes_sides() {
    assert_eq!(leg(0, HALF_TURN - 2, 2), [0, HALF_TURN / 2 - 1, HALF_TURN - 2]);
    assert_eq!(leg(0, HALF_TURN + 2, 2), [0, 3 * HALF_TURN / 2 + 1, HALF_TURN + 2]);
    assert_eq!(leg(HALF_TURN + 2, 0, 2), [HALF_TURN + 2, 3 * HALF_TURN / 2 + 1, 0]);
}

#[test]
fn distances_are_the_short_way_round() {
    let cases = [(3, 8, 5), (8, 3, 5), (TURN - 2, 3, 5), (3, TURN - 2, 5), (0, TURN - 1, 1), (9, 9, 0)];
    for (one, other, expected) in cases {
        assert_eq!(distance(one, other), expected, "{one} {other}");
    }
    assert_eq!([-1, 0, 1].map(|beside| distance(5, 5 + HALF_TURN + beside)), [HALF - 1, HALF, HALF - 1]);
}

// ---- the verdict, by hand

#[test]
fn within_means_the_tolerance_itself_too() {
    for (azimuth, value) in [(100, 105), (105, 100), (TURN - 2, 3), (3, TURN - 2)] {
        let flat = [(0, value), (LAST, value)];
        assert_eq!(verdict(&still(azimuth), &flat, 5), Ok(()));
        assert_eq!(verdict(&still(azimuth), &flat, 6), Ok(()));
        assert_eq!(verdict(&still(azimuth), &flat, 4), Err((31, 0)));
        assert_eq!(verdict(&still(azimuth), &flat, 0), Err((31, 0)));
    }
    assert_eq!(verdict(&still(100), &[(0, 100), (LAST, 100)], 0), Ok(()));
}

#[test]
fn nothing_is_farther_than_half_a_turn() {
    let away = [(0, HALF_TURN), (LAST, HALF_TURN)];
    assert_eq!(verdict(&still(0), &away, HALF - 1), Err((31, 0)));
    assert_eq!([HALF, HALF + 1, TURN as u64, u64::MAX].map(|far| verdict(&still(0), &away, far)), [Ok(()); 4]);
}

#[test]
fn the_first_minute_out_is_named_and_the_last_is_compared() {
    let flat = [(0, 100), (LAST, 100)];
    for minute in [0, 1, 719, LAST - 1, LAST] {
        let mut curve = still(100);
        curve[minute as usize] = Some(111);
        assert_eq!([10, 11].map(|tolerance| verdict(&curve, &flat, tolerance)), [Err((31, minute)), Ok(())]);
        curve[LAST as usize] = Some(89);
        assert_eq!(verdict(&curve, &flat, 10), Err((31, minute)));
    }
}

#[test]
fn a_minute_without_an_azimuth_is_not_compared() {
    let mut curve = still(100);
    curve[40] = None;
    curve[LAST as usize] = None;
    let bent = [(0, 100), (39, 100), (40, 9_999), (41, 100), (LAST - 1, 100), (LAST, 9_999)];
    assert_eq!(verdict(&curve, &bent, 0), Ok(()));
    assert_eq!(verdict(&[None; MINUTES], &[(0, 5), (LAST, 6)], 0), Ok(()));
    assert_eq!(verdict(&[None; MINUTES], &[(0, 5), (LAST, 5 + HALF_TURN)], 0), Err((30, 0)));
}

#[test]
fn points_that_are_none() {
    let curve = still(100);
    let cases: [&[(u32, i64)]; 14] = [
        &[],
        &[(0, 100)],
        &[(LAST, 100)],
        &[(1, 100), (LAST, 100)],
        &[(0, 100), (LAST - 1, 100)],
        &[(0, 100), (LAST + 1, 100)],
        &[(0, 100), (u32::MAX, 100)],
        &[(LAST, 100), (0, 100)],
        &[(0, 100), (0, 100), (LAST, 100)],
        &[(0, 100), (LAST, 100), (LAST, 100)],
        &[(0, 100), (9, 100), (8, 100), (LAST, 100)],
        &[(0, 100), (LAST + 1, 100), (LAST, 100)],
        &[(0, TURN), (LAST, 100)],
        &[(0, 100), (LAST, -1)],
    ];
    for points in cases {
        assert_eq!(verdict(&curve, points, u64::MAX), Err((29, 0)), "{points:?}");
    }
    for azimuth in [TURN, -1, i64::MIN, i64::MAX] {
        assert_eq!(verdict(&curve, &[(0, 0), (5, azimuth), (LAST, 0)], u64::MAX), Err((29, 0)));
    }
    assert_eq!(verdict(&curve, &[(0, 0), (5, TURN - 1), (LAST, 0)], u64::MAX), Ok(()));
}

#[test]
fn lists_of_any_length() {
    let minutes: Vec<u32> = (0..=LAST + 1).collect();
    let azimuths = [100; MINUTES + 1];
    let of = |minutes: &[u32], azimuths: &[i64]| judge_against(&still(100), Proposal { minutes, azimuths }, 0);
    assert_eq!(of(&minutes[..MINUTES], &azimuths[..MINUTES]), Ok(()));
    for (minute_count, azimuth_count) in [(MINUTES, MINUTES - 1), (MINUTES, MINUTES + 1), (MINUTES, 0), (0, 2)] {
        assert_eq!(of(&minutes[..minute_count], &azimuths[..azimuth_count]), Err((29, 0)));
    }
    assert_eq!(of(&minutes, &azimuths), Err((29, 0)));
    let twice: Vec<u32> = (0..=LAST).chain([LAST]).collect();
    assert_eq!(of(&twice, &azimuths), Err((29, 0)));
}

#[test]
fn opposite_neighbours_come_behind_the_points_and_before_the_tolerance() {
    let curve = still(100);
    for (beside, expected) in [(-1, Err((31, 719))), (0, Err((30, 0))), (1, Err((31, 719)))] {
        let points = [(0, 100), (718, 100), (719, 100 + HALF_TURN + beside), (LAST, 100 + HALF_TURN)];
        assert_eq!(verdict(&curve, &points, HALF - 2), expected, "{beside}");
    }
    // minute 0 is out of tolerance, the opposite ones come last
    assert_eq!(verdict(&curve, &[(0, 500), (1438, 500), (LAST, 500 + HALF_TURN)], 0), Err((30, 0)));
    assert_eq!(verdict(&curve, &[(0, 500), (1438, 500 + HALF_TURN), (LAST, TURN)], 0), Err((29, 0)));
    // only neighbours count
    assert_eq!(verdict(&curve, &[(0, 0), (9, 9_000_000_000), (LAST, HALF_TURN)], HALF), Ok(()));
}

// ---- the verdict, plainly

/// The same by 02's sentence in 128 bits: one minute after another, its leg looked for anew.
fn plain_verdict(curve: &AzimuthCurve, points: &[(u32, i64)], tolerance: u64) -> Option<u32> {
    let turn = i128::from(TURN);
    let plain_distance = |one: i128, other: i128| (one - other).abs().min(turn - (one - other).abs());
    let value = |minute: u32| {
        let at = points.iter().rposition(|point| point.0 <= minute).expect("a point at or before it");
        let (from, azimuth) = (points[at].0, i128::from(points[at].1));
        let Some(&(to, next)) = points.get(at + 1) else { return azimuth };
        let ways = [-turn, 0, turn].map(|turns| i128::from(next) + turns - azimuth);
        let way = ways.into_iter().min_by_key(|way| way.abs()).expect("three ways");
        let part = (way * i128::from(minute - from)).div_euclid(i128::from(to - from));
        (azimuth + part).rem_euclid(turn)
    };
    (0..=LAST).find(|&minute| {
        curve[minute as usize]
            .is_some_and(|azimuth| plain_distance(value(minute), azimuth.into()) > i128::from(tolerance))
    })
}

/// Points up to five hours apart, some far from their neighbours and some near.
fn drawn_points(random: &mut Random) -> Vec<(u32, i64)> {
    let mut points = vec![(0, random.within(0, TURN - 1))];
    while let Some(&(minute, azimuth)) = points.last().filter(|point| point.0 < LAST) {
        let next = minute + random.within(1, 300) as u32;
        let nearer = [1, 1_000, 1_000_000_000][random.within(0, 2) as usize];
        let way = random.within(1 - HALF_TURN, HALF_TURN - 1) / nearer;
        points.push((LAST.min(next), (azimuth + way).rem_euclid(TURN)));
    }
    points
}

/// The points' own values, each moved by no more than the tolerance.
fn curve_about(random: &mut Random, points: &[(u32, i64)], tolerance: i64) -> AzimuthCurve {
    std::array::from_fn(|minute| {
        let minute = minute as u32;
        let leg = points.windows(2).find(|leg| minute <= leg[1].0).expect("a leg");
        Some((value(leg[0], leg[1], minute) + random.within(-tolerance, tolerance)).rem_euclid(TURN))
    })
}

#[test]
fn the_verdict_is_the_plain_one() {
    let mut random = Random(7);
    let mut counts = [0; 2];
    for _ in 0..400 {
        let (points, tolerance) = (drawn_points(&mut random), random.within(0, 40) as u64);
        let mut curve = curve_about(&mut random, &points, tolerance as i64);
        assert_eq!((verdict(&curve, &points, tolerance), plain_verdict(&curve, &points, tolerance)), (Ok(()), None));
        for _ in 0..3 {
            let minute = random.within(0, LAST.into()) as usize;
            curve[minute] = curve[minute].map(|azimuth| (azimuth + random.within(-60, 60)).rem_euclid(TURN));
        }
        let found = plain_verdict(&curve, &points, tolerance);
        assert_eq!(verdict(&curve, &points, tolerance), found.map_or(Ok(()), |minute| Err((31, minute))));
        counts[usize::from(found.is_some())] += 1;
    }
    assert!(counts.iter().all(|&count| count > 20), "{counts:?}");
}

// ---- a request

const DATE: Date = Date { year: 2003, month: 10, day: 17, ut1: -347, delta_t: 67_183 };
const POINT: Point = Point { longitude: -1_051_786_000, latitude: 397_424_760, height: 1830 };

/// Minute 0 of the first day straight below the Sun (tests/vectors/overhead.txt).
const OVERHEAD_DATE: Date = Date { year: 1900, month: 1, day: 1, ut1: -900, delta_t: -7_999_900 };
const OVERHEAD: Point = Point { longitude: -1_792_408_461, latitude: -230_700_717, height: -500 };

#[test]
fn each_minute_is_a_place() {
    let Date { year, month, day, ut1, delta_t } = DATE;
    for body in [Body::Sun, Body::Moon] {
        let curve = azimuth_curve(DATE, body, POINT).expect("accepted");
        for (minute, azimuth) in (0..).zip(curve) {
            let (hour, minute) = (minute / 60, minute % 60);
            let start = Start { year, month, day, hour, minute, second: 0, millisecond: 0, ut1, delta_t };
            assert_eq!(azimuth, place(start, body, POINT, Air::None).expect("accepted").azimuth, "{minute}");
        }
    }
}

#[test]
fn every_minute_of_a_day_is_accepted_without_tolerance() {
    let minutes: Vec<u32> = (0..=LAST).collect();
    for body in [Body::Sun, Body::Moon] {
        let curve = azimuth_curve(DATE, body, POINT).expect("accepted");
        let mut azimuths: Vec<i64> = curve.iter().flatten().copied().collect();
        let of = |azimuths: &[i64]| judge(DATE, body, POINT, Proposal { minutes: &minutes, azimuths }, 0);
        assert_eq!(of(&azimuths), Ok(()));
        azimuths[1000] += 1;
        assert_eq!(of(&azimuths), Err((31, 1000)));
    }
}

#[test]
fn straight_overhead_is_not_compared() {
    let curve = azimuth_curve(OVERHEAD_DATE, Body::Sun, OVERHEAD).expect("accepted");
    assert_eq!((curve[0], curve.iter().flatten().count(), has_plan(&curve)), (None, MINUTES - 1, false));
    let minutes: Vec<u32> = (0..=LAST).collect();
    for stand_in in [0, 1_234_567_890, TURN - 1] {
        let azimuths: Vec<i64> = curve.iter().map(|azimuth| azimuth.unwrap_or(stand_in)).collect();
        let proposal = Proposal { minutes: &minutes, azimuths: &azimuths };
        assert_eq!(judge(OVERHEAD_DATE, Body::Sun, OVERHEAD, proposal, 0), Ok(()), "{stand_in}");
    }
}

#[test]
fn the_request_is_judged_before_the_points() {
    let refused = |date, point| judge(date, Body::Moon, point, Proposal { minutes: &[], azimuths: &[] }, 0);
    assert_eq!(refused(DATE, POINT), Err((29, 0)));
    for (number, date, point) in spoilt_days(DATE, POINT) {
        assert_eq!(refused(date, point), Err((number, 0)));
    }
}

// ---- what is asked of a planner

#[test]
fn no_plan() {
    let mut curve = still(7);
    assert!(has_plan(&curve));
    for minute in [0, 700, MINUTES - 1] {
        let mut absent = curve;
        absent[minute] = None;
        assert!(!has_plan(&absent), "{minute}");
    }
    curve[MINUTES - 1] = Some(7 + HALF_TURN);
    assert!(!has_plan(&curve));
    curve[MINUTES - 1] = Some(8 + HALF_TURN);
    assert!(has_plan(&curve));
    // not adjacent
    curve[MINUTES - 2] = Some(9);
    curve[MINUTES - 1] = Some(7 + HALF_TURN);
    assert!(has_plan(&curve));
}

/// A body that turns back at minute 700: the point there is needed up to the tolerance at which it isn't.
#[test]
fn points_that_can_be_dropped() {
    let curve: AzimuthCurve = std::array::from_fn(|minute| Some(1_000 + 10 * (minute as i64 - 700).abs()));
    let [first, turned, last] = [0, 700, MINUTES - 1].map(|minute| curve[minute].expect("an azimuth"));
    let bent = Proposal { minutes: &[0, 700, LAST], azimuths: &[first, turned, last] };
    let straight_value = |minute| value((0, first), (LAST, last), minute);
    let off = (0..).zip(curve.iter().flatten()).map(|(minute, &azimuth)| distance(straight_value(minute), azimuth));
    let straight = off.max().expect("minutes");
    assert_eq!(judge_against(&curve, bent, 0), Ok(()));
    assert_eq!([0, straight - 1, straight].map(|tolerance| is_needed(&curve, bent, tolerance, 1)), [true, true, false]);
    assert_eq!([straight - 1, straight].map(|tolerance| first_needless(&curve, bent, tolerance)), [None, Some(1)]);
    let minutes = [0, 300, 700, LAST];
    let too_many = Proposal { minutes: &minutes, azimuths: &[first, first - 3_000, turned, last] };
    assert_eq!(judge_against(&curve, too_many, 0), Ok(()));
    assert_eq!((first_needless(&curve, too_many, 0), is_needed(&curve, too_many, 0, 2)), (Some(1), true));
}

#[test]
fn a_point_between_opposite_ones_is_needed() {
    let proposal = Proposal { minutes: &[0, 700, LAST], azimuths: &[0, 9_000_000_000, HALF_TURN] };
    assert!(is_needed(&still(0), proposal, u64::MAX, 1));
    assert_eq!(first_needless(&still(0), proposal, u64::MAX), None);
    let beside = Proposal { azimuths: &[0, 9_000_000_000, HALF_TURN + 1], ..proposal };
    assert_eq!(first_needless(&still(0), beside, u64::MAX), Some(1));
}
