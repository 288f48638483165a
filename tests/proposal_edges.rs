// Every sentence on a short strip (02, Item 7) at its edges, through the archive: each refusal with what is just inside and just outside of it, any two at once, lists of every length
// that matters, each tolerance that is just wide enough and just not, and days without a plan. A refused call writes nothing but the minute of 31. The days' azimuths are the archive's
// own places, minute by minute.
mod archive;
use archive::*;

const TURN: i64 = 36_000_000_000;
const HALF_TURN: i64 = TURN / 2;
const LAST: u32 = MINUTES as u32 - 1;

// A day of the south, where the Sun runs backward round the sky, one of the north, one of the tropics, where it turns about, and a pole.
const DAYS: [[i64; 8]; 4] = [
    [2024, 2, 29, -300, 69_200, 1_122_334_455, -455_443_322, 120],
    [2003, 10, 17, 0, 67_000, -1_051_786_000, 397_424_760, 1830],
    [2024, 6, 20, 0, 69_200, 10_000_000, 100_000_000, 0],
    [2100, 12, 31, 900, 8_000_000, -1_800_000_000, -900_000_000, -500],
];
const GOOD: [i64; 8] = DAYS[0];

// Minute 0 of the first day straight below the Sun (tests/vectors/overhead.txt).
const OVERHEAD: [i64; 8] = [1900, 1, 1, -900, -7_999_900, -1_792_408_461, -230_700_717, -500];

// Minutes 0 and 1 of the first are exactly opposite, the Sun going through the zenith between them, and 1438 and 1439 of the second, where it is the Moon.
const OPPOSITE_SUN: [i64; 8] = [1903, 2, 22, -200, 146_600, -1_766_616_997, -106_962_078, 5696];
const OPPOSITE_MOON: [i64; 8] = [2062, 3, 15, 900, 156_100, -1_207_228_161, 234_905_762, 2726];

// ---- a day and proposals for it

fn curve(numbers: &[i64; 8], body: u32) -> Vec<Option<i64>> {
    let azimuth = |minute| {
        let (refusal, seen) = place(&at_minute(numbers, minute), body, NO_AIR);
        assert_eq!(refusal, 0, "{numbers:?}");
        (seen.has_azimuth == 1).then_some(seen.numbers[0])
    };
    (0..MINUTES).map(azimuth).collect()
}

fn reduced(azimuth: i64) -> i64 {
    azimuth.rem_euclid(TURN)
}

// The day's own azimuths at these minutes.
fn along(curve: &[Option<i64>], minutes: &[u32]) -> Vec<i64> {
    minutes.iter().map(|minute| curve[*minute as usize].expect("an azimuth")).collect()
}

fn all_minutes() -> Vec<u32> {
    (0..=LAST).collect()
}

fn distance(one: i64, other: i64) -> i64 {
    reduced(one - other).min(reduced(other - one))
}

// What a proposal has at a minute, the short way found among all three.
fn value(minutes: &[u32], azimuths: &[i64], minute: u32) -> i64 {
    let at = minutes.iter().rposition(|point| *point <= minute).expect("a point");
    if minutes[at] == minute {
        return azimuths[at];
    }
    let ways = [-TURN, 0, TURN].map(|turn| azimuths[at + 1] - azimuths[at] + turn);
    let way = ways.into_iter().min_by_key(|way| way.abs()).expect("a way");
    let [gone, whole] = [minute, minutes[at + 1]].map(|end| i64::from(end - minutes[at]));
    reduced(azimuths[at] + (way * gone).div_euclid(whole))
}

// ---- the tolerance

// Accepted at the greatest distance of all minutes, and a unit below it refused with the first of the minutes that are so far.
fn edge(numbers: &[i64; 8], body: u32, curve: &[Option<i64>], minutes: &[u32], azimuths: &[i64]) {
    let of = |minute: u32| curve[minute as usize].map_or(0, |azimuth| distance(value(minutes, azimuths, minute), azimuth));
    let farthest = (0..=LAST).map(of).max().expect("minutes") as u64;
    let input = (numbers, body, farthest, minutes);
    assert_eq!(judge(numbers, body, farthest, minutes, azimuths), (0, UNWRITTEN_MINUTE), "{input:?}");
    if let Some(below) = farthest.checked_sub(1) {
        let first = (0..=LAST).find(|minute| of(*minute) as u64 == farthest).expect("one");
        assert_eq!(judge(numbers, body, below, minutes, azimuths), (31, first), "{input:?}");
    }
}

// Few points, many, all, all but one: the day's own, and these moved.
fn tolerances() {
    for (numbers, body) in DAYS.iter().flat_map(|numbers| [(numbers, SUN), (numbers, MOON)]) {
        let curve = curve(numbers, body);
        let every = |step: usize| (0..LAST).step_by(step).chain([LAST]).collect::<Vec<u32>>();
        for minutes in [every(1), every(2), every(10), every(97), every(720), every(1439)] {
            edge(numbers, body, &curve, &minutes, &along(&curve, &minutes));
        }
        for dropped in [1, 2, 3, 360, 361, 719, 720, 1080, 1437, 1438] {
            let mut minutes = all_minutes();
            minutes.remove(dropped);
            edge(numbers, body, &curve, &minutes, &along(&curve, &minutes));
        }
        moved(numbers, body, &curve);
    }
}

// Every minute, one of them moved: it is the only one that is out. Half a turn is the farthest there is.
fn moved(numbers: &[i64; 8], body: u32, curve: &[Option<i64>]) {
    let minutes = all_minutes();
    for (minute, by) in [(0, 1), (1, -1), (700, 5), (1437, -1_000_000), (1438, HALF_TURN), (1439, 1), (1439, -1), (1439, 1 - HALF_TURN)] {
        let mut azimuths = along(curve, &minutes);
        azimuths[minute] = reduced(azimuths[minute] + by);
        let tolerance = by.unsigned_abs();
        assert_eq!(judge(numbers, body, tolerance, &minutes, &azimuths), (0, UNWRITTEN_MINUTE), "{minute} {by}");
        assert_eq!(judge(numbers, body, tolerance - 1, &minutes, &azimuths), (31, minute as u32), "{minute} {by}");
        assert_eq!(judge(numbers, body, 0, &minutes, &azimuths), (31, minute as u32), "{minute} {by}");
    }
}

// Any number is a tolerance: from half a turn on all is within it.
fn wide_tolerances() {
    let curve = curve(&GOOD, SUN);
    let minutes = [0, LAST];
    for by in [HALF_TURN, HALF_TURN - 1, 9_000_000_000] {
        let azimuths = along(&curve, &minutes).iter().map(|azimuth| reduced(azimuth + by)).collect::<Vec<_>>();
        for tolerance in [HALF_TURN as u64, HALF_TURN as u64 + 1, TURN as u64, i64::MAX as u64, 1 << 63, u64::MAX - 1, u64::MAX] {
            assert_eq!(judge(&GOOD, SUN, tolerance, &minutes, &azimuths), (0, UNWRITTEN_MINUTE), "{by} {tolerance}");
        }
    }
    // a tolerance of more than 32 bits, whose lower ones are zero
    let azimuths: Vec<i64> = curve.iter().flatten().map(|azimuth| reduced(azimuth + 7)).collect();
    assert_eq!(judge(&GOOD, SUN, 1 << 32, &all_minutes(), &azimuths), (0, UNWRITTEN_MINUTE));
    assert_eq!(judge(&GOOD, SUN, 1 << 34, &all_minutes(), &azimuths), (0, UNWRITTEN_MINUTE));
}

// ---- 29 and 30

// Points whose first azimuth is out of tolerance: what is well-formed is refused by 31 at minute 0, which costs a single place.
fn well_formed(minutes: &[u32], azimuths: &[i64]) {
    assert_eq!(judge(&GOOD, SUN, 0, minutes, azimuths), (31, 0), "{minutes:?} {azimuths:?}");
}

fn refused(minutes: &[u32], azimuths: &[i64], refusal: u32) {
    for tolerance in [0, u64::MAX] {
        assert_eq!(judge(&GOOD, SUN, tolerance, minutes, azimuths), (refusal, UNWRITTEN_MINUTE), "{minutes:?} {azimuths:?}");
    }
}

// As many points, rising from 0 to the last minute where they can.
fn rising(count: usize) -> Vec<u32> {
    let mut minutes: Vec<u32> = (0..count as u32).collect();
    if let Some(last) = minutes.last_mut() {
        *last = LAST;
    }
    minutes
}

fn lengths() {
    let counts = [0, 1, 2, 3, 1439, 1440, 1441, 1442, 65_536 + 2];
    for (minute_count, azimuth_count) in counts.iter().flat_map(|one| counts.map(|other| (*one, other))) {
        let (minutes, azimuths) = (rising(minute_count), vec![1; azimuth_count]);
        if minute_count == azimuth_count && (2..=1440).contains(&minute_count) {
            well_formed(&minutes, &azimuths);
        } else {
            refused(&minutes, &azimuths, 29);
        }
    }
    refused(&[0], &[1], 29);
    refused(&[LAST], &[1], 29);
    let beyond: Vec<u32> = (0..=LAST + 1).collect();
    refused(&beyond, &[1; MINUTES + 1], 29);
    let twice: Vec<u32> = (0..=LAST).chain([LAST]).collect();
    refused(&twice, &[1; MINUTES + 1], 29);
}

fn minutes_at_edges() {
    for minute in 0..=LAST + 300 {
        let three = [0, minute, LAST];
        if (1..LAST).contains(&minute) {
            well_formed(&three, &[1; 3]);
        } else {
            refused(&three, &[1; 3], 29);
        }
        if minute != 0 {
            refused(&[minute, LAST], &[1; 2], 29);
        }
        if minute != LAST {
            refused(&[0, minute], &[1; 2], 29);
        }
    }
    for far in [65_536, 65_536 + 700, 1 << 31, (1 << 31) + 700, u32::MAX - 1, u32::MAX] {
        refused(&[0, far, LAST], &[1; 3], 29);
        refused(&[far, LAST], &[1; 2], 29);
        refused(&[0, far], &[1; 2], 29);
        refused(&[0, 700, far, LAST], &[1; 4], 29);
    }
    // equal and exchanged neighbours, at every place
    for at in 0..MINUTES - 1 {
        let mut minutes = all_minutes();
        minutes[at + 1] = minutes[at];
        refused(&minutes, &[1; MINUTES], 29);
        let mut minutes = all_minutes();
        minutes.swap(at, at + 1);
        refused(&minutes, &[1; MINUTES], 29);
    }
}

fn azimuths_at_edges() {
    let inside = [0, 1, HALF_TURN, TURN - 1];
    let outside = [TURN, TURN + 1, -1, -TURN, 2 * TURN, 1 << 36, NO_DIRECTION, i64::MAX - 1, i64::MIN, i64::MIN + 1];
    for (at, azimuth) in (0..4).flat_map(|at| inside.map(|azimuth| (at, azimuth))) {
        let mut azimuths = [azimuth / 2 + 3; 4];
        azimuths[at] = azimuth;
        well_formed(&[0, 5, 700, LAST], &azimuths);
    }
    for (at, azimuth) in (0..MINUTES).flat_map(|at| outside.map(|azimuth| (at, azimuth))) {
        let mut azimuths = [1; MINUTES];
        azimuths[at] = azimuth;
        refused(&all_minutes(), &azimuths, 29);
    }
}

// Half a turn between neighbours, both ways and at every place; a unit beside it, and between others, it is nothing.
fn opposites() {
    for (one, other) in [(1, 1 + HALF_TURN), (1 + HALF_TURN, 1), (0, HALF_TURN), (HALF_TURN - 1, TURN - 1)] {
        for at in 1..MINUTES {
            let mut azimuths = vec![one; MINUTES];
            azimuths[at..].fill(other);
            refused(&all_minutes(), &azimuths, 30);
            for beside in [-1, 1] {
                azimuths[at..].fill(reduced(other + beside));
                well_formed(&all_minutes(), &azimuths);
            }
        }
        refused(&[0, LAST], &[one, other], 30);
        well_formed(&[0, 9, LAST], &[one, reduced(one + 5), other]);
        well_formed(&[0, 9, 11, LAST], &[one, reduced(one + 7), reduced(one + 9), other]);
    }
}

// ---- the order

struct Handed {
    numbers: [i64; 8],
    body: u32,
    tolerance: u64,
    minutes: Vec<u32>,
    azimuths: Vec<i64>,
}

type Spoil = (u32, fn(&mut Handed));

// What spoils a request, in the order in which it is looked for.
const REQUEST_SPOILS: [Spoil; 9] = [
    (101, |handed| handed.body = 2),
    (1, |handed| handed.numbers[0] = 1899),
    (2, |handed| handed.numbers[1] = 13),
    (3, |handed| handed.numbers[2] = 32),
    (5, |handed| handed.numbers[3] = -901),
    (6, |handed| handed.numbers[4] = 8_000_001),
    (7, |handed| handed.numbers[5] = -1_800_000_001),
    (8, |handed| handed.numbers[6] = 900_000_001),
    (9, |handed| handed.numbers[7] = 9_001),
];

const POINT_SPOILS: [Spoil; 8] = [
    (29, |handed| handed.minutes[0] = 1),
    (29, |handed| handed.minutes[3] = LAST - 1),
    (29, |handed| handed.minutes.swap(1, 2)),
    (29, |handed| handed.minutes.push(LAST)),
    (29, |handed| handed.azimuths.push(0)),
    (29, |handed| handed.azimuths[3] = TURN),
    (30, |handed| handed.azimuths[2] = reduced(handed.azimuths[1] + HALF_TURN)),
    (31, |handed| handed.tolerance = 0),
];

// The verdict; of the good day it is 31 at minute 0 where the tolerance is 0.
fn not_accepted(handed: &Handed, refusal: u32) {
    let Handed { numbers, body, tolerance, minutes, azimuths } = handed;
    let told = if refusal == 31 { 0 } else { UNWRITTEN_MINUTE };
    assert_eq!(judge(numbers, *body, *tolerance, minutes, azimuths), (refusal, told), "{numbers:?} {body} {minutes:?} {azimuths:?}");
}

fn not_planned(handed: &Handed, refusal: u32) {
    let Handed { numbers, body, tolerance, .. } = handed;
    let (given, left) = plan(numbers, *body, *tolerance);
    assert_eq!(given, refusal, "{numbers:?} {body}");
    assert!(left == UNWRITTEN_PLAN, "{numbers:?} {body}: written to, and refused");
}

// Each by itself, two at once, and all from one on: the first is given.
fn first_of(spoils: &[Spoil], fresh: impl Fn() -> Handed, refused: impl Fn(&Handed, u32)) {
    let spoilt = |spoils: &[&Spoil], refusal| {
        let mut handed = fresh();
        for (_, spoil) in spoils {
            spoil(&mut handed);
        }
        refused(&handed, refusal);
    };
    for (first, one) in spoils.iter().enumerate() {
        spoilt(&[one], one.0);
        let later = &spoils[first + 1..];
        for other in later {
            spoilt(&[other, one], one.0);
        }
        let all: Vec<&Spoil> = later.iter().rev().chain([one]).collect();
        spoilt(&all, one.0);
    }
}

fn order() {
    let curve = curve(&GOOD, SUN);
    let minutes = [0, 300, 900, LAST];
    // moved, so that it is out of a tolerance of 0 from the first minute on
    let azimuths: Vec<i64> = along(&curve, &minutes).iter().map(|azimuth| reduced(azimuth + 1)).collect();
    let handed = || Handed { numbers: GOOD, body: SUN, tolerance: u64::MAX, minutes: minutes.to_vec(), azimuths: azimuths.clone() };
    not_accepted(&handed(), 0);
    first_of(&[&REQUEST_SPOILS[..], &POINT_SPOILS[..]].concat(), handed, not_accepted);
    // no plan comes last
    for (numbers, body) in [(OVERHEAD, SUN), (OPPOSITE_SUN, SUN), (OPPOSITE_MOON, MOON)] {
        let handed = || Handed { numbers, body, tolerance: 500, minutes: vec![], azimuths: vec![] };
        not_planned(&handed(), 107);
        first_of(&REQUEST_SPOILS, handed, not_planned);
    }
}

// The least and the greatest number in each field, and codes that are none.
fn requests() {
    let day_of = |[year, month, day, _, _, _, _, ut1, delta_t, longitude, latitude, height]: [i64; 12]| [year, month, day, ut1, delta_t, longitude, latitude, height];
    let wrong = wrong_requests().into_iter().filter(|(_, refusal)| *refusal != 4);
    let mut requests: Vec<([i64; 8], u32, u32)> = wrong.flat_map(|(request, refusal)| [SUN, MOON].map(|body| (day_of(request), body, refusal))).collect();
    for body in [2, 3, 256, 1 << 31, u32::MAX] {
        requests.extend([(GOOD, body, 101), ([i64::MIN; 8], body, 101)]);
    }
    for (numbers, body, refusal) in requests {
        for (minutes, azimuths) in [(vec![], vec![]), (vec![0, LAST], vec![1, 1]), (vec![9], vec![i64::MIN, 0])] {
            let handed = Handed { numbers, body, tolerance: 0, minutes, azimuths };
            not_accepted(&handed, refusal);
            not_planned(&handed, refusal);
        }
    }
}

// ---- days without a plan

// A minute without an azimuth isn't compared, whatever is proposed there; both its neighbours are.
fn absent() {
    let curve = curve(&OVERHEAD, SUN);
    assert_eq!((curve[0], curve.iter().flatten().count()), (None, MINUTES - 1));
    for stand_in in [0, 1, 9_000_000_000, HALF_TURN, TURN - 1] {
        let mut azimuths: Vec<i64> = curve.iter().map(|azimuth| azimuth.unwrap_or(stand_in)).collect();
        assert_eq!(judge(&OVERHEAD, SUN, 0, &all_minutes(), &azimuths), (0, UNWRITTEN_MINUTE), "{stand_in}");
        azimuths[1] = reduced(azimuths[1] + 1);
        assert_eq!(judge(&OVERHEAD, SUN, 0, &all_minutes(), &azimuths), (31, 1), "{stand_in}");
    }
    let azimuths: Vec<i64> = curve.iter().map(|azimuth| azimuth.unwrap_or(TURN)).collect();
    assert_eq!(judge(&OVERHEAD, SUN, 0, &all_minutes(), &azimuths), (29, UNWRITTEN_MINUTE));
}

// Opposite minutes that are adjacent leave no plan; a unit of latitude beside they are not opposite.
fn adjacent_opposites() {
    for (numbers, body, at) in [(OPPOSITE_SUN, SUN, 0), (OPPOSITE_MOON, MOON, 1438)] {
        let curve = along(&curve(&numbers, body), &all_minutes());
        assert_eq!(distance(curve[at], curve[at + 1]), HALF_TURN);
        assert_eq!(judge(&numbers, body, 0, &all_minutes(), &curve), (30, UNWRITTEN_MINUTE));
        for tolerance in [0, 500, HALF_TURN as u64, u64::MAX] {
            assert!(plan(&numbers, body, tolerance) == (107, UNWRITTEN_PLAN), "{numbers:?} {tolerance}");
        }
        for by in [-1, 1] {
            let mut beside = numbers;
            beside[6] += by;
            planned(&beside, body, &[0, 1_000_000, HALF_TURN as u64]);
        }
    }
}

// ---- plans

// Two points at least, well-formed and accepted; what is behind them was left alone.
fn planned(numbers: &[i64; 8], body: u32, tolerances: &[u64]) {
    for &tolerance in tolerances {
        let (refusal, plan) = plan(numbers, body, tolerance);
        assert_eq!(refusal, 0, "{numbers:?} {body} {tolerance}");
        let (minutes, azimuths) = plan.points();
        assert_eq!(judge(numbers, body, tolerance, minutes, azimuths), (0, UNWRITTEN_MINUTE), "{numbers:?} {body} {tolerance}");
        needed(numbers, body, tolerance, minutes, azimuths);
    }
}

// Some of the inner points, the first and the last of them among these.
fn needed(numbers: &[i64; 8], body: u32, tolerance: u64, minutes: &[u32], azimuths: &[i64]) {
    let last = minutes.len() - 1;
    for dropped in (1..last).filter(|at| *at < 3 || *at + 2 > last || at % 97 == 0) {
        let (mut minutes, mut azimuths) = (minutes.to_vec(), azimuths.to_vec());
        minutes.remove(dropped);
        azimuths.remove(dropped);
        let (refusal, _) = judge(numbers, body, tolerance, &minutes, &azimuths);
        assert!(matches!(refusal, 30 | 31), "{numbers:?} {body} {tolerance}: point {dropped} is needless");
    }
}

fn plans() {
    let tolerances = [0, 1, 500, 1_000_000, 100_000_000, HALF_TURN as u64 - 1, HALF_TURN as u64, u64::MAX];
    for (numbers, body) in DAYS.iter().flat_map(|numbers| [(numbers, SUN), (numbers, MOON)]) {
        planned(numbers, body, &tolerances);
    }
}

fn main() {
    tolerances();
    wide_tolerances();
    lengths();
    minutes_at_edges();
    azimuths_at_edges();
    opposites();
    order();
    requests();
    absent();
    adjacent_opposites();
    plans();
    println!("proposal_edges: each refusal of a proposal, inside and outside of its edges, and any two at once; days without a plan, and plans");
}
