//! Days against their places one by one, rise and set by the sentence of document 02, and the order of refusals.

use raddlehue_reference::day::{MINUTES, THRESHOLD};
use raddlehue_reference::*;

const DATE: Date = Date { year: 2003, month: 10, day: 17, ut1: -347, delta_t: 67_183 };
const POINT: Point = Point { longitude: -1_051_786_000, latitude: 397_424_760, height: 1830 };
const BODIES: [Body; 2] = [Body::Sun, Body::Moon];

fn date(year: i64, month: i64, day: i64) -> Date {
    Date { year, month, day, ..DATE }
}

fn north(degrees: i64) -> Point {
    Point { longitude: 0, latitude: 10_000_000 * degrees, height: 0 }
}

fn worked(date: Date, body: Body, point: Point) -> ([i64; MINUTES], RiseSet) {
    let mut elevations = [0; MINUTES];
    let found = day(date, body, point, &mut elevations).unwrap();
    (elevations, found)
}

fn rise_set(date: Date, body: Body, point: Point) -> [Option<usize>; 2] {
    let found = worked(date, body, point).1;
    [found.rise, found.set]
}

/// The elevation that a request of its own has, or none where there is no such moment.
fn elevation_at([year, month, day]: [i64; 3], minute: usize, date: &Date, body: Body, point: Point) -> Option<i64> {
    let (hour, minute) = (minute as i64 / 60, minute as i64 % 60);
    let (ut1, delta_t) = (date.ut1, date.delta_t);
    let start = Start { year, month, day, hour, minute, second: 0, millisecond: 0, ut1, delta_t };
    place(start, body, point, Air::None).ok().map(|place| place.elevation)
}

/// The day before, by the calendar.
fn eve(date: &Date) -> [i64; 3] {
    let Date { year, month, day, .. } = *date;
    if day > 1 {
        return [year, month, day - 1];
    }
    let [year, month] = if month > 1 { [year, month - 1] } else { [year - 1, 12] };
    [year, month, (28..=31).rev().find(|&day| day_count(year, month, day).is_ok()).unwrap_or(31)]
}

/// A day worked minute by minute, each by a request of its own.
fn check_day(date: Date, body: Body, point: Point) {
    let own = [date.year, date.month, date.day];
    let (elevations, found) = worked(date, body, point);
    for (minute, &elevation) in elevations.iter().enumerate() {
        assert_eq!(elevation_at(own, minute, &date, body, point), Some(elevation), "{date:?} {body:?} {minute}");
    }
    let before = |minute: usize| match minute {
        0 => elevation_at(eve(&date), MINUTES - 1, &date, body, point),
        _ => Some(elevations[minute - 1]),
    };
    let is_rise = |&minute: &usize| elevations[minute] >= THRESHOLD && before(minute).is_some_and(|e| e < THRESHOLD);
    let is_set = |&minute: &usize| elevations[minute] < THRESHOLD && before(minute).is_some_and(|e| e >= THRESHOLD);
    let expected = RiseSet { rise: (0..MINUTES).find(is_rise), set: (0..MINUTES).find(is_set) };
    assert_eq!(found, expected, "{date:?} {body:?} {point:?}");
}

#[test]
fn a_day_is_its_places() {
    let corners = [(-900, -8_000_000), (900, 8_000_000), (-1, 67_183)];
    let dates = [[1900, 1, 1], [1900, 1, 2], [1900, 3, 1], [2000, 2, 29], [2000, 3, 1], [2001, 1, 1], [2100, 12, 31]];
    for ([year, month, day], (ut1, delta_t)) in dates.into_iter().zip(corners.into_iter().cycle()) {
        for body in BODIES {
            check_day(Date { year, month, day, ut1, delta_t }, body, POINT);
            check_day(Date { year, month, day, ut1, delta_t }, body, north(67));
        }
    }
}

/// A point where the Sun rises (or sets) at minute 0: a quarter degree further east it is a minute sooner.
fn crossing_at_0(date: Date, which: usize) -> Point {
    let mut point = north(40);
    for _ in 0..10 {
        match rise_set(date, Body::Sun, point)[which] {
            Some(0) => return point,
            minute => {
                let east = point.longitude + 2_500_000 * minute.map_or(-1, |minute| minute as i64);
                point.longitude = (east + 1_800_000_000).rem_euclid(3_600_000_000) - 1_800_000_000;
            }
        }
    }
    panic!("no point with a crossing at minute 0");
}

#[test]
fn minute_0_looks_to_the_eve() {
    for [year, month, day] in [[1900, 1, 2], [2000, 3, 1], [2001, 1, 1], [2100, 12, 31]] {
        for which in 0..2 {
            let date = date(year, month, day);
            check_day(date, Body::Sun, crossing_at_0(date, which));
        }
    }
}

/// Where the curve's first two minutes say that the body crossed in the minute before 0, minute 0 is no crossing.
#[test]
fn the_first_day_of_all_has_no_eve() {
    let first = date(1900, 1, 1);
    for (which, sign) in [(0, 1), (1, -1)] {
        let crossed = |point: &Point| {
            let (elevations, _) = worked(first, Body::Sun, *point);
            let [now, next] = [0, 1].map(|minute| sign * (elevations[minute] - THRESHOLD));
            now > 0 && 2 * now - next < 0
        };
        // the Sun crosses at almost the same minute of the next day
        let near = crossing_at_0(date(1900, 1, 2), which);
        let mut points = (-30..30).map(|step| Point { longitude: near.longitude + 100_000 * step, ..near });
        let point = points.find(crossed).expect("a point that crosses before minute 0");
        assert_ne!(rise_set(first, Body::Sun, point)[which], Some(0));
        check_day(first, Body::Sun, point);
    }
}

#[test]
fn polar_days_and_nights_say_so() {
    for (month, sign) in [(6, 1), (12, -1)] {
        for degrees in [68, 80, 89, 90, -68, -80, -89, -90] {
            let (elevations, found) = worked(date(2024, month, 21), Body::Sun, north(degrees));
            assert_eq!(found, RiseSet { rise: None, set: None }, "{month} {degrees}");
            let is_day = sign * degrees > 0;
            assert!(elevations.iter().all(|&elevation| (elevation >= THRESHOLD) == is_day), "{month} {degrees}");
        }
        assert!(rise_set(date(2024, month, 21), Body::Sun, north(60)).iter().all(Option::is_some));
    }
}

/// At the pole the Sun comes up once a year, and that day has no set; the Moon once a month.
#[test]
fn at_the_pole_one_crossing_is_alone() {
    for body in BODIES {
        let days = (1..=31).map(|day| rise_set(date(2024, 3, day), body, north(90)));
        let alone = |found: &[Option<usize>; 2]| found.iter().flatten().count() == 1;
        assert!(days.clone().any(|found| alone(&found)) && days.clone().any(|found| found == [None; 2]));
    }
}

/// The two longitudes, a unit apart, between which the Sun comes up at the minute.
fn between_down_and_up(elevation: impl Fn(Point) -> i64) -> [Point; 2] {
    let at = |longitude| Point { longitude, ..north(40) };
    let (mut down, mut up) = (-3_000_000, 0);
    assert!(elevation(at(down)) < THRESHOLD && elevation(at(up)) >= THRESHOLD);
    while up - down > 1 {
        let middle = (down + up) / 2;
        *if elevation(at(middle)) < THRESHOLD { &mut down } else { &mut up } = middle;
    }
    [at(down), at(up)]
}

/// The arctangent has no elevation at the threshold itself (the steps' signed sums pass it by): those next to it are
/// 3 units above and 19 units below.
#[test]
fn next_to_the_threshold() {
    let date = date(2024, 6, 20);
    let minute = rise_set(date, Body::Sun, north(40))[0].unwrap();
    let own = [date.year, date.month, date.day];
    let elevation = |point| elevation_at(own, minute, &date, Body::Sun, point).unwrap();
    let [down, up] = between_down_and_up(elevation);
    assert_eq!([down, up].map(elevation), [THRESHOLD - 19, THRESHOLD + 3]);
    assert_eq!([down, up].map(|point| rise_set(date, Body::Sun, point)[0]), [Some(minute + 1), Some(minute)]);
}

/// A date and a point with the numbers from the given refusal on set far out of bounds.
fn wrong_from(number: u8, far: i64) -> (Date, Point) {
    let pick = |at: u8, good: i64| if at >= number { far } else { good };
    let date =
        Date { year: pick(1, 2003), month: pick(2, 10), day: pick(3, 17), ut1: pick(5, 0), delta_t: pick(6, 67_000) };
    (date, Point { longitude: pick(7, 0), latitude: pick(8, 0), height: pick(9, 0) })
}

/// 1 to 3, then 5 to 9; never 4, since a date has no clock. A refused day leaves the array alone.
#[test]
fn the_first_refusal_is_given() {
    for far in [i64::MIN, -3_000_000_000, 3_000_000_000, i64::MAX] {
        for body in BODIES {
            for number in [1, 2, 3, 5, 6, 7, 8, 9] {
                let (date, point) = wrong_from(number, far);
                let mut elevations = [-7; MINUTES];
                assert_eq!(day(date, body, point, &mut elevations), Err(number));
                assert_eq!(elevations, [-7; MINUTES]);
            }
        }
    }
}

#[test]
fn the_edges_of_the_refusals() {
    type Change = fn(&mut Date, &mut Point, i64);
    let edges: [(u8, i64, i64, Change); 8] = [
        (1, 1900, 2100, |date, _, to| date.year = to),
        (2, 1, 12, |date, _, to| date.month = to),
        (3, 1, 31, |date, _, to| date.day = to),
        (5, -900, 900, |date, _, to| date.ut1 = to),
        (6, -8_000_000, 8_000_000, |date, _, to| date.delta_t = to),
        (7, -1_800_000_000, 1_800_000_000, |_, point, to| point.longitude = to),
        (8, -900_000_000, 900_000_000, |_, point, to| point.latitude = to),
        (9, -500, 9_000, |_, point, to| point.height = to),
    ];
    let ask = |change: Change, to| {
        let (mut date, mut point) = (DATE, POINT);
        change(&mut date, &mut point, to);
        day(date, Body::Moon, point, &mut [0; MINUTES]).err()
    };
    for (number, first, last, change) in edges {
        assert_eq!([ask(change, first), ask(change, last)], [None; 2], "{number}");
        assert_eq!([ask(change, first - 1), ask(change, last + 1)], [Some(number); 2], "{number}");
    }
}
