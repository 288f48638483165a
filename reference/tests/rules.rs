//! The rules' cases by hand, the reports' own examples, the order of refusals, and inputs of any size.

use raddlehue_reference::instant::{Instant, Time};
use raddlehue_reference::moon::arguments;
use raddlehue_reference::*;

const START: Start =
    Start { year: 2003, month: 10, day: 17, hour: 19, minute: 30, second: 30, millisecond: 0, ut1: 0, delta_t: 67_000 };
const POINT: Point = Point { longitude: -1_051_786_000, latitude: 397_424_760, height: 1830 };

#[test]
fn cases_by_hand() {
    assert_eq!(day_count(1900, 1, 1), Ok(-36_524));
    assert_eq!(day_count(2100, 12, 31), Ok(36_889));
    assert_eq!(day_count(2000, 2, 29), Ok(59));
    assert_eq!(day_count(1900, 2, 29), Err(3));
    assert_eq!(arguments(&Time::new(0))[0], 21_831_644_770);
    assert_eq!(arguments(&Time::new(86_400_000))[0], 23_149_284_417);
    assert_eq!(mean_sidereal(-86_400_000), 27_947_497_100);
    assert_eq!(sine(3_000_000_000), 500_000_000);
    assert_eq!(sine(27_000_000_000), -1_000_000_000);
    assert_eq!(sine(8_999_869_268), 1_000_000_001);
    assert_eq!(middle(35_990_000_000, 10_000_000), Ok(0));
    assert_eq!(middle(10, 13), Ok(11));
    assert_eq!(middle(0, 18_000_000_000), Err(14));
    assert_eq!(middle(36_000_000_000, 0), Err(15));
}

#[test]
fn the_days_run_on() {
    let mut expected = -36_524;
    for year in 1900..=2100 {
        for month in 1..=12 {
            for day in 1..=31 {
                match day_count(year, month, day) {
                    Ok(days) => {
                        assert_eq!(days, expected);
                        expected += 1;
                    }
                    Err(number) => assert!(number == 3 && day > 28),
                }
            }
        }
    }
    assert_eq!(expected, 36_890);
}

#[test]
fn the_sheet_of_the_rules() {
    let input = b"2000 1 2 12 0 0 0 0 0\n2100 2 29 0 0 0 0 0 0";
    assert_eq!(sheet(input), "TT LPRIME GMST\n86400000 23149284417 28144626573\nrefused 3\n");
    assert_eq!(sheet(b""), "TT LPRIME GMST\n");
    assert_eq!(sheet(b"\n"), "TT LPRIME GMST\nrefused 16\n");
}

/// The seventh to ninth number, and the first that is answered.
#[test]
fn the_sheet_counts_milliseconds() {
    assert_eq!(sheet_line(b"2000 1 1 12 0 0 1 20 300"), "321 21831649665 28046070610");
    let edges = ["999 -900 -8000000", "999 900 8000000", "1000 901 8000001", "999 901 8000001", "999 900 8000001"];
    let answers = edges.map(|edge| sheet_line(format!("2000 1 1 12 0 0 {edge}").as_bytes()));
    assert!(answers[0].starts_with("-7999901 ") && answers[1].starts_with("8001899 "), "{answers:?}");
    assert_eq!(answers[2..], ["refused 4", "refused 5", "refused 6"]);
    assert_eq!(sheet_line(b"2000 1 1 12 0 0 999 -901 -8000001"), "refused 5");
    assert_eq!(sheet_line(b"2000 1 1 12 0 0 999 -900 -8000001"), "refused 6");
}

#[test]
fn lines_of_another_form() {
    let good = "2000 1 2 12 0 0 0 0 0";
    assert_eq!(sheet_line(good.as_bytes()), "86400000 23149284417 28144626573");
    assert_eq!(sheet_line(b"000002000 01 02 12 -0 00 0 0 -000000000"), "86400000 23149284417 28144626573");
    for line in [
        "",
        " ",
        "2000 1 2 12 0 0 0 0",
        "2000 1 2 12 0 0 0 0 0 0",
        " 2000 1 2 12 0 0 0 0 0",
        "2000 1 2 12 0 0 0 0 0 ",
        "2000 1  2 12 0 0 0 0 0",
        "2000\t1 2 12 0 0 0 0 0",
        "2000 1 2 12 0 0 0 0 0\r",
        "2000 1 2 12 0 0 0 0 +0",
        "2000 1 2 12 0 0 0 0 -",
        "2000 1 2 12 0 0 0 0 --0",
        "2000 1 2 12 0 0 0 0 0000000000",
        "2000 1 2 12 0 0 0 0 0.0",
    ] {
        assert_eq!(sheet_line(line.as_bytes()), "refused 16", "{line:?}");
    }
    let long = format!("000002000 {}1", "000000001 ".repeat(7));
    assert_eq!(long.len(), 81);
    assert_eq!(sheet_line(long.as_bytes()), "refused 16");
    assert_eq!(sheet_line(&long.as_bytes()[1..]), sheet_line(b"2000 1 1 1 1 1 1 1 1"));
}

/// Report 004, Table A5.1: 820 mbar, 11 °C, zenith angle 50.11162°, azimuth 194.34024°, uncertainty 0.0003°.
#[test]
fn example_of_the_solar_report() {
    let shown = shown_place(START, Body::Sun, POINT, Air::Measured(820.0, 11.0)).unwrap();
    assert!((90.0 - shown.elevation - 50.11162).abs() < 0.0003, "{shown:?}");
    assert!((shown.azimuth.unwrap() - 194.34024).abs() < 0.0003, "{shown:?}");
    let tt = Instant::new(&START).unwrap().tt;
    let nutation = nutation(tt);
    assert!((nutation.longitude + 399_840).abs() <= 1 && (nutation.obliquity - 166_657).abs() <= 1, "{nutation:?}");
}

/// Report 003, Table A.1.2: λ, β, Δ and both azimuths. Its zenith angles do not follow from its own equations.
#[test]
fn example_of_the_lunar_report() {
    let start = Start { year: 2009, month: 7, day: 22, hour: 1, minute: 33, second: 0, delta_t: 66_400, ..START };
    let point = Point { longitude: 1_433_616_700, latitude: 246_116_700, height: 0 };
    let tt = Instant::new(&start).unwrap().tt;
    let moon = moon(tt);
    // The printed longitude holds the nutation, about 0.00444 degree.
    let longitude = (moon.longitude + nutation(tt).longitude) as f64 / 1e8;
    assert!((longitude - 118.7934477).abs() < 1e-5, "{longitude}");
    assert!((moon.latitude as f64 / 1e8 - 0.131573).abs() < 1e-6, "{moon:?}");
    assert!((moon.metres as f64 / 1e3 - 357_514.122).abs() < 0.02, "{moon:?}");
    let air = Air::Measured(1000.0, 11.0);
    let azimuth = |body| shown_place(start, body, point, air).unwrap().azimuth.unwrap();
    assert!((azimuth(Body::Sun) - 104.38792).abs() < 0.0003, "{}", azimuth(Body::Sun));
    assert!((azimuth(Body::Moon) - 104.19314).abs() < 0.003, "{}", azimuth(Body::Moon));
}

/// A start, point and air with the fields from the given one on set far out of bounds.
fn wrong_from(number: usize, far: i64) -> (Start, Point, Air) {
    let pick = |at: usize, good: i64| if at >= number { far } else { good };
    let start = Start {
        year: pick(1, 2003),
        month: pick(2, 10),
        day: pick(3, 17),
        hour: pick(4, 19),
        minute: pick(4, 30),
        second: pick(4, 30),
        millisecond: pick(4, 0),
        ut1: pick(5, 0),
        delta_t: pick(6, 67_000),
    };
    let point = Point { longitude: pick(7, 0), latitude: pick(8, 0), height: pick(9, 0) };
    let pressure = if number <= 10 { f64::NAN } else { 1000.0 };
    let temperature = if number <= 11 { f64::INFINITY } else { 11.0 };
    (start, point, Air::Measured(pressure, temperature))
}

#[test]
fn the_first_refusal_is_given() {
    for far in [i64::MIN, i64::MIN + 1, -3_000_000_000, 3_000_000_000, i64::MAX - 1, i64::MAX] {
        for body in [Body::Sun, Body::Moon] {
            for number in 1..=11 {
                let (start, point, air) = wrong_from(number, far);
                assert_eq!(place(start, body, point, air), Err(number as u8));
                assert_eq!(shown_place(start, body, point, air), Err(number as u8));
                let expected = if number <= 9 { number as u8 } else { 12 };
                assert_eq!(batch(start, body, point, &[0], &mut [], &mut [0]), Err((expected, 0)));
            }
        }
    }
}

#[test]
fn the_edges_of_the_refusals() {
    type Change = fn(&mut Start, &mut Point, i64);
    let edges: [(u8, i64, i64, Change); 11] = [
        (1, 1900, 2100, |start, _, to| start.year = to),
        (2, 1, 12, |start, _, to| start.month = to),
        (3, 1, 31, |start, _, to| start.day = to),
        (4, 0, 23, |start, _, to| start.hour = to),
        (4, 0, 59, |start, _, to| start.minute = to),
        (4, 0, 59, |start, _, to| start.second = to),
        (4, 0, 999, |start, _, to| start.millisecond = to),
        (5, -900, 900, |start, _, to| start.ut1 = to),
        (6, -8_000_000, 8_000_000, |start, _, to| start.delta_t = to),
        (7, -1_800_000_000, 1_800_000_000, |_, point, to| point.longitude = to),
        (8, -900_000_000, 900_000_000, |_, point, to| point.latitude = to),
    ];
    let ask = |change: Change, to| {
        let (mut start, mut point) = (START, POINT);
        change(&mut start, &mut point, to);
        place(start, Body::Moon, point, Air::None).err()
    };
    for (number, first, last, change) in edges {
        assert_eq!([ask(change, first), ask(change, last)], [None; 2], "{number}");
        assert_eq!([ask(change, first - 1), ask(change, last + 1)], [Some(number); 2], "{number}");
    }
    let height: Change = |_, point, to| point.height = to;
    assert_eq!([-501, -500, 9_000, 9_001].map(|to| ask(height, to)), [Some(9), None, None, Some(9)]);
}

#[test]
fn the_edges_of_the_air() {
    let ask = |pressure, temperature| place(START, Body::Sun, POINT, Air::Measured(pressure, temperature)).err();
    for pressure in [-0.0, 0.0, f64::MIN_POSITIVE, 1200.0] {
        assert_eq!(ask(pressure, -80.0), None);
        assert_eq!(ask(pressure, 80.0), None);
    }
    for pressure in [f64::NAN, f64::INFINITY, f64::NEG_INFINITY, -f64::MIN_POSITIVE, 1200.0f64.next_up()] {
        assert_eq!(ask(pressure, f64::NAN), Some(10));
    }
    for temperature in [f64::NAN, f64::INFINITY, f64::NEG_INFINITY, 80.0f64.next_up(), (-80.0f64).next_down()] {
        assert_eq!(ask(0.0, temperature), Some(11));
    }
}

#[test]
fn any_number_is_taken_by_the_leaves() {
    let ends = [i64::MIN, i64::MIN + 1, -1, 0, 1, i64::MAX - 1, i64::MAX];
    for a in ends {
        for b in ends {
            let expected = if (0..=1).contains(&a) && (0..=1).contains(&b) { Ok(a.min(b)) } else { Err(15) };
            assert_eq!(middle(a, b), expected);
            for c in ends {
                assert!(day_count(a, b, c).is_err());
            }
        }
        let _ = refraction(a, Air::Measured(1010.0, 10.0));
    }
}

#[test]
fn no_pressure_no_refraction() {
    for elevation in (-9_000_000_000..=9_000_000_000).step_by(1_234_567) {
        assert_eq!(refraction(elevation, Air::Measured(0.0, -40.0)), 0.0);
    }
}

#[test]
fn refraction_begins_at_the_lowest_rim() {
    for air in [Air::Measured(1010.0, 10.0), Air::Measured(1.0, 80.0), Air::Measured(1200.0, -80.0)] {
        assert!(refraction(-83_337_000, air) > 0.0);
        for below in [-83_337_001, -511_000_000, -9_000_000_000] {
            assert_eq!(refraction(below, air).to_bits(), 0);
        }
    }
    assert_eq!(refraction(-83_337_000, Air::None).to_bits(), 0);
}

#[test]
fn a_batch_is_its_places() {
    let start = Start { month: 12, millisecond: 987, ..START };
    let offsets = [0, 1, 99, 59_999, 3_600_000, 86_400_000, u32::MAX, 7];
    for body in [Body::Sun, Body::Moon] {
        let (mut azimuths, mut elevations) = ([-7; 9], [-8; 10]);
        let count = batch(start, body, POINT, &offsets, &mut azimuths, &mut elevations);
        assert_eq!(count, Ok(offsets.len()));
        for (i, &offset) in offsets.iter().enumerate() {
            let expected = place(later(start, offset), body, POINT, Air::None).unwrap();
            assert_eq!((Some(azimuths[i]), elevations[i]), (expected.azimuth, expected.elevation), "{offset}");
        }
        assert_eq!((azimuths[8], &elevations[8..]), (-7, &[-8, -8][..]));
    }
}

/// A start, so many milliseconds later, by the calendar.
fn later(start: Start, offset: u32) -> Start {
    let seconds = 3_600 * start.hour + 60 * start.minute + start.second;
    let of_day = 1_000 * seconds + start.millisecond + i64::from(offset);
    let days = day_count(start.year, start.month, start.day).unwrap() + of_day / 86_400_000;
    let of_day = of_day % 86_400_000;
    let dates = (1900..=2100).flat_map(|year| (1..=12).map(move |month| (year, month)));
    let (year, month) = dates.rev().find(|&(year, month)| day_count(year, month, 1).unwrap() <= days).unwrap();
    let day = days - day_count(year, month, 1).unwrap() + 1;
    let (hour, minute, second) = (of_day / 3_600_000, of_day / 60_000 % 60, of_day / 1_000 % 60);
    Start { year, month, day, hour, minute, second, millisecond: of_day % 1_000, ..start }
}

#[test]
fn a_batch_stops_at_the_end_of_2100() {
    let run = |start: Start, offsets: &[u32]| {
        let (mut azimuths, mut elevations) = ([-7; 3], [-8; 3]);
        let answer = batch(start, Body::Sun, POINT, offsets, &mut azimuths, &mut elevations);
        (answer, azimuths == [-7; 3] && elevations == [-8; 3])
    };
    let last_second = Start { year: 2100, month: 12, day: 31, hour: 23, minute: 59, second: 59, ut1: 900, ..START };
    assert_eq!(run(last_second, &[999, 0, 999]), (Ok(3), false));
    assert_eq!(run(last_second, &[999, 1_000, u32::MAX]), (Err((13, 1)), true));
    assert_eq!(run(last_second, &[999, 1_000, 999, 999]), (Err((12, 0)), true));
    assert_eq!(run(last_second, &[]), (Ok(0), true));
    let last = Start { millisecond: 999, ..last_second };
    assert_eq!(run(last, &[0, 0, 0]), (Ok(3), false));
    assert_eq!(run(last, &[0, 0, 1]), (Err((13, 2)), true));
    // 2³² - 1 milliseconds, 49 d 17 h 2 min 47.295 s, before the last
    let farthest = Start { month: 11, day: 12, hour: 6, minute: 57, second: 12, millisecond: 704, ..last };
    assert_eq!(run(farthest, &[0, u32::MAX]), (Ok(2), false));
    assert_eq!(run(Start { millisecond: 705, ..farthest }, &[u32::MAX - 1, u32::MAX]), (Err((13, 1)), true));
}
