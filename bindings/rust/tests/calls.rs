//! Known answers, and each refusal once.
#![forbid(unsafe_code)]

use raddlehue::*;
use std::time::{Duration, SystemTime, UNIX_EPOCH};

// 004, Appendix A.5, whose height is 1830.14 m.
const START: Start = Start::utc(2003, 10, 17, 19, 30, 30).delta_t_ms(67_000);
const POINT: Point = Point { longitude_e7: -1_051_786_000, latitude_e7: 397_424_760, height_metres: 1830 };
const AIR: Air = measured(820.0, 11.0);

const fn measured(pressure_mbar: f64, temperature_celsius: f64) -> Air {
    Air::Measured { pressure_mbar, temperature_celsius }
}

fn near(found: f64, printed: f64) {
    assert!((found - printed).abs() < 0.000_015, "{found} is not {printed}");
}

// ---- places

#[test]
fn example_of_the_report() {
    let shown = shown_place(START, Body::Sun, POINT, AIR).unwrap();
    near(shown.azimuth_degrees.unwrap(), 194.34024);
    near(90.0 - shown.elevation_degrees, 50.11162);
    let place = place(START, Body::Sun, POINT, AIR).unwrap();
    assert_eq!(place.azimuth_degrees(), shown.azimuth_degrees);
    assert_eq!(place.elevation_degrees() + shown.refraction_degrees, shown.elevation_degrees);
    assert_eq!(refraction(place.elevation_e8, AIR), Ok(shown.refraction_degrees));
}

#[test]
fn the_moon_is_no_sun() {
    let [sun, moon] = [Body::Sun, Body::Moon].map(|body| place(START, body, POINT, Air::None).unwrap());
    assert_ne!(sun, moon);
}

// The Sun straight over Lahaina on Maui: 0.1 s before it is in the east, and 0.1 s after in the west.
const OVERHEAD: Start = Start::utc(2005, 7, 18, 22, 32, 59).delta_t_ms(64_700);
const JUST_BEFORE: Start = Start { second: 58, fraction_ms: 900, ..OVERHEAD };
const LAHAINA: Point = Point { longitude_e7: -1_566_828_813, latitude_e7: 208_783_487, height_metres: 0 };

#[test]
fn straight_overhead_there_is_no_azimuth() {
    let sun = place(OVERHEAD, Body::Sun, LAHAINA, AIR).unwrap();
    assert_eq!(sun, Place { azimuth_e8: None, elevation_e8: 8_999_999_993 });
    assert_eq!(sun.azimuth_degrees(), None);
    let shown = shown_place(OVERHEAD, Body::Sun, LAHAINA, AIR).unwrap();
    assert_eq!(shown.azimuth_degrees, None);
    assert_eq!(shown.elevation_degrees, sun.elevation_degrees() + shown.refraction_degrees);
}

// tests/vectors/leaves.txt
#[test]
fn straight_underfoot_there_is_no_azimuth() {
    let start = Start::utc(2038, 9, 14, 15, 57, 15).fraction_ms(900).ut1_ms(300).delta_t_ms(1_022_400);
    let atlantic = Point { longitude_e7: -464_318_022, latitude_e7: 25_923_395, height_metres: 54 };
    let moon = place(start, Body::Moon, atlantic, Air::None);
    assert_eq!(moon, Ok(Place { azimuth_e8: None, elevation_e8: -8_999_999_993 }));
}

#[test]
fn the_mark_stands_in_that_entry_alone() {
    let (mut azimuths, mut elevations) = ([-7; 4], [-8; 3]);
    assert_eq!(places_into_ms(JUST_BEFORE, Body::Sun, LAHAINA, &[200, 100, 0], &mut azimuths, &mut elevations), Ok(3));
    assert_eq!(azimuths, [26_995_783_452, NO_DIRECTION_E8, 8_999_156_196, -7]);
    assert_eq!(elevations, [8_999_961_083, 8_999_999_993, 8_999_961_083]);
    assert_eq!(middle(azimuths[0], azimuths[1]), Err(Refusal::NotReduced));
}

#[test]
fn airs() {
    let lifted = |air| shown_place(START, Body::Sun, POINT, air).unwrap();
    assert_eq!(lifted(Air::None).refraction_degrees, 0.0);
    assert_eq!(lifted(CARRIED_OVER.into()), lifted(measured(1010.0, 10.0)));
    assert_eq!(place(START, Body::Sun, POINT, Air::None), place(START, Body::Sun, POINT, AIR));
}

#[test]
fn points_in_degrees() {
    assert_eq!(Point::east_north(-105.1786, 39.742476, 1830), POINT);
    for (longitude, latitude, refusal) in [
        (180.0, 90.0, None),
        (-180.0, -90.0, None),
        (180.000_000_1, 0.0, Some(Refusal::Longitude)),
        (0.0, -90.000_000_1, Some(Refusal::Latitude)),
        (f64::NAN, 0.0, Some(Refusal::Longitude)),
        (0.0, f64::NAN, Some(Refusal::Latitude)),
        (f64::INFINITY, 0.0, Some(Refusal::Longitude)),
        (0.0, f64::NEG_INFINITY, Some(Refusal::Latitude)),
        (f64::MAX, f64::MIN, Some(Refusal::Longitude)),
    ] {
        let point = Point::east_north(longitude, latitude, 0);
        assert_eq!(place(START, Body::Moon, point, Air::None).err(), refusal, "{longitude} {latitude}");
    }
}

// The package rounds without `std`: around halves, and all over, it has to round as `std` does.
#[test]
fn degrees_are_rounded_to_the_nearest() {
    let halves = (-200..200).map(|units| f64::from(units) * 0.5e-7);
    let steps = (0..100_000).map(|i| (f64::from(i) - 50_000.0) * 0.003_600_000_723_1);
    let odd = [0.0, -0.0, 4.999_999_999_999_999e-8, 1e300, -1e300, 9.2e11, 9.3e11, f64::MIN_POSITIVE];
    for degrees in halves.chain(steps).chain(odd) {
        let point = Point::east_north(degrees, -degrees, 0);
        let rounded = (degrees * 1e7).round() as i64;
        assert_eq!(point.longitude_e7, rounded, "{degrees:e}");
        assert_eq!(point.latitude_e7, (-degrees * 1e7).round() as i64, "{degrees:e}");
    }
}

// ---- refusals

#[test]
fn each_refusal_of_a_request() {
    let requests = [
        (Start { year: 2101, ..START }, POINT, AIR, Refusal::Year),
        (Start { month: 13, ..START }, POINT, AIR, Refusal::Month),
        (Start { day: 32, ..START }, POINT, AIR, Refusal::Day),
        (Start { second: 60, ..START }, POINT, AIR, Refusal::Clock),
        (START.fraction_ms(1000), POINT, AIR, Refusal::Clock),
        (START.ut1_ms(901), POINT, AIR, Refusal::Ut1),
        (START.delta_t_ms(-8_000_001), POINT, AIR, Refusal::DeltaT),
        (START, Point { longitude_e7: 1_800_000_001, ..POINT }, AIR, Refusal::Longitude),
        (START, Point { latitude_e7: 900_000_001, ..POINT }, AIR, Refusal::Latitude),
        (START, Point { height_metres: 9_001, ..POINT }, AIR, Refusal::Height),
        (START, POINT, measured(1200.5, 11.0), Refusal::Pressure),
        (START, POINT, measured(f64::NAN, 11.0), Refusal::Pressure),
        (START, POINT, measured(820.0, -81.0), Refusal::Temperature),
        (START, POINT, measured(820.0, f64::NAN), Refusal::Temperature),
    ];
    for (start, point, air, refusal) in requests {
        if refusal.number() < Refusal::Pressure.number() {
            assert_eq!(eclipse(start, point), Err(refusal));
        }
        for body in [Body::Sun, Body::Moon] {
            assert_eq!(place(start, body, point, air), Err(refusal));
            assert_eq!(shown_place(start, body, point, air), Err(refusal));
            if refusal.number() < Refusal::Pressure.number() {
                assert_eq!(places_ms(start, body, point, &[]), Err(refusal));
            }
            if refusal.number() < Refusal::Longitude.number() {
                assert_eq!(instant(start), Err(refusal));
            }
        }
    }
}

#[test]
fn the_first_refusal_is_given() {
    let worst = Start::utc(i64::MIN, i64::MAX, i64::MIN, i64::MAX, i64::MIN, i64::MAX)
        .fraction_ms(i64::MIN)
        .ut1_ms(i64::MAX)
        .delta_t_ms(i64::MIN);
    let nowhere = Point { longitude_e7: i64::MIN, latitude_e7: i64::MAX, height_metres: i64::MIN };
    let air = measured(f64::NAN, f64::NAN);
    assert_eq!(place(worst, Body::Sun, nowhere, air), Err(Refusal::Year));
    assert_eq!(eclipse(worst, nowhere), Err(Refusal::Year));
    assert_eq!(shown_place(START, Body::Moon, nowhere, air), Err(Refusal::Longitude));
    assert_eq!(shown_place(START, Body::Moon, POINT, air), Err(Refusal::Pressure));
    assert_eq!(refraction(i64::MAX, air), Err(Refusal::NoElevation));
}

#[test]
fn refusals_are_errors() {
    let late: Box<dyn std::error::Error> = Refusal::TooLate { index: 144 }.into();
    assert_eq!(late.to_string(), "a start plus offset lies after 2100-12-31 23:59:59.999 UTC (index 144)");
    let out = Refusal::ProposalOut { minute: 1350 };
    assert_eq!(out.to_string(), "a minute of the proposal is out of tolerance (minute 1350)");
    assert_eq!((out.number(), out.sentence()), (31, "a minute of the proposal is out of tolerance"));
    let year = Refusal::Year;
    assert_eq!((year.number(), year.name(), year.sentence()), (1, "YEAR", "the year is not 1900 to 2100"));
    assert_eq!(year.to_string(), year.sentence());
}

// ---- batches

#[test]
fn entries_are_places() {
    let offsets = [0, 3_600_000, 505];
    let found = places_ms(START, Body::Moon, POINT, &offsets).unwrap();
    let starts = [START, Start { hour: 20, ..START }, START.fraction_ms(505)];
    assert_eq!(found, starts.map(|start| place(start, Body::Moon, POINT, Air::None).unwrap()));
    let (mut azimuths, mut elevations) = ([-7; 4], [-8; 5]);
    assert_eq!(places_into_ms(START, Body::Moon, POINT, &offsets, &mut azimuths, &mut elevations), Ok(3));
    assert_eq!(azimuths.map(direction_in), [found[0].azimuth_e8, found[1].azimuth_e8, found[2].azimuth_e8, Some(-7)]);
    assert_eq!(elevations, [found[0].elevation_e8, found[1].elevation_e8, found[2].elevation_e8, -8, -8]);
}

#[test]
fn short_buffers_keep_their_contents() {
    for (a, e) in [(2, 3), (3, 2), (0, 0)] {
        let (mut azimuths, mut elevations) = (vec![-7; a], vec![-8; e]);
        let answer = places_into_ms(START, Body::Sun, POINT, &[0, 1, 2], &mut azimuths, &mut elevations);
        assert_eq!(answer, Err(Refusal::ShortBuffer));
        assert_eq!((azimuths, elevations), (vec![-7; a], vec![-8; e]));
    }
}

#[test]
fn late_offsets_are_named() {
    let eve = Start::utc(2100, 12, 31, 23, 59, 59);
    assert_eq!(places_ms(eve, Body::Sun, POINT, &[999]).map(|places| places.len()), Ok(1));
    assert_eq!(places_ms(eve, Body::Sun, POINT, &[0, 999, 1000, u32::MAX]), Err(Refusal::TooLate { index: 2 }));
    let (mut azimuths, mut elevations) = ([-7; 2], [-8; 2]);
    let answer = places_into_ms(eve, Body::Sun, POINT, &[0, 1000], &mut azimuths, &mut elevations);
    assert_eq!(answer, Err(Refusal::TooLate { index: 1 }));
    assert_eq!((azimuths, elevations), ([-7; 2], [-8; 2]));
}

#[test]
fn no_offsets_no_places() {
    assert_eq!(places_ms(START, Body::Sun, POINT, &[]), Ok(vec![]));
    assert_eq!(places_into_ms(START, Body::Sun, POINT, &[], &mut [], &mut []), Ok(0));
}

// ---- days

const DATE: Date = Date::utc(2009, 6, 21).delta_t_ms(65_900);
const GREENWICH: Point = Point { longitude_e7: 0, latitude_e7: 514_769_000, height_metres: 46 };
const TROMSO: Point = Point { longitude_e7: 189_553_000, latitude_e7: 696_492_000, height_metres: 10 };

fn minutes(rise_minute: Option<u16>, set_minute: Option<u16>) -> Result<RiseSet, Refusal> {
    Ok(RiseSet { rise_minute, set_minute })
}

// As DE431 has them.
#[test]
fn a_curve_is_a_batch_of_minutes() {
    let midnight = Start::utc(2009, 6, 21, 0, 0, 0).delta_t_ms(65_900);
    let offsets: Vec<u32> = (0..1440).map(|minute| 60_000 * minute).collect();
    for (body, answer) in [(Body::Sun, minutes(Some(223), Some(1221))), (Body::Moon, minutes(Some(108), Some(1172)))] {
        let mut elevations = [-7; DAY_MINUTES];
        assert_eq!(day(DATE, body, GREENWICH, &mut elevations), answer);
        let places = places_ms(midnight, body, GREENWICH, &offsets).unwrap();
        assert!(places.iter().map(|place| place.elevation_e8).eq(elevations));
        assert_eq!(rise_set(DATE, body, GREENWICH), answer);
    }
}

#[test]
fn a_day_may_lack_either_or_both() {
    let on = |month, day| Date::utc(2026, month, day).delta_t_ms(69_100);
    assert_eq!(rise_set(on(11, 3), Body::Moon, GREENWICH), minutes(None, Some(858)));
    assert_eq!(rise_set(on(11, 18), Body::Moon, GREENWICH), minutes(Some(806), None));
    for (month, stays_up) in [(6, true), (12, false)] {
        let mut elevations = [0; DAY_MINUTES];
        assert_eq!(day(on(month, 21), Body::Sun, TROMSO, &mut elevations), minutes(None, None));
        assert!(elevations.iter().all(|&elevation| (elevation >= RISE_SET_E8) == stays_up));
    }
}

#[test]
fn minute_0_looks_back_to_the_day_before() {
    let at = Point { longitude_e7: 902_000_000, latitude_e7: 0, height_metres: 0 };
    let on = |day| Date::utc(1900, 1, day).delta_t_ms(-2000);
    assert_eq!(rise_set(on(2), Body::Sun, at), minutes(Some(0), Some(727)));
    assert_eq!(rise_set(on(1), Body::Sun, at), minutes(None, Some(727)), "there is no day before");
    assert!(rise_set(Date::utc(2100, 12, 31), Body::Moon, at).is_ok());
}

#[test]
fn a_refused_day_keeps_the_curve() {
    let requests = [
        (Date { year: 1899, month: 13, ..DATE }, GREENWICH, Refusal::Year),
        (Date { month: 0, day: 0, ..DATE }, GREENWICH, Refusal::Month),
        (Date { day: 31, ..DATE.ut1_ms(901) }, GREENWICH, Refusal::Day),
        (DATE.ut1_ms(-901).delta_t_ms(8_000_001), GREENWICH, Refusal::Ut1),
        (DATE.delta_t_ms(8_000_001), Point { longitude_e7: i64::MIN, ..GREENWICH }, Refusal::DeltaT),
        (DATE, Point { longitude_e7: -1_800_000_001, latitude_e7: i64::MAX, ..GREENWICH }, Refusal::Longitude),
        (DATE, Point { latitude_e7: -900_000_001, height_metres: i64::MIN, ..GREENWICH }, Refusal::Latitude),
        (DATE, Point { height_metres: -501, ..GREENWICH }, Refusal::Height),
    ];
    for (date, point, refusal) in requests {
        let mut elevations = [-7; DAY_MINUTES];
        for body in [Body::Sun, Body::Moon] {
            assert_eq!(day(date, body, point, &mut elevations), Err(refusal));
            assert_eq!(rise_set(date, body, point), Err(refusal));
        }
        assert_eq!(elevations, [-7; DAY_MINUTES]);
    }
}

// ---- strips

const STEPS: [i64; 4] = [1, 2, 5, 10];
const STRIP_DATE: Date = Date::utc(2003, 10, 17).delta_t_ms(67_000);
const HEADER: StripHeader = StripHeader::of(STRIP_DATE, Body::Sun, POINT, 10);
const CARRIED_OVER: StripAir = StripAir::CarriedOver { pressure_mbar: 1010.0, temperature_celsius: 10.0 };
const MEASURED: StripAir = StripAir::Measured { pressure_mbar: 820.0, temperature_celsius: 11.0 };

// Azimuths that no two neighbours share, the least, the greatest and an absent one among them.
fn some_azimuths(step_minutes: i64) -> Vec<u32> {
    let mut azimuths: Vec<u32> = (0..strip_steps(step_minutes) as u32).map(|index| 0x0102_0304 + 2_481_611 * index).collect();
    azimuths[1..4].copy_from_slice(&[0, 3_599_999_999, NO_AZIMUTH_E7]);
    azimuths
}

fn some_strip(header: StripHeader) -> Vec<u8> {
    strip_to_vec(header, &some_azimuths(header.step_minutes)).unwrap()
}

fn read(bytes: &[u8]) -> Result<Strip<'_>, Refusal> {
    Strip::try_from(bytes)
}

// The strip with these bytes from an index on.
fn with(strip: &[u8], index: usize, bytes: &[u8]) -> Vec<u8> {
    let mut changed = strip.to_vec();
    changed[index..index + bytes.len()].copy_from_slice(bytes);
    changed
}

#[test]
fn azimuths_of_a_day_are_places() {
    for (step, body) in STEPS.into_iter().zip([Body::Sun, Body::Moon, Body::Sun, Body::Moon]) {
        let steps = strip_steps(step);
        let mut azimuths = vec![7; steps + 2];
        assert_eq!(day_azimuths(STRIP_DATE, body, POINT, step, &mut azimuths), Ok(steps));
        let place_at =
            |minute: i64| place(Start { hour: minute / 60, minute: minute % 60, second: 0, ..START }, body, POINT, AIR);
        let found = (0..1440).step_by(step as usize).map(|minute| place_at(minute).unwrap().azimuth_e8.unwrap() / 10);
        assert!(found.eq(azimuths[..steps].iter().map(|&azimuth| i64::from(azimuth))), "{step}");
        assert_eq!(azimuths[steps..], [7; 2]);
    }
}

#[test]
fn a_minute_straight_overhead_or_underfoot_is_absent() {
    let date = |year, month, day| Date::utc(year, month, day).delta_t_ms(68_800);
    let oahu = Point { longitude_e7: -1_581_709_847, latitude_e7: 215_390_192, height_metres: 0 };
    let pacific = Point { longitude_e7: -1_396_639_251, latitude_e7: 215_638_686, height_metres: 0 };
    for (date, body, point, minute) in
        [(date(2027, 5, 28), Body::Sun, oahu, 1350), (date(2026, 11, 15), Body::Moon, pacific, 840)]
    {
        let mut azimuths = [0; DAY_MINUTES];
        assert_eq!(day_azimuths(date, body, point, 1, &mut azimuths), Ok(1440));
        let absent: Vec<usize> = (0..1440).filter(|&minute| azimuth_in(azimuths[minute]).is_none()).collect();
        assert_eq!(absent, [minute]);
        let bytes = strip_to_vec(StripHeader::of(date, body, point, 1), &azimuths).unwrap();
        assert_eq!(read(&bytes).unwrap().azimuth(minute), Ok(None));
    }
}

#[test]
fn refused_azimuths_of_a_day_write_nothing() {
    let far = Point { longitude_e7: 1_800_000_001, latitude_e7: i64::MAX, height_metres: i64::MIN };
    let requests = [
        (Date { year: 1899, month: 13, ..STRIP_DATE }, far, 3, Refusal::Year),
        (Date { month: 13, day: 0, ..STRIP_DATE }, far, 3, Refusal::Month),
        (Date { day: 32, ..STRIP_DATE.ut1_ms(901) }, far, 3, Refusal::Day),
        (STRIP_DATE.ut1_ms(901).delta_t_ms(8_000_001), far, 3, Refusal::Ut1),
        (STRIP_DATE.delta_t_ms(-8_000_001), far, 3, Refusal::DeltaT),
        (STRIP_DATE, far, 3, Refusal::Longitude),
        (STRIP_DATE, Point { longitude_e7: -1_800_000_000, ..far }, 3, Refusal::Latitude),
        (STRIP_DATE, Point { height_metres: 9_001, ..POINT }, 3, Refusal::Height),
    ];
    let no_steps = [i64::MIN, -10, -1, 0, 3, 4, 6, 9, 11, 15, 60, 1440, 257, 4_294_967_297, i64::MIN + 1, i64::MAX];
    let steps = no_steps.map(|step| (STRIP_DATE, POINT, step, Refusal::StripStep));
    let short = STEPS.map(|step| (STRIP_DATE, POINT, step, Refusal::StripBuffer));
    for (date, point, step, refusal) in requests.into_iter().chain(steps).chain(short) {
        for length in [0, strip_steps(step).saturating_sub(1)] {
            let mut azimuths = vec![7; length];
            assert_eq!(day_azimuths(date, Body::Moon, point, step, &mut azimuths), Err(refusal), "{step}");
            assert!(azimuths.iter().all(|&azimuth| azimuth == 7), "{step}");
        }
    }
}

// 02's words, byte by byte.
#[test]
fn the_bytes_of_a_strip() {
    let bytes = some_strip(StripHeader { body: Body::Moon, latitude_e7: -1, ..HEADER });
    let length = 592_u16.to_be_bytes();
    let year = 2003_u16.to_be_bytes();
    let longitude = (-1_051_786_000_i32).to_be_bytes();
    let latitude = [255; 4];
    let header_bytes = [&length[..], &[1, 0, 1], &year, &[10, 17], &longitude, &latitude, &[10]].concat();
    assert_eq!(bytes[..STRIP_HEADER], header_bytes);
    assert_eq!(bytes[STRIP_HEADER..][..16], [1, 2, 3, 4, 0, 0, 0, 0, 0xd6, 0x93, 0xa3, 0xff, 255, 255, 255, 255]);
    let azimuths = some_azimuths(10).into_iter().flat_map(u32::to_be_bytes);
    assert!(bytes[STRIP_HEADER..].iter().copied().eq(azimuths));
}

#[test]
fn what_was_written_is_read_and_what_was_read_is_written() {
    let ends = [(-1_800_000_000, 900_000_000), (1_800_000_000, -900_000_000), (0, 0), (-1, 1)];
    let dates = [(1900, 1, 1), (2100, 12, 31), (2000, 2, 29), (2026, 9, 30)];
    for (index, step_minutes) in STEPS.into_iter().enumerate() {
        for body in [Body::Sun, Body::Moon] {
            let ((longitude_e7, latitude_e7), (year, month, day)) = (ends[index], dates[index]);
            let header = StripHeader { air: StripAir::None, body, year, month, day, longitude_e7, latitude_e7, step_minutes };
            let azimuths = some_azimuths(step_minutes);
            let mut bytes = vec![7; strip_bytes(step_minutes) + 3];
            let length = write_strip(header, &azimuths, &mut bytes).unwrap();
            assert_eq!((length, &bytes[length..]), (strip_bytes(step_minutes), &[7; 3][..]));
            let strip = read(&bytes[..length]).unwrap();
            assert_eq!(strip.header(), header);
            let again: Vec<u32> = strip.iter().map(|step| step.azimuth_e7.unwrap_or(NO_AZIMUTH_E7)).collect();
            assert_eq!(again, azimuths);
            assert_eq!(strip_to_vec(strip.header(), &again).as_deref(), Ok(strip.bytes()));
        }
    }
}

// A strip with air byte 1, of every step: all but the air is read as without it, and it is not written again but without air.
#[test]
fn an_old_strip_is_carried_over() {
    for step_minutes in STEPS {
        for body in [Body::Sun, Body::Moon] {
            let header = StripHeader { body, step_minutes, ..HEADER };
            let (bare, azimuths) = (some_strip(header), some_azimuths(step_minutes));
            let bytes = with(&bare, 3, &[1]);
            let old = read(&bytes).unwrap();
            assert_eq!((old.air(), old.header()), (CARRIED_OVER, StripHeader { air: CARRIED_OVER, ..header }));
            assert!(old.iter().eq(read(&bare).unwrap().iter()));
            assert_eq!(Air::from(old.air()), measured(1010.0, 10.0));
            for length in [0, bytes.len() - 1, bytes.len()] {
                let mut out = vec![7; length];
                assert_eq!(write_strip(old.header(), &azimuths, &mut out), Err(Refusal::StripMeasuredAir), "{length}");
                assert_eq!(out, vec![7; length]);
            }
            assert_eq!(strip_to_vec(old.header(), &azimuths), Err(Refusal::StripMeasuredAir));
            assert_eq!(strip_to_vec(StripHeader { air: StripAir::None, ..old.header() }, &azimuths), Ok(bare));
            assert_eq!(find_strip(&bytes, &bytes, 2003, 10, 17).unwrap().azimuth_bytes, old.azimuth_bytes());
        }
    }
}

// What refuses a strip first comes first; the buffer is too small in all of them.
#[test]
fn a_refused_strip_writes_nothing() {
    let azimuths = some_azimuths(10);
    let over = [&azimuths[1..], &[3_600_000_000]].concat();
    let step = StripHeader { step_minutes: 3, ..HEADER };
    let point = StripHeader { longitude_e7: 1_800_000_001, ..step };
    let date = StripHeader { day: 32, ..point };
    let requests = [
        (StripHeader { air: MEASURED, ..date }, Refusal::StripDate),
        (StripHeader { air: MEASURED, ..point }, Refusal::StripPoint),
        (StripHeader { air: CARRIED_OVER, ..step }, Refusal::StripStep),
        (StripHeader { air: CARRIED_OVER, ..HEADER }, Refusal::StripAzimuth),
        (StripHeader { air: MEASURED, ..HEADER }, Refusal::StripAzimuth),
        (date, Refusal::StripDate),
        (StripHeader { year: 1899, ..HEADER }, Refusal::StripDate),
        (StripHeader { year: 2101, ..HEADER }, Refusal::StripDate),
        (StripHeader { month: 0, ..HEADER }, Refusal::StripDate),
        (StripHeader { year: 1900, month: 2, day: 29, ..HEADER }, Refusal::StripDate),
        (StripHeader { year: 2003 + 65_536, ..HEADER }, Refusal::StripDate),
        (StripHeader { day: 17 + 256, ..HEADER }, Refusal::StripDate),
        (point, Refusal::StripPoint),
        (StripHeader { longitude_e7: -1_800_000_001, ..HEADER }, Refusal::StripPoint),
        (StripHeader { latitude_e7: 900_000_001, ..HEADER }, Refusal::StripPoint),
        (StripHeader { latitude_e7: -900_000_001, ..HEADER }, Refusal::StripPoint),
        (StripHeader { latitude_e7: 1 << 32, ..HEADER }, Refusal::StripPoint),
        (step, Refusal::StripStep),
        (StripHeader { step_minutes: 10 + 256, ..HEADER }, Refusal::StripStep),
        (StripHeader { step_minutes: i64::MIN, ..HEADER }, Refusal::StripStep),
        (StripHeader { step_minutes: 5, ..HEADER }, Refusal::StripLength),
        (HEADER, Refusal::StripAzimuth),
    ];
    let refused = |header, azimuths: &[u32], length, refusal| {
        let mut bytes = vec![7; length];
        assert_eq!(write_strip(header, azimuths, &mut bytes), Err(refusal), "{header:?}");
        assert_eq!(bytes, vec![7; length]);
    };
    for (header, refusal) in requests {
        refused(header, &over, 593, refusal);
        assert_eq!(strip_to_vec(header, &over), Err(refusal));
    }
    for count in [0, 1, 143] {
        refused(HEADER, &azimuths[..count], 0, Refusal::StripLength);
    }
    refused(HEADER, &[&over[..], &[0]].concat(), 600, Refusal::StripLength);
    for length in [0, 1, 2, 18, 593] {
        refused(HEADER, &azimuths, length, Refusal::StripBuffer);
        for air in [MEASURED, CARRIED_OVER, StripAir::Measured { pressure_mbar: f64::NAN, temperature_celsius: 0.0 }] {
            refused(StripHeader { air, ..HEADER }, &azimuths, length, Refusal::StripMeasuredAir);
            refused(StripHeader { air, ..HEADER }, &azimuths[1..], length, Refusal::StripLength);
        }
    }
}

#[test]
fn azimuths_that_no_strip_has() {
    let bytes = some_strip(HEADER);
    for at in [0, 1, 143] {
        for azimuth in [3_600_000_000, 3_600_000_001, NO_AZIMUTH_E7 - 1] {
            let mut azimuths = some_azimuths(10);
            azimuths[at] = azimuth;
            assert_eq!(strip_to_vec(HEADER, &azimuths), Err(Refusal::StripAzimuth));
            let changed = with(&bytes, STRIP_HEADER + 4 * at, &azimuth.to_be_bytes());
            assert_eq!(read(&changed), Err(Refusal::StripAzimuth), "{at} {azimuth}");
            assert_eq!(strip_azimuth(&changed[STRIP_HEADER..], at), Err(Refusal::StripAzimuth));
        }
        for azimuth in [0, 3_599_999_999, NO_AZIMUTH_E7] {
            let changed = with(&bytes, STRIP_HEADER + 4 * at, &azimuth.to_be_bytes());
            assert_eq!(read(&changed).unwrap().azimuth(at), Ok(azimuth_in(azimuth)));
        }
    }
}

#[test]
fn strips_of_another_length_are_refused() {
    let bytes = some_strip(HEADER);
    for length in 0..bytes.len() {
        assert_eq!(read(&bytes[..length]), Err(Refusal::StripLength), "{length}");
    }
    assert_eq!(read(&[&bytes[..], &[0]].concat()), Err(Refusal::StripLength));
    for length in [0_u16, 15, 16, 591, 593, 594, 65_535] {
        assert_eq!(read(&with(&bytes, 0, &length.to_be_bytes())), Err(Refusal::StripLength), "{length}");
    }
    // A length that is the buffer's own, and under 16.
    let short = [&13_u16.to_be_bytes()[..], &bytes[2..15]].concat();
    assert_eq!(read(&short), Err(Refusal::StripLength));
    // A length that is the buffer's own, and not that of the step.
    for (step, length) in [(10, 588), (10, 593), (10, 596), (5, 592), (1, 592), (10, 16)] {
        let cut = [&u16::to_be_bytes(length)[..], &bytes[2..17], &[step], &[0; 600][..usize::from(length) - 16]].concat();
        assert_eq!(read(&cut), Err(Refusal::StripLength), "{step} {length}");
    }
}

// Each fault with all that come after it, and by itself: an azimuth above all, a length that is not the step's, then the header backwards.
#[test]
fn the_first_refusal_of_a_strip() {
    let good = some_strip(HEADER);
    let faults: [(usize, &[u8], Refusal); 12] = [
        (18, &[255, 255, 255, 254], Refusal::StripAzimuth),
        (17, &[5], Refusal::StripLength),
        (17, &[3], Refusal::StripStep),
        (17, &[0], Refusal::StripStep),
        (13, &900_000_001_i32.to_be_bytes(), Refusal::StripPoint),
        (9, &(-1_800_000_001_i32).to_be_bytes(), Refusal::StripPoint),
        (8, &[0], Refusal::StripDate),
        (7, &[13], Refusal::StripDate),
        (5, &1899_u16.to_be_bytes(), Refusal::StripDate),
        (4, &[2], Refusal::StripAirOrBody),
        (3, &[2], Refusal::StripAirOrBody),
        (2, &[0], Refusal::StripVersion),
    ];
    let mut worse = good.clone();
    for (index, bytes, refusal) in faults {
        worse = with(&worse, index, bytes);
        assert_eq!(read(&worse), Err(refusal), "{index} with what is behind it");
        assert_eq!(read(&with(&good, index, bytes)), Err(refusal), "{index}");
        // The length is judged against the step only once the header has passed.
        let at_odds = with(&good, 17, &[5]);
        assert!(index > 16 || read(&with(&at_odds, index, bytes)) == Err(refusal), "{index}");
    }
    for version in [2, 255] {
        assert_eq!(read(&with(&good, 2, &[version])), Err(Refusal::StripVersion));
    }
    assert_eq!(read(&worse[..593]), Err(Refusal::StripLength));
}

fn shared_by_threads<T: Send + Sync + Copy>(_: T) {}

#[test]
fn a_strip_is_a_view() {
    let bytes = some_strip(HEADER);
    let strip = read(&bytes).unwrap();
    assert!(std::ptr::eq(strip.bytes(), &bytes[..]));
    assert!(std::ptr::eq(strip.azimuth_bytes(), &bytes[STRIP_HEADER..]));
    assert_eq!((strip.air(), strip.header()), (StripAir::None, HEADER));
    assert_eq!((strip.body(), strip.step_minutes(), strip.steps()), (Body::Sun, 10, 144));
    assert_eq!((strip.year(), strip.month(), strip.day()), (2003, 10, 17));
    assert_eq!((strip.longitude_e7(), strip.latitude_e7()), (POINT.longitude_e7, POINT.latitude_e7));
    let found = find_strip(&bytes, &bytes, 2003, 10, 17).unwrap();
    shared_by_threads((strip, found));
    for shown in [format!("{strip:?}"), format!("{:?}", strip.iter()), format!("{found:?}")] {
        assert!(shown.len() < 300 && shown.contains("Strip"), "{shown}");
    }
    // What is handed on lives as long as the bytes, and longer than the view.
    let kept = { read(&bytes).unwrap().azimuth_bytes() };
    assert_eq!(strip_azimuth(kept, 0), Ok(Some(0x0102_0304)));
}

#[test]
fn steps_come_from_either_end_and_are_counted() {
    for step_minutes in STEPS {
        let bytes = some_strip(StripHeader { step_minutes, ..HEADER });
        let strip = read(&bytes).unwrap();
        let steps: Vec<StripStep> = strip.into_iter().collect();
        assert_eq!(steps.len(), strip_steps(step_minutes));
        for (index, step) in steps.iter().enumerate() {
            assert_eq!(usize::from(step.minute), index * step_minutes as usize);
            assert_eq!(strip.azimuth(index), Ok(step.azimuth_e7));
            assert_eq!(strip.at_minute(step.minute), Ok(step.azimuth_e7));
        }
        assert!((&strip).into_iter().rev().eq(steps.iter().rev().copied()));
        let mut left = strip.iter();
        assert_eq!((left.next(), left.next_back(), left.len()), (Some(steps[0]), steps.last().copied(), steps.len() - 2));
        assert_eq!((left.nth(1), left.len(), left.size_hint().1), (Some(steps[2]), steps.len() - 4, Some(steps.len() - 4)));
        assert_eq!((left.nth(2000), left.next(), left.next_back(), left.len()), (None, None, None, 0));
        let between = (0..1440).filter(|minute| i64::from(minute % step_minutes as u16) != 0);
        for minute in between.chain([1440, 1450, 14_400, u16::MAX]) {
            assert_eq!(strip.at_minute(minute), Err(Refusal::NoStep), "{minute}");
        }
    }
}

#[test]
fn steps_beyond_the_last() {
    let bytes = some_strip(HEADER);
    let azimuths = read(&bytes).unwrap().azimuth_bytes();
    for index in [144, 145, 1 << 30, 1 << 62, (1 << 62) + 1, usize::MAX / 4, usize::MAX - 1, usize::MAX] {
        assert_eq!(read(&bytes).unwrap().azimuth(index), Err(Refusal::NoStep), "{index}");
        assert_eq!(strip_azimuth(azimuths, index), Err(Refusal::NoStep), "{index}");
    }
    // Bytes that are no whole number of azimuths.
    for length in 0..9 {
        let whole = length / 4;
        assert_eq!(strip_azimuth(&azimuths[..length], whole), Err(Refusal::NoStep));
        assert!((0..whole).all(|index| strip_azimuth(&azimuths[..length], index).is_ok()));
    }
}

#[test]
fn the_strip_that_bears_the_date() {
    let on = |day, step_minutes| some_strip(StripHeader { day, step_minutes, ..HEADER });
    let (first, second) = (on(17, 10), on(18, 5));
    let part = |strip: &[u8], which, found: Result<FoundStrip<'_>, Refusal>| {
        let found = found.unwrap();
        assert!(found.which == which && std::ptr::eq(found.azimuth_bytes, &strip[STRIP_HEADER..]), "{found:?}");
    };
    part(&first, Which::First, find_strip(&first, &second, 2003, 10, 17));
    part(&second, Which::Second, find_strip(&first, &second, 2003, 10, 18));
    part(&second, Which::First, find_strip(&second, &first, 2003, 10, 18));
    // Both bear it: the first, whose step is another.
    part(&first, Which::First, find_strip(&first, &on(17, 1), 2003, 10, 17));
    for (year, month, day) in [(2003, 10, 16), (2003, 11, 17), (2002, 10, 17), (2003, 17, 10), (i64::MAX, 10, 17)] {
        assert_eq!(find_strip(&first, &second, year, month, day), Err(Refusal::StripNotFound));
    }
    for day in [17 + 256, 17 + (1 << 32), i64::MIN] {
        assert_eq!(find_strip(&first, &second, 2003, 10, day), Err(Refusal::StripNotFound));
    }
}

#[test]
fn a_lookup_judges_both_strips() {
    let good = some_strip(HEADER);
    let faults: [(usize, &[u8], Refusal); 7] = [
        (0, &[0, 0], Refusal::StripLength),
        (2, &[0], Refusal::StripVersion),
        (4, &[2], Refusal::StripAirOrBody),
        (8, &[0], Refusal::StripDate),
        (13, &[127; 4], Refusal::StripPoint),
        (17, &[3], Refusal::StripStep),
        (590, &[255, 255, 255, 254], Refusal::StripAzimuth),
    ];
    for (index, bytes, refusal) in faults {
        let bad = with(&good, index, bytes);
        for (day, other) in [(17, Refusal::StripVersion), (18, Refusal::StripVersion)] {
            assert_eq!(find_strip(&bad, &good, 2003, 10, day), Err(refusal));
            assert_eq!(find_strip(&good, &bad, 2003, 10, day), Err(refusal), "the first bears the date, or neither");
            assert_eq!(find_strip(&bad, &with(&good, 2, &[9]), 2003, 10, day), Err(refusal), "the first strip's comes first");
            assert_eq!(find_strip(&with(&good, 2, &[9]), &bad, 2003, 10, day), Err(other));
        }
    }
    assert_eq!(find_strip(&[], &good, 2003, 10, 17), Err(Refusal::StripLength));
    assert_eq!(find_strip(&good, &[], 2003, 10, 17), Err(Refusal::StripLength));
}

// ---- proposals

const HALF_TURN: i64 = 180 * DEGREE_E8;
const DUNEDIN: Point = Point { longitude_e7: 1_705_000_000, latitude_e7: -455_000_000, height_metres: 0 };
/// Over which the Sun stands straight at 22:30 UTC.
const OAHU_DATE: Date = Date::utc(2027, 5, 28).delta_t_ms(68_800);
const OAHU: Point = Point { longitude_e7: -1_581_709_847, latitude_e7: 215_390_192, height_metres: 0 };

struct Proposal {
    minutes: Vec<u32>,
    azimuths_e8: Vec<i64>,
}

impl Proposal {
    fn planned(date: Date, body: Body, point: Point, tolerance_e8: u64) -> Option<Proposal> {
        let (mut minutes, mut azimuths_e8) = ([7; DAY_MINUTES], [-8; DAY_MINUTES]);
        let count = plan(date, body, point, tolerance_e8, &mut minutes, &mut azimuths_e8).unwrap();
        let written = count.unwrap_or(0);
        assert!(minutes[written..].iter().all(|&minute| minute == 7) && azimuths_e8[written..].iter().all(|&units| units == -8));
        count.map(|_| Proposal { minutes: minutes[..written].to_vec(), azimuths_e8: azimuths_e8[..written].to_vec() })
    }

    fn verdict(&self, date: Date, body: Body, point: Point, tolerance_e8: u64) -> Result<(), Refusal> {
        judge(date, body, point, tolerance_e8, &self.minutes, &self.azimuths_e8)
    }

    fn without(&self, index: usize) -> Proposal {
        let (mut minutes, mut azimuths_e8) = (self.minutes.clone(), self.azimuths_e8.clone());
        minutes.remove(index);
        azimuths_e8.remove(index);
        Proposal { minutes, azimuths_e8 }
    }

    // At each minute, from 02's own words.
    fn values(&self) -> Vec<i64> {
        let points = || self.minutes.iter().map(|&minute| i64::from(minute)).zip(self.azimuths_e8.iter().copied());
        let mut values = vec![self.azimuths_e8[0]];
        for ((m0, a0), (m1, a1)) in points().zip(points().skip(1)) {
            let value = |minute: i64| (a0 + (way(a0, a1) * (minute - m0)).div_euclid(m1 - m0)).rem_euclid(2 * HALF_TURN);
            values.extend((m0 + 1..=m1).map(value));
        }
        values
    }
}

// The short way round, below zero where it leads back.
fn way(from_e8: i64, to_e8: i64) -> i64 {
    (to_e8 - from_e8 + HALF_TURN).rem_euclid(2 * HALF_TURN) - HALF_TURN
}

fn azimuths_of_day(date: Date, body: Body, point: Point) -> Vec<Option<i64>> {
    let Date { year, month, day, ut1_ms, delta_t_ms } = date;
    let midnight = Start::utc(year, month, day, 0, 0, 0).ut1_ms(ut1_ms).delta_t_ms(delta_t_ms);
    let offsets: Vec<u32> = (0..1440).map(|minute| 60_000 * minute).collect();
    places_ms(midnight, body, point, &offsets).unwrap().into_iter().map(|place| place.azimuth_e8).collect()
}

// The azimuth goes forward, backward, once round in a day, and both ways.
fn some_days() -> [(Date, Body, Point); 4] {
    let tropics = Point { longitude_e7: 0, latitude_e7: 100_000_000, height_metres: 0 };
    [
        (STRIP_DATE, Body::Sun, POINT),
        (Date::utc(2026, 11, 15).ut1_ms(-300).delta_t_ms(69_100), Body::Sun, DUNEDIN),
        (DATE, Body::Sun, TROMSO),
        (DATE, Body::Moon, tropics),
    ]
}

#[test]
fn a_plan_is_accepted_and_no_point_is_spare() {
    for (date, body, point) in some_days() {
        let azimuths = azimuths_of_day(date, body, point);
        for tolerance in [0, 1, 500, 1_000_000, 300_000_000, HALF_TURN as u64, u64::MAX] {
            let proposal = Proposal::planned(date, body, point, tolerance).unwrap();
            let count = proposal.minutes.len();
            assert!((2..=DAY_MINUTES).contains(&count), "{tolerance}");
            assert_eq!((proposal.minutes[0], proposal.minutes[count - 1]), (0, 1439));
            let points = proposal.minutes.iter().zip(&proposal.azimuths_e8);
            assert!(points.into_iter().all(|(&minute, &azimuth)| azimuths[minute as usize] == Some(azimuth)));
            assert_eq!(proposal.verdict(date, body, point, tolerance), Ok(()));
            for inner in (1..count - 1).step_by(1 + count / 16) {
                let shorter = proposal.without(inner).verdict(date, body, point, tolerance);
                assert!(
                    matches!(shorter, Err(Refusal::ProposalOut { .. } | Refusal::ProposalOpposite)),
                    "{tolerance} {inner}: {shorter:?}"
                );
            }
        }
    }
}

// The first minute is named at which the distance is the greatest, where the tolerance is a unit below that. Points of every 45 minutes have a leg over the north.
#[test]
fn a_tolerance_may_be_met_but_not_passed() {
    for (date, body, point) in some_days() {
        let azimuths: Vec<i64> = azimuths_of_day(date, body, point).into_iter().map(Option::unwrap).collect();
        let minutes: Vec<u32> = (0..1439).step_by(45).chain([1439]).collect();
        let azimuths_e8 = minutes.iter().map(|&minute| azimuths[minute as usize]).collect();
        let planned = Proposal::planned(date, body, point, 40_000_000).unwrap();
        for proposal in [planned, Proposal { minutes, azimuths_e8 }] {
            let values = proposal.values();
            let distances: Vec<u64> = values.iter().zip(&azimuths).map(|(&value, &sky)| way(value, sky).unsigned_abs()).collect();
            let most = *distances.iter().max().unwrap();
            assert!((1..9_000_000_000).contains(&most), "{most}");
            assert_eq!(proposal.verdict(date, body, point, most), Ok(()));
            let minute = distances.iter().position(|&distance| distance == most).unwrap() as u32;
            assert_eq!(proposal.verdict(date, body, point, most - 1), Err(Refusal::ProposalOut { minute }));
            let first = distances.iter().position(|&distance| distance > 0).unwrap() as u32;
            assert_eq!(proposal.verdict(date, body, point, 0), Err(Refusal::ProposalOut { minute: first }));
        }
    }
}

#[test]
fn every_minute_is_compared() {
    let (date, body, point) = (STRIP_DATE, Body::Sun, POINT);
    let azimuths_e8: Vec<i64> = azimuths_of_day(date, body, point).into_iter().map(Option::unwrap).collect();
    let whole = Proposal { minutes: (0..1440).collect(), azimuths_e8 };
    assert_eq!(whole.verdict(date, body, point, 0), Ok(()));
    for minute in [0, 1, 719, 1438, 1439] {
        let mut other = Proposal { minutes: whole.minutes.clone(), azimuths_e8: whole.azimuths_e8.clone() };
        other.azimuths_e8[minute as usize] += 1;
        assert_eq!(other.verdict(date, body, point, 0), Err(Refusal::ProposalOut { minute }));
        assert_eq!(other.verdict(date, body, point, 1), Ok(()));
    }
    // On either side of the north, which this Sun passes.
    for degrees in [5, -5] {
        let turned = |&azimuth: &i64| (azimuth + degrees * DEGREE_E8).rem_euclid(2 * HALF_TURN);
        let azimuths_e8 = whole.azimuths_e8.iter().map(turned).collect();
        let beside = Proposal { minutes: whole.minutes.clone(), azimuths_e8 };
        assert_eq!(beside.verdict(date, body, point, 500_000_000), Ok(()));
        assert_eq!(beside.verdict(date, body, point, 499_999_999), Err(Refusal::ProposalOut { minute: 0 }));
    }
}

#[test]
fn no_plan_is_an_answer() {
    for tolerance in [0, 500, u64::MAX] {
        assert!(Proposal::planned(OAHU_DATE, Body::Sun, OAHU, tolerance).is_none());
        assert!(Proposal::planned(OAHU_DATE, Body::Moon, OAHU, tolerance).is_some());
    }
}

// Its value there may be any.
#[test]
fn a_minute_without_an_azimuth_is_not_compared() {
    let azimuths = azimuths_of_day(OAHU_DATE, Body::Sun, OAHU);
    assert_eq!((azimuths[1350], azimuths.iter().flatten().count()), (None, DAY_MINUTES - 1));
    let minutes: Vec<u32> = (0..1440).collect();
    for anything in [0, 9_000_000_000, 35_999_999_999] {
        let azimuths_e8: Vec<i64> = azimuths.iter().map(|azimuth| azimuth.unwrap_or(anything)).collect();
        let proposal = Proposal { minutes: minutes.clone(), azimuths_e8 };
        assert_eq!(proposal.verdict(OAHU_DATE, Body::Sun, OAHU, 0), Ok(()), "{anything}");
        let mut other = proposal;
        other.azimuths_e8[1351] = (other.azimuths_e8[1351] + 1) % (2 * HALF_TURN);
        assert_eq!(other.verdict(OAHU_DATE, Body::Sun, OAHU, 0), Err(Refusal::ProposalOut { minute: 1351 }));
    }
}

#[test]
fn points_that_are_no_proposal() {
    let verdict = |minutes: &[u32], azimuths_e8: &[i64]| judge(STRIP_DATE, Body::Sun, POINT, u64::MAX, minutes, azimuths_e8);
    assert_eq!(verdict(&[0, 1439], &[0, 35_999_999_999]), Ok(()));
    let lists: [(&[u32], &[i64]); 12] = [
        (&[], &[]),
        (&[0], &[0]),
        (&[1439], &[0]),
        (&[0, 1439], &[0]),
        (&[0], &[0, 1]),
        (&[], &[0, 1]),
        (&[1, 1439], &[0, 1]),
        (&[0, 1438], &[0, 1]),
        (&[0, 1440], &[0, 1]),
        (&[0, 7, 7, 1439], &[0, 1, 2, 3]),
        (&[0, 8, 7, 1439], &[0, 1, 2, 3]),
        (&[0, u32::MAX, 1439], &[0, 1, 2]),
    ];
    for (minutes, azimuths_e8) in lists {
        assert_eq!(verdict(minutes, azimuths_e8), Err(Refusal::ProposalPoints), "{minutes:?} {azimuths_e8:?}");
    }
    for azimuth in [i64::MIN, -1, 36_000_000_000, NO_DIRECTION_E8] {
        for azimuths_e8 in [[azimuth, 0, 1], [0, azimuth, 1], [0, 1, azimuth]] {
            assert_eq!(verdict(&[0, 700, 1439], &azimuths_e8), Err(Refusal::ProposalPoints), "{azimuths_e8:?}");
        }
    }
    let more: Vec<u32> = (0..1440).chain([1439]).collect();
    assert_eq!(verdict(&more, &[0; 1441]), Err(Refusal::ProposalPoints));
    assert_eq!(verdict(&more[..1440], &[0; 1440]), Ok(()));
    // Opposite neighbours are refused at any tolerance, and before any minute that is out of it.
    for azimuths_e8 in [[0, HALF_TURN, 1], [1, 0, HALF_TURN], [35_999_999_999, HALF_TURN - 1, 0]] {
        assert_eq!(verdict(&[0, 700, 1439], &azimuths_e8), Err(Refusal::ProposalOpposite), "{azimuths_e8:?}");
        let strict = judge(STRIP_DATE, Body::Sun, POINT, 0, &[0, 700, 1439], &azimuths_e8);
        assert_eq!(strict, Err(Refusal::ProposalOpposite));
    }
    assert_eq!(verdict(&[0, 700, 1438], &[0, HALF_TURN, 1]), Err(Refusal::ProposalPoints));
}

#[test]
fn a_refused_plan_keeps_its_buffers() {
    let requests = [
        (Date { year: 2101, month: 0, ..STRIP_DATE }, POINT, Refusal::Year),
        (Date { month: 13, day: 0, ..STRIP_DATE }, POINT, Refusal::Month),
        (Date { day: 32, ..STRIP_DATE.ut1_ms(901) }, POINT, Refusal::Day),
        (STRIP_DATE.ut1_ms(901).delta_t_ms(-8_000_001), POINT, Refusal::Ut1),
        (STRIP_DATE.delta_t_ms(-8_000_001), Point { longitude_e7: i64::MAX, ..POINT }, Refusal::DeltaT),
        (STRIP_DATE, Point { longitude_e7: 1_800_000_001, latitude_e7: i64::MIN, ..POINT }, Refusal::Longitude),
        (STRIP_DATE, Point { latitude_e7: 900_000_001, height_metres: i64::MAX, ..POINT }, Refusal::Latitude),
        (STRIP_DATE, Point { height_metres: 9_001, ..POINT }, Refusal::Height),
    ];
    for (date, point, refusal) in requests {
        for body in [Body::Sun, Body::Moon] {
            let (mut minutes, mut azimuths_e8) = ([7; DAY_MINUTES], [-8; DAY_MINUTES]);
            assert_eq!(plan(date, body, point, 0, &mut minutes, &mut azimuths_e8), Err(refusal));
            assert_eq!((minutes, azimuths_e8), ([7; DAY_MINUTES], [-8; DAY_MINUTES]));
            // The request is judged before its points are.
            assert_eq!(judge(date, body, point, 0, &[], &[1]), Err(refusal));
        }
    }
}

// ---- eclipses

// 003, Table 4, its first and its last: the whole Sun, and a ring.
#[test]
fn eclipses_of_the_report() {
    let whole = eclipse(Start::utc(2009, 7, 22, 2, 33, 0).delta_t_ms(66_400), Point::east_north(143.3617, 24.6117, 0));
    let ring = eclipse(Start::utc(1981, 2, 4, 21, 57, 36).delta_t_ms(51_500), Point::east_north(-145.9033, -45.8883, 0));
    for (found, [separation_e8, sun_radius_e8, moon_radius_e8, share_millionths]) in
        [(whole, [45_193, 26_236_064, 28_346_192, 1_000_000]), (ring, [76_975, 27_034_383, 26_874_029, 988_172])]
    {
        assert_eq!(found, Ok(Eclipse { separation_e8, sun_radius_e8, moon_radius_e8, share_millionths }));
        assert_eq!(covered_share(separation_e8, sun_radius_e8, moon_radius_e8), Ok(share_millionths));
    }
}

#[test]
fn most_moments_have_no_eclipse() {
    let apart = eclipse(START, POINT).unwrap();
    assert!(apart.separation_e8 > apart.sun_radius_e8 + apart.moon_radius_e8);
    assert_eq!(apart.share_millionths, 0);
}

// The whole Sun, a ring, a part of it (003, Table A.1.2, without refraction), and nothing, from a unit before the disks touch.
#[test]
fn covered_shares() {
    assert_eq!(covered_share(2_000_000, 26_000_000, 28_000_000), Ok(1_000_000));
    assert_eq!(covered_share(1_000_000, 26_000_000, 24_000_000), Ok(852_071));
    assert_eq!(covered_share(37_487_637, 26_235_977, 28_334_136), Ok(216_151));
    for separation in [49_999_999, 50_000_000, 50_000_001, 180 * DEGREE_E8] {
        assert_eq!(covered_share(separation, 26_000_000, 24_000_000), Ok(0));
    }
}

#[test]
fn shares_of_no_disks_are_refused() {
    for separation in [i64::MIN, -1, 180 * DEGREE_E8 + 1, i64::MAX] {
        assert_eq!(covered_share(separation, 26_000_000, 24_000_000), Err(Refusal::NoDisks));
    }
    for sun_radius in [i64::MIN, 0, 19_999_999, 30_000_001, i64::MAX] {
        assert_eq!(covered_share(0, sun_radius, 24_000_000), Err(Refusal::NoDisks));
    }
    for moon_radius in [i64::MIN, -1, 30_000_001, i64::MAX] {
        assert_eq!(covered_share(0, 26_000_000, moon_radius), Err(Refusal::NoDisks));
    }
    for sun_radius in [20_000_000, 30_000_000] {
        assert_eq!(covered_share(0, sun_radius, 30_000_000), Ok(1_000_000));
        assert_eq!(covered_share(0, sun_radius, 0), Ok(0));
    }
}

// ---- azimuths, refraction, numbers

#[test]
fn middles() {
    assert_eq!(middle(35_990_000_000, 10_000_000), Ok(0));
    assert_eq!(middle(10, 13), Ok(11));
    assert_eq!(middle(0, 18_000_000_000), Err(Refusal::Opposite));
    for x in [i64::MIN, -1, 36_000_000_000, i64::MAX] {
        assert_eq!(middle(x, 0), Err(Refusal::NotReduced));
        assert_eq!(middle(0, x), Err(Refusal::NotReduced));
    }
}

#[test]
fn refractions() {
    for air in [measured(1010.0, 10.0), AIR] {
        assert!(refraction(LOWEST_REFRACTED_E8, air).unwrap() > refraction(0, air).unwrap());
        assert_eq!(refraction(LOWEST_REFRACTED_E8 - 1, air), Ok(0.0));
    }
    assert_eq!(refraction(90 * DEGREE_E8 + 1, Air::None), Err(Refusal::NoElevation));
    assert_eq!(refraction(0, measured(1010.0, 80.5)), Err(Refusal::Temperature));
}

#[test]
fn numbers() {
    assert_eq!((sine(270 * DEGREE_E8), cosine(0)), (-1_000_000_000, 1_000_000_000));
    assert_eq!((arctangent(0, 0), arctangent(0, 1)), (None, Some(0)));
    assert_eq!(arctangent(-4_080_956_101_403_165_189, 139_721_335), Some(27_000_000_007));
    for square in [0, 1, 3, 4, u64::MAX] {
        let root = root(square);
        assert!(root * root <= square && (root + 1).checked_mul(root + 1).is_none_or(|above| above > square));
    }
}

// ---- dates, instants and sums

#[test]
fn days() {
    assert_eq!(day_count(1900, 1, 1), Ok(-36_524));
    assert_eq!(day_count(2100, 12, 31), Ok(36_889));
    assert_eq!(day_count(1899, 12, 31), Err(Refusal::Year));
    assert_eq!(day_count(2000, 0, 1), Err(Refusal::Month));
    assert_eq!(day_count(2100, 2, 29), Err(Refusal::Day));
}

// A start plus offset is an instant too; the sums are the same wherever they are asked for.
#[test]
fn instants() {
    let noon = Start::utc(2000, 1, 1, 12, 0, 0);
    assert_eq!(instant(noon), Ok(Instant { ut_ms: 0, tt_ms: 0 }));
    let later = Start::utc(2000, 1, 2, 12, 0, 0).fraction_ms(700).ut1_ms(-900).delta_t_ms(63_800);
    assert_eq!(instant(later), Ok(Instant { ut_ms: 86_399_800, tt_ms: 86_463_600 }));
    let last = Start::utc(2100, 12, 31, 23, 59, 59).fraction_ms(999).ut1_ms(900).delta_t_ms(8_000_000);
    assert_eq!(instant(last), Ok(Instant { ut_ms: 3_187_252_800_899, tt_ms: 3_187_260_800_899 }));
}

#[test]
fn sums() {
    let moon = MoonSums { longitude_e8: 22_331_871_102, latitude_e8: 517_128_006, distance_metres: 402_444_812 };
    let sun = SunSums { longitude_radians_e10: 17_519_226_963, latitude_radians_e10: -33_050, radius_au_e10: 9_833_275_804 };
    let nods = Nutation { longitude_e8: -386_755, obliquity_e8: -160_387, true_obliquity_e8: 2_343_768_724 };
    assert_eq!((moon_sums_ms(0), sun_sums_ms(0), nutation_ms(0)), (Ok(moon), Ok(sun), Ok(nods)));
    assert_eq!(mean_sidereal_ms(-86_400_000), Ok(27_947_497_100));
    for edge in [-3_190_473_360_000, 3_190_473_360_000] {
        assert!(moon_sums_ms(edge).is_ok() && sun_sums_ms(edge).is_ok());
        assert!(nutation_ms(edge).is_ok() && mean_sidereal_ms(edge).is_ok());
    }
    let refusal = Refusal::OutOfReach;
    for beyond in [i64::MIN, -3_190_473_360_001, 3_190_473_360_001, i64::MAX] {
        assert_eq!((moon_sums_ms(beyond), sun_sums_ms(beyond)), (Err(refusal), Err(refusal)));
        assert_eq!((nutation_ms(beyond), mean_sidereal_ms(beyond)), (Err(refusal), Err(refusal)));
    }
}

// ---- the system's clock

// The midnight that begins a day counted from 2000-01-01.
fn midnight(days: i64) -> SystemTime {
    let seconds = Duration::from_secs(((days + 10_957) * 86_400).unsigned_abs());
    if days < -10_957 {
        UNIX_EPOCH - seconds
    } else {
        UNIX_EPOCH + seconds
    }
}

#[test]
fn every_day_of_the_clock() {
    for days in -36_524..=36_889 {
        let start = Start::try_from(midnight(days)).unwrap();
        assert_eq!(day_count(start.year, start.month, start.day), Ok(days));
        assert_eq!(start, Start::utc(start.year, start.month, start.day, 0, 0, 0));
    }
}

#[test]
fn the_clock_is_cut_to_the_millisecond_before() {
    for (days, after, start) in [
        (0, 999_999, Start::utc(2000, 1, 1, 0, 0, 0)),
        (-10_958, 1, Start::utc(1969, 12, 31, 0, 0, 0)),
        (-36_524, 86_399_999_999_999, Start::utc(1900, 1, 1, 23, 59, 59).fraction_ms(999)),
        (36_889, 86_399_999_999_999, Start::utc(2100, 12, 31, 23, 59, 59).fraction_ms(999)),
        (8_000, 45_296_789_000_000, Start::utc(2021, 11, 26, 12, 34, 56).fraction_ms(789)),
    ] {
        assert_eq!(Start::try_from(midnight(days) + Duration::from_nanos(after)), Ok(start));
    }
}

#[test]
fn other_times_of_the_clock_are_refused() {
    let nanosecond = Duration::from_nanos(1);
    let mut beyond = vec![midnight(-36_524) - nanosecond, midnight(36_890), midnight(-3_000_000), midnight(3_000_000)];
    let longest = Duration::from_secs(i64::MAX.unsigned_abs());
    beyond.extend([UNIX_EPOCH.checked_sub(longest), UNIX_EPOCH.checked_add(longest)].into_iter().flatten());
    for time in beyond {
        assert_eq!(Start::try_from(time), Err(Refusal::Year), "{time:?}");
    }
}

// ---- the header

#[test]
fn constants_are_the_headers() {
    let header = include_str!("../../../include/raddlehue.h");
    let defined = |name: &str| {
        let line = header.lines().find_map(|line| line.strip_prefix(&format!("#define RADDLEHUE_{name} ")));
        line.unwrap_or_else(|| panic!("the header has no {name}")).to_string()
    };
    assert_eq!(defined("VERSION"), format!("\"{VERSION}\""));
    for (name, number) in [
        ("SECOND_MS", SECOND_MS),
        ("DEGREE_E7", DEGREE_E7),
        ("DEGREE_E8", DEGREE_E8),
        ("NO_DIRECTION_E8", NO_DIRECTION_E8),
        ("DAY_MINUTES", DAY_MINUTES as i64),
        ("STRIP_HEADER", STRIP_HEADER as i64),
        ("NO_AZIMUTH_E7", NO_AZIMUTH_E7.into()),
        ("RISE_SET_E8", RISE_SET_E8),
        ("LOWEST_REFRACTED_E8", LOWEST_REFRACTED_E8),
    ] {
        // A number below zero stands in brackets, and an unsigned one before a u.
        assert_eq!(defined(name).trim_matches(['(', ')', 'u']), number.to_string(), "{name}");
    }
}
