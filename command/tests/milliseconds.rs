//! Seconds with up to three decimals: what is said is asked to the millisecond, and written back with as many decimals as it needs.

mod running;

use raddlehue::{Air, Body, Place, Point, Start};
use running::answer;

const BOULDER: Point = Point { longitude_e7: -1_051_786_000, latitude_e7: 397_424_760, height_metres: 1830 };
const HERE: [&str; 6] = ["--lat", "39.742476", "--lon", "105.1786W", "--height", "1830"];

/// Azimuth and elevation as the command has them.
fn figures(place: Place) -> [String; 2] {
    [place.azimuth_e8.unwrap(), place.elevation_e8].map(|e8| {
        let sign = if e8 < 0 { "-" } else { "" };
        format!("{sign}{}.{:08}", e8.abs() / 100_000_000, e8.abs() % 100_000_000)
    })
}

fn of_archive(start: Start) -> [String; 2] {
    figures(raddlehue::place(start, Body::Moon, BOULDER, Air::None).unwrap())
}

/// The columns of the Moon's place.
fn row(time: &str, words: &[&str]) -> Vec<String> {
    let csv = answer(&[&["place", "moon", time, "--csv"], &HERE[..], words].concat(), "");
    csv.lines().nth(1).unwrap().split(',').map(str::to_string).collect()
}

#[test]
fn a_time_is_read_and_written_back() {
    for (decimals, ms, written) in [
        ("", 0, ""),
        (".5", 500, ".5"),
        (".25", 250, ".25"),
        (".125", 125, ".125"),
        (".06", 60, ".06"),
        (".001", 1, ".001"),
        (".500", 500, ".5"),
        (".000", 0, ""),
    ] {
        let time = format!("2026-11-15T19:30:09{decimals}Z");
        let row = row(&time, &["--delta-t", "69"]);
        assert_eq!(row[1], format!("2026-11-15T19:30:09{written}Z"));
        assert_eq!(row[2..4], of_archive(Start::utc(2026, 11, 15, 19, 30, 9).fraction_ms(ms).delta_t_ms(69_000)), "{decimals}");
    }
    let zoned = ["place", "moon", "2026-11-16T08:30:09.125+13:00"];
    let text = answer(&[&zoned, &HERE[..]].concat(), "");
    assert!(text.starts_with("Moon at 2026-11-16T08:30:09.125+13:00 (2026-11-15T19:30:09.125Z)\n"), "{text}");
    let json = answer(&[&zoned, &HERE[..], &["--json"]].concat(), "");
    assert!(json.contains("\"time\": \"2026-11-16T08:30:09.125+13:00\""), "{json}");
}

#[test]
fn ut1_and_delta_t_are_taken_to_the_millisecond() {
    let time = "2003-10-17T19:30:30Z";
    let at = |ut1: &str, delta_t: &str| row(time, &["--ut1", ut1, "--delta-t", delta_t])[2..4].to_vec();
    let start = Start::utc(2003, 10, 17, 19, 30, 30).ut1_ms(-123).delta_t_ms(64_184);
    let exact = at("-0.123", "64.184");
    assert_eq!(exact, of_archive(start));
    for (ut1, delta_t) in [("-0.1", "64.184"), ("-0.123", "64.1"), ("-0.124", "64.184"), ("-0.123", "64.185")] {
        assert_ne!(exact, at(ut1, delta_t), "{ut1} {delta_t}");
    }
    // The farthest that are accepted.
    for (ut1, delta_t, ut1_ms, delta_t_ms) in [("-0.9", "-8000", -900, -8_000_000), ("0.9", "8000", 900, 8_000_000)] {
        assert_eq!(at(ut1, delta_t), of_archive(start.ut1_ms(ut1_ms).delta_t_ms(delta_t_ms)));
    }
}

#[test]
fn every_form_says_as_many_decimals_as_are_given() {
    for (ut1, delta_t) in [("-0.123", "64.184"), ("0.25", "67.25"), ("-0.4", "67.0")] {
        let said = |form: &[&str]| {
            let words = [&["day", "2003-10-17", "--ut1", ut1, "--delta-t", delta_t], &HERE[..], form].concat();
            answer(&words, "")
        };
        assert!(said(&[]).contains(&format!("\nUT1 minus UTC {ut1} s (given)\ndelta-T {delta_t} s (given)\n")));
        assert!(said(&["--csv"]).contains(&format!(",{ut1},given,{delta_t},given,")));
        let json =
            format!("\"ut1_minus_utc_seconds\": {ut1}, \"ut1_minus_utc_source\": \"given\", \"delta_t_seconds\": {delta_t}, ");
        assert!(said(&["--json"]).contains(&json));
    }
    let padded = row("2003-10-17T19:30:30Z", &["--ut1", "-0.400", "--delta-t", "67"]);
    assert_eq!((padded[6].as_str(), padded[8].as_str()), ("-0.4", "67.0"));
}

#[test]
fn the_last_moment_is_answered() {
    let last = Start::utc(2100, 12, 31, 23, 59, 59).fraction_ms(999).delta_t_ms(93_600);
    assert_eq!(row("2100-12-31T23:59:59.999Z", &[])[2..4], of_archive(last));
    let start = ["batch", "moon", "--start", "2100-12-31T23:59:59.998Z", "--delta-t", "93.6", "--csv"];
    let rows = answer(&[&start, &HERE[..]].concat(), "0.001\n");
    assert_eq!(rows.lines().nth(1).unwrap().split(',').collect::<Vec<&str>>()[1..3], of_archive(last));
}

// The last of them is 49 days, 17 hours, 2 minutes and 47.295 seconds after the start.
#[test]
fn offsets_reach_from_a_millisecond_to_49_days() {
    let here = [&HERE[..], &["--delta-t", "69", "--csv"]].concat();
    let by_offsets = answer(&[&["batch", "moon", "--start", "2026-01-01T00:00Z"], &here[..]].concat(), "0.001\n4294967.295\n");
    let by_times = answer(&[&["batch", "moon"], &here[..]].concat(), "2026-01-01T00:00:00.001Z\n2026-02-19T17:02:47.295Z\n");
    let answered = |table: &str| -> Vec<Vec<String>> {
        table.lines().skip(1).map(|row| row.split(',').skip(1).take(2).map(str::to_string).collect()).collect()
    };
    assert_eq!(answered(&by_offsets), answered(&by_times));
    let start = Start::utc(2026, 1, 1, 0, 0, 0).delta_t_ms(69_000);
    let places = raddlehue::places_ms(start, Body::Moon, BOULDER, &[1, u32::MAX]).unwrap();
    assert_eq!(answered(&by_offsets), places.into_iter().map(figures).collect::<Vec<[String; 2]>>());
}

// Of ../../tests/vectors/milliseconds.txt: sun 1949 1 12 3 18 41 906 31 -1239899 612395026 -325135240 1454
#[test]
fn a_place_of_the_vectors() {
    let here = ["--lon", "61.2395026E", "--lat", "32.513524S", "--height", "1454", "--ut1", "0.031", "--delta-t", "-1239.899"];
    let text = answer(&[&["place", "sun", "1949-01-12T03:18:41.906Z"], &here[..]].concat(), "");
    assert!(text.contains("\nUT1 minus UTC 0.031 s (given)\ndelta-T -1239.899 s (given)\nazimuth 99.71499373 degrees"), "{text}");
    assert!(text.contains("\nelevation 26.88456507 degrees"), "{text}");
}
