//! A body straight overhead or straight underfoot has no azimuth: every form says so, and no picture turns it to the north.

mod running;

use running::answer;

/// A body at a moment, with the second before it, and where it has no azimuth then.
struct Case {
    body: &'static str,
    before: &'static str,
    time: &'static str,
    here: [&'static str; 6],
    why: &'static str,
    elevation: &'static str,
}

const fn here(latitude: &'static str, longitude: &'static str) -> [&'static str; 6] {
    ["--lat", latitude, "--lon", longitude, "--delta-t", "68.8"]
}

const OVER: &str = "89.99999993";
const UNDER: &str = "-89.99999993";

const SUN_OVER_OAHU: Case = Case {
    body: "sun",
    before: "2027-05-28T22:29:59Z",
    time: "2027-05-28T22:30:00Z",
    here: here("21.5390192N", "158.1709847W"),
    why: "the Sun stands straight overhead",
    elevation: OVER,
};
const SUN_UNDER: Case = Case {
    body: "sun",
    before: "2026-11-15T09:59:59Z",
    time: "2026-11-15T10:00:00Z",
    here: here("18.534192N", "153.8551831W"),
    why: "the Sun stands straight underfoot",
    elevation: UNDER,
};
const MOON_OVER: Case = Case {
    body: "moon",
    before: "2026-11-15T13:59:59Z",
    time: "2026-11-15T14:00:00Z",
    here: here("21.5680134S", "40.3360749E"),
    why: "the Moon stands straight overhead",
    elevation: OVER,
};
const MOON_UNDER: Case = Case {
    body: "moon",
    before: "2026-11-15T13:59:59Z",
    time: "2026-11-15T14:00:00Z",
    here: here("21.5638686N", "139.6639251W"),
    why: "the Moon stands straight underfoot",
    elevation: UNDER,
};
const CASES: [Case; 4] = [SUN_OVER_OAHU, SUN_UNDER, MOON_OVER, MOON_UNDER];

fn said(words: &[&str], case: &Case) -> String {
    answer(&[words, &case.here].concat(), "")
}

/// The lines of a table, each by its columns.
fn columns(table: &str) -> Vec<Vec<&str>> {
    table.split_terminator("\r\n").map(|row| row.split(',').collect()).collect()
}

// ---- tables

#[test]
fn one_place() {
    for case in CASES {
        let Case { body, time, why, elevation, .. } = case;
        let text = said(&["place", body, time], &case);
        let lines = format!("\nazimuth none: {why}\nelevation {elevation} degrees above the horizon, without refraction\n");
        assert!(text.ends_with(&lines), "{text}");
        let json = said(&["place", body, time, "--json"], &case);
        assert!(json.contains(&format!("\"azimuth_degrees\": null, \"elevation_degrees\": {elevation}\n")), "{json}");
        let csv = said(&["place", body, time, "--csv"], &case);
        assert_eq!(columns(&csv)[1][..6], [body, time, "", elevation, "", "false"]);
    }
}

#[test]
fn one_place_as_it_is_shown() {
    let air = ["--pressure", "1010", "--temperature", "25"];
    for case in CASES {
        let Case { body, time, why, .. } = case;
        let text = said(&[&["place", body, time], &air[..]].concat(), &case);
        assert!(text.contains(&format!("\nazimuth none: {why}\nelevation ")) && text.contains(", with refraction\n"), "{text}");
        let json = said(&[&["place", body, time, "--json"], &air[..]].concat(), &case);
        assert!(json.contains("\"azimuth_degrees\": null, \"elevation_degrees\": "), "{json}");
        let csv = said(&[&["place", body, time, "--csv"], &air[..]].concat(), &case);
        assert_eq!((columns(&csv)[1][2], columns(&csv)[1][5]), ("", "true"));
    }
}

// A second before and after there is an azimuth, on opposite sides.
#[test]
fn a_track() {
    for case in CASES {
        let Case { body, before, time, why, elevation, .. } = case;
        let start = ["batch", body, "--start", before];
        let track = |form: &[&str]| answer(&[&start, form, &case.here].concat(), "0\n1\n2\n");
        let text = track(&[]);
        assert_eq!(text.matches(why).count(), 1, "{text}");
        assert!(text.contains(&format!("\nazimuth none where {why}\n")), "{text}");
        assert!(text.contains(&format!("\n     1          none  {elevation:>12}\n")), "{text}");
        let json = track(&["--json"]);
        assert!(
            json.contains(&format!("{{\"offset_seconds\": 1, \"azimuth_degrees\": null, \"elevation_degrees\": {elevation}, "))
        );
        assert_eq!(json.matches("null").count(), 1, "{json}");
        let csv = track(&["--csv"]);
        let rows = columns(&csv);
        assert_eq!(rows[2][..3], ["1", "", elevation]);
        let azimuth = |row: usize| rows[row][1].parse::<f64>().unwrap();
        assert!(((azimuth(1) - azimuth(3)).abs() - 180.0).abs() < 1.0, "{csv}");
        assert!(rows.iter().all(|row| row.len() == rows[0].len()));
        let at = answer(&[&["batch", body, "--csv"], &case.here[..]].concat(), &format!("{time}\n"));
        assert_eq!(columns(&at)[1][1..], rows[2][1..]);
    }
}

#[test]
fn a_day() {
    for case in CASES {
        let Case { body, time, why, elevation, .. } = case;
        let day = |form: &[&str]| said(&[&["day", &time[..10], "--every", "30"], form].concat(), &case);
        let text = day(&[]);
        assert_eq!(text.matches(&format!("\nazimuth none where {why}\nelevation in degrees")).count(), 1, "{text}");
        let line = text.lines().find(|line| line.starts_with(&time[11..16])).unwrap();
        assert!(line.len() == text.lines().last().unwrap().len() && line.contains("  none  "), "{text}");
        let json = day(&["--json"]);
        assert_eq!(json.matches("\"azimuth_degrees\": null").count(), 1);
        assert!(
            json.contains(&format!("\"{body}\": {{\"azimuth_degrees\": null, \"elevation_degrees\": {elevation}}}")),
            "{json}"
        );
        let csv = day(&["--csv"]);
        let rows = columns(&csv);
        let row = rows.iter().find(|row| row[0] == time).unwrap();
        let first = if body == "sun" { 1 } else { 3 };
        assert_eq!((row[first], row[first + 1], row.len()), ("", elevation, rows[0].len()));
    }
}

// ---- pictures of a day

/// Where the dome of a picture ends, and the mark of an hour there.
const MARKS_AT_THE_ZENITH: [&str; 2] =
    ["<circle class=\"sun-mark\" cx=\"500.0\" cy=\"185.0\"", "<path class=\"moon-mark\" d=\"M500.0 173.0l12 12l"];

#[test]
fn a_body_overhead_is_drawn_at_the_zenith() {
    // In this zone the Sun stands there at 13:00, which has a mark.
    for (case, date, zone, mark) in [(SUN_OVER_OAHU, "2027-05-28", "-09:30", 0), (MOON_OVER, "2026-11-15", "Z", 1)] {
        let svg = said(&["picture", date, "--zone", zone], &case);
        let there = MARKS_AT_THE_ZENITH.map(|mark| svg.matches(mark).count());
        assert_eq!((there[mark], there[1 - mark]), (1, 0), "{}", case.why);
        assert_eq!(svg.matches(", azimuth none</text>").count(), 1);
        assert!(svg.contains(&format!(", azimuth none: {}. ", case.why)), "it can be heard");
        assert!(svg.contains(">highest 90.0° at ") && !svg.contains("NaN") && !svg.contains("inf"));
    }
}

#[test]
fn a_body_underfoot_is_not_drawn() {
    for case in [SUN_UNDER, MOON_UNDER] {
        let svg = said(&["picture", &case.time[..10]], &case);
        assert!(!svg.contains("azimuth none") && !svg.contains("NaN") && !svg.contains("inf"));
        assert!(MARKS_AT_THE_ZENITH.iter().all(|mark| !svg.contains(mark)));
    }
}

// ---- eclipses

/// The Sun is straight overhead at the first contact, or straight underfoot.
const ECLIPSES: [(&str, &str, &str); 2] = [("20.2748935N", "156.1626339E", "66.5"), ("20.2750398S", "23.554042W", "66.4")];

fn eclipse((latitude, longitude, delta_t): (&str, &str, &str), form: &[&str]) -> String {
    answer(&[&["eclipse", "2009-07-22", "--lat", latitude, "--lon", longitude, "--delta-t", delta_t], form].concat(), "")
}

#[test]
fn the_sun_of_an_eclipse() {
    let told = [("overhead", "90.0000", OVER, "up"), ("underfoot", "-90.0000", UNDER, "down")];
    for (here, (side, shown, elevation, is)) in ECLIPSES.into_iter().zip(told) {
        let text = eclipse(here, &[]);
        assert_eq!(text.matches(&format!("\nazimuth none where the Sun stands straight {side}\n")).count(), 1, "{text}");
        let first = text.lines().find(|line| line.starts_with("first contact")).unwrap();
        assert!(first.ends_with(&format!("         none  {shown:>13}  {is}")), "{text}");
        let json = eclipse(here, &["--json"]);
        assert!(json.contains(&format!("\"sun_azimuth_degrees\": null, \"sun_elevation_degrees\": {elevation}, ")), "{json}");
        assert_eq!(json.matches("\"sun_azimuth_degrees\": null").count(), 1);
        let csv = eclipse(here, &["--csv"]);
        let rows = columns(&csv);
        assert_eq!((rows[1][0], rows[1][3], rows[1][4]), ("first_contact", "", elevation));
        assert!(rows.iter().all(|row| row.len() == 17) && rows[2..].iter().all(|row| !row[3].is_empty()));
    }
}

// The zenith lies on no side of such a Sun: the Moon is drawn by its own azimuth, as one looks up to it or down.
#[test]
fn the_disks_of_an_eclipse_have_north_up() {
    let notes = ["Sun straight overhead: north up, east left", "Sun straight underfoot: north up, east right"];
    for (here, (note, east)) in ECLIPSES.into_iter().zip(notes.into_iter().zip([-1.0, 1.0])) {
        let svg = eclipse(here, &["--picture"]);
        assert_eq!(svg.matches(&format!(">{note}</text>")).count(), 1);
        let rim = svg.lines().find(|line| line.starts_with("<circle class=\"rim\"")).unwrap();
        let drawn = [3, 5].map(|at| rim.split('"').nth(at).unwrap().parse::<f64>().unwrap());
        let csv = eclipse(here, &["--csv"]);
        let first = &columns(&csv)[1];
        let (latitude, longitude, delta_t) = here;
        let moon = ["place", "moon", first[1], "--lat", latitude, "--lon", longitude, "--delta-t", delta_t, "--csv"];
        let azimuth = columns(&answer(&moon, ""))[1][2].parse::<f64>().unwrap().to_radians();
        // A degree takes 190 of the sheet.
        let far = 190.0 * first[6].parse::<f64>().unwrap();
        let is_near = |found: f64, wanted: f64| (found - wanted).abs() < 0.2;
        assert!(is_near(drawn[0], east * far * azimuth.sin()) && is_near(drawn[1], -far * azimuth.cos()), "{rim}");
    }
    let other = answer(&["eclipse", "2026-08-12", "--lat", "42.34N", "--lon", "3.7W", "--picture"], "");
    assert!(!other.contains("north up"));
}

// ---- the vectors

/// Units of 10 to the minus `decimals` as the command has them: -5 with 1 decimal is "-0.5".
fn decimal(units: &str, decimals: usize) -> String {
    let (sign, digits) = units.strip_prefix('-').map_or(("", units), |digits| ("-", digits));
    let digits = format!("{digits:0>width$}", width = decimals + 1);
    let (whole, part) = digits.split_at(digits.len() - decimals);
    format!("{sign}{whole}.{part}")
}

// They have decimals of a second, UT1 minus UTC and delta-T at either end, and every decimal of a point; a unit beside each there is an azimuth.
#[test]
fn every_vector_can_be_said_in_words() {
    let mut without = 0;
    for line in include_str!("../../tests/vectors/overhead.txt").lines().filter(|line| !line.starts_with('#')) {
        let (asked, told) = line.split_once(" | ").unwrap();
        let asked: Vec<&str> = asked.split(' ').collect();
        let told: Vec<&str> = told.split(' ').collect();
        let [body, year, month, day, hour, minute, second, ms, ut1, delta_t, longitude, latitude, height, "none"] = asked[..]
        else {
            continue;
        };
        let time = format!("{year}-{month:0>2}-{day:0>2}T{hour:0>2}:{minute:0>2}:{second:0>2}.{ms:0>3}Z");
        let [ut1, delta_t] = [ut1, delta_t].map(|ms| decimal(ms, 3));
        let [longitude, latitude] = [longitude, latitude].map(|units_e7| decimal(units_e7, 7));
        let here = ["--lat", &latitude, "--lon", &longitude, "--height", height, "--ut1", &ut1, "--delta-t", &delta_t];
        let csv = answer(&[&["place", body, &time, "--csv"], &here[..]].concat(), "");
        let azimuth = if told[1] == "none" { String::new() } else { decimal(told[1], 8) };
        assert_eq!(columns(&csv)[1][2..4], [azimuth.as_str(), &decimal(told[2], 8)], "{line}");
        without += usize::from(azimuth.is_empty());
    }
    assert!(without > 50, "{without}");
}
