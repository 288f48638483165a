//! What is answered: the published example, the forms, the streams and their failures.

mod running;

use running::{answer, raddlehue};
use std::fs::OpenOptions;

const BOULDER: [&str; 8] = ["--lat", "39.742476", "--lon", "-105.1786", "--height", "1830", "--delta-t", "67"];
const DUNEDIN: [&str; 6] = ["--lat", "45.5S", "--lon", "170.5E", "--zone", "+13:00"];
const TROMSO: [&str; 6] = ["--lat", "69.6496N", "--lon", "18.956E", "--zone", "+01:00"];

// ---- figures

#[test]
fn the_published_example() {
    let at = ["place", "sun", "2003-10-17T19:30:30Z"];
    let text = answer(&[&at[..], &BOULDER].concat(), "");
    assert!(text.contains("azimuth 194.34024073 degrees"), "{text}");
    assert!(text.contains("elevation 39.87204605 degrees above the horizon, without refraction"), "{text}");
    assert!(text.contains("UT1 minus UTC 0.0 s (assumed") && text.contains("delta-T 67.0 s (given)"), "{text}");

    let shown = answer(&[&at[..], &BOULDER, &["--pressure", "820", "--temperature", "11"]].concat(), "");
    assert!(shown.contains("azimuth 194.34024073 degrees"), "{shown}");
    assert!(shown.contains("elevation 39.88837812 degrees above the horizon, with refraction"), "{shown}");

    let zoned = answer(&[&["place", "sun", "2003-10-17T12:30:30-07:00"], &BOULDER[..]].concat(), "");
    assert!(zoned.contains("(2003-10-17T19:30:30Z)") && zoned.contains("194.34024073"), "{zoned}");
}

// Its centre is already below the horizon, and it is still shown above; then its last rim has set, and there is no refraction.
#[test]
fn the_last_rim_of_the_sun() {
    let air = ["--pressure", "820", "--temperature", "11"];
    let at = |time, air: &[&str]| answer(&[&["place", "sun", time], &BOULDER[..], air].concat(), "");
    let plain = at("2003-10-17T00:18Z", &[]);
    assert!(plain.contains("elevation -0.39795751 degrees above the horizon, without refraction\n"), "{plain}");
    let shown = at("2003-10-17T00:18Z", &air);
    assert!(shown.contains("elevation 0.04263830 degrees above the horizon, with refraction\n"), "{shown}");
    assert!(shown.contains("refraction 0.44059581 degrees at 820 mbar and 11 degrees Celsius\n"), "{shown}");
    let set = at("2003-10-17T00:21Z", &air);
    assert!(set.contains("elevation -0.96425897 degrees above the horizon, with refraction\n"), "{set}");
    let none = "refraction 0.00000000 degrees at 820 mbar and 11 degrees Celsius, since there is none below -0.83337 degrees\n";
    assert!(set.contains(none), "{set}");
}

// 004 has 13:12:43 and 00:20:19 UT, the set being that of the day before in Boulder.
#[test]
fn the_published_sunrise() {
    let text = answer(&[&["day", "2003-10-17"], &BOULDER[..]].concat(), "");
    assert!(text.contains("the Sun sets at 00:21 and rises at 13:13\n"), "{text}");
    let zoned = answer(&[&["day", "2003-10-17", "--zone", "-07:00"], &BOULDER[..]].concat(), "");
    assert!(zoned.contains("the Sun rises at 06:13 and sets at 17:19\n"), "{zoned}");
    let before = answer(&[&["day", "2003-10-16", "--zone", "-07:00"], &BOULDER[..]].concat(), "");
    assert!(before.contains(" and sets at 17:21\n"), "{before}");
}

#[test]
fn a_body_that_does_not_rise_or_set() {
    let (tromso, greenwich) = (&TROMSO[..4], &["--lat", "51.4769", "--lon", "0", "--delta-t", "69.1"][..]);
    let days = [
        (
            ["day", "2026-06-21"],
            tromso,
            "the Sun does not set: it stays up all day",
            "Sun: does not set, up all day",
            "\"sun_rise_time\": null, \"sun_set_time\": null, \"sun_stays\": \"up\"",
            ",,,up,",
        ),
        (
            ["day", "2026-12-21"],
            tromso,
            "the Sun does not rise: it stays below the horizon all day",
            "Sun: does not rise, down all day",
            "\"sun_rise_time\": null, \"sun_set_time\": null, \"sun_stays\": \"down\"",
            ",,,down,",
        ),
        (
            ["day", "2026-11-03"],
            greenwich,
            "the Moon sets at 14:18 and does not rise on this day",
            "Moon: sets 14:18, does not rise",
            "\"moon_rise_time\": null, \"moon_set_time\": \"2026-11-03T14:18:00Z\", \"moon_stays\": null",
            ",,2026-11-03T14:18:00Z,\r\n",
        ),
        (
            ["day", "2026-11-18"],
            greenwich,
            "the Moon rises at 13:26 and does not set on this day",
            "Moon: rises 13:26, does not set",
            "\"moon_rise_time\": \"2026-11-18T13:26:00Z\", \"moon_set_time\": null, \"moon_stays\": null",
            ",2026-11-18T13:26:00Z,,\r\n",
        ),
    ];
    for (day, place, sentence, short, json, csv) in days {
        let said = |words: &[&str]| answer(&[&day[..], words, place].concat(), "");
        assert!(said(&[]).contains(&format!("\n{sentence}\n")), "{}", said(&[]));
        assert!(said(&["--json"]).contains(json), "{}", said(&["--json"]));
        assert!(said(&["--csv"]).contains(csv), "{}", said(&["--csv"]));
        let picture = answer(&[&["picture", day[1]], place].concat(), "");
        assert!(picture.contains(&format!(">{short}</text>")), "{short}");
    }
}

#[test]
fn a_table_says_its_day() {
    for words in [
        &["day", "2026-10-10"][..],
        &["day", "2026-10-10", "--json"],
        &["day", "2026-10-10", "--csv"],
        &["picture", "2026-10-10"],
    ] {
        let text = answer(&[words, &DUNEDIN].concat(), "");
        assert!(text.contains("2026-10-10"), "{words:?}");
        assert!(text.contains("68.8"), "{words:?} says delta-T");
    }
    let text = answer(&[&["day", "2026-10-10"], &DUNEDIN[..]].concat(), "");
    assert!(
        text.contains("times in UTC+13:00") && text.contains("a forecast from a table of years, observed to about 2022"),
        "{text}"
    );
    assert_eq!(text.lines().filter(|line| line.get(2..5) == Some(":00")).count(), 24);
    let text = answer(&[&["day", "2026-10-10", "--every", "1"], &DUNEDIN[..]].concat(), "");
    assert!(text.ends_with('\n') && text.lines().last().unwrap().starts_with("23:59"));
}

#[test]
fn a_table_agrees_with_its_places() {
    let rows = answer(&[&["day", "2026-10-10", "--csv", "--every", "720"], &DUNEDIN[..]].concat(), "");
    let noon: Vec<&str> = rows.lines().nth(2).unwrap().split(',').collect();
    assert_eq!(noon[0], "2026-10-10T12:00:00+13:00");
    let delta_t = noon[7];
    let sun =
        answer(&["place", "sun", "2026-10-09T23:00Z", "--lat", "-45.5", "--lon", "170.5", "--delta-t", delta_t, "--csv"], "");
    let sun: Vec<&str> = sun.lines().nth(1).unwrap().split(',').collect();
    assert_eq!((noon[1], noon[2]), (sun[2], sun[3]));
}

#[test]
fn a_track_is_answered_line_by_line() {
    let start = ["batch", "moon", "--start", "2026-11-15T19:30:00Z", "--lat", "45.5N", "--lon", "5.2E", "--csv"];
    let rows = answer(&start, "3600\n0\n0.5");
    let keys: Vec<&str> = rows.lines().map(|row| row.split(',').next().unwrap()).collect();
    assert_eq!(keys, ["offset_seconds", "3600", "0", "0.5"]);
    let times = ["batch", "moon", "--lat", "45.5N", "--lon", "5.2E", "--csv"];
    let at = answer(&times, "2026-11-15T20:30:00Z\n2026-11-15T20:30:00+01:00\n2026-11-15T19:30:00.5Z\n");
    let figures =
        |text: &str| -> Vec<String> { text.lines().skip(1).map(|row| row.split_once(',').unwrap().1.to_string()).collect() };
    assert_eq!(figures(&rows), figures(&at));
    let text = answer(&times[..6], "2003-10-17T19:30:30Z\n2050-10-17T19:30:30Z\n");
    assert!(text.contains("delta-T 64.5 s to 74.8 s") && text.contains("observed to about 2022"), "{text}");
    assert_eq!(answer(&times, "").lines().count(), 1);
    assert!(answer(&times[..6], "").contains("azimuth in degrees"));
}

#[test]
fn the_middle_says_its_unit() {
    assert_eq!(answer(&["middle", "35990000000", "10000000"], ""), "0 in units of 1e-8 degree\n0.00000000 degrees\n");
    assert_eq!(answer(&["middle", "10", "13"], ""), "11 in units of 1e-8 degree\n0.00000011 degrees\n");
}

// ---- forms

#[test]
fn forms_have_units_in_their_names() {
    let json = answer(&[&["place", "sun", "2003-10-17T19:30:30Z", "--json"], &BOULDER[..]].concat(), "");
    for member in [
        "\"azimuth_degrees\": 194.34024073", "\"elevation_degrees\": 39.87204605", "\"delta_t_seconds\": 67.0",
        "\"ut1_minus_utc_seconds\": 0.0",
    ] {
        assert!(json.contains(member), "{json}");
    }
    assert_eq!(json.matches('{').count(), json.matches('}').count());
    let csv = answer(&[&["day", "2026-10-10", "--csv"], &DUNEDIN[..]].concat(), "");
    let columns = |row: &str| row.split(',').count();
    assert!(csv.starts_with(
        "time,sun_azimuth_degrees,sun_elevation_degrees,moon_azimuth_degrees,moon_elevation_degrees,ut1_minus_utc_seconds,"
    ));
    assert!(csv.split_terminator("\r\n").all(|row| columns(row) == 15 && !row.contains(['\r', '\n'])), "{csv}");
}

#[test]
fn no_locale_changes_a_byte() {
    let commands = [
        &["day", "2026-10-10"][..],
        &["day", "2026-10-10", "--json"],
        &["day", "2026-10-10", "--csv"],
        &["picture", "2026-10-10"],
        &["year", "2026"],
        &["eclipse", "2028-07-22"],
        &["eclipse", "2028-07-22", "--json"],
        &["eclipse", "2028-07-22", "--csv"],
        &["eclipse", "2028-07-22", "--picture"],
    ];
    for words in commands {
        let in_locale =
            |locale: &str| raddlehue(&[words, &DUNEDIN].concat()).env("LC_ALL", locale).env("LANG", locale).output().unwrap();
        let (german, plain) = (in_locale("de_DE.UTF-8"), in_locale("C"));
        assert!(plain.status.success() && !plain.stdout.is_empty());
        assert_eq!(german, plain, "{words:?}");
    }
}

#[test]
fn help_and_version_are_answers() {
    let help = answer(&["--help"], "");
    let fits = |page: &str| page.lines().all(|line| line.len() <= 80);
    assert!(fits(&help), "a page fits a terminal");
    let strips = ["strip make", "strip show", "strip find"];
    for command in ["day", "place", "batch", "middle", "eclipse", "picture", "year", "plan", "judge"].into_iter().chain(strips) {
        let name: Vec<&str> = command.split(' ').collect();
        assert!(help.contains(&format!("raddlehue {command} ")), "{command}");
        let page = answer(&[&name[..], &["--help"]].concat(), "");
        assert!(page.starts_with(&format!("raddlehue {command} ")) && fits(&page), "{command}");
        assert_eq!(answer(&[&name[..], &["2026-10-10", "-h"]].concat(), ""), page);
    }
    let pages = strips.map(|command| answer(&["strip", &command[6..], "-h"], ""));
    assert_eq!(answer(&["strip", "--help"], ""), pages.join("\n"));
    assert!(help.contains("outside the proofs") && help.contains("forecast"));
    assert_eq!(answer(&["--version"], "").split(' ').nth(1), Some(env!("CARGO_PKG_VERSION")));
}

#[test]
fn a_picture_can_be_heard_and_read() {
    let svg = answer(&[&["picture", "2026-10-10"], &DUNEDIN[..]].concat(), "");
    for part in [
        "<title id=\"raddlehue-title\">Sun and Moon on 2026-10-10",
        "<desc id=\"raddlehue-desc\">",
        "role=\"img\"",
        "prefers-color-scheme: dark",
        "viewBox=\"0 0 1000 ",
    ] {
        assert!(svg.contains(part), "{part}");
    }
    assert!(svg.contains("stroke-dasharray"), "the Moon's line is told apart without colour");
    assert!(svg.contains("font: 36px") && svg.contains("font-size: 44px"), "text has at least 3.5 % of the width");
    assert_eq!(svg.matches("font-size").count(), 1);
    assert!(!svg.contains("NaN") && !svg.contains("inf"));
}

/// The lines of the paths: each begins with an M, and the samples under the dome, which have an h, are none.
fn lines(svg: &str) -> Vec<Vec<(f64, f64)>> {
    let paths = svg.lines().filter(|line| line.contains(" path\" d=\"") && !line.contains("h90"));
    let point = |text: &str| text.split_once(' ').map(|(x, y)| (x.parse().unwrap(), y.parse().unwrap())).unwrap();
    let figures = paths.map(|line| line.split('"').nth(3).unwrap());
    figures.flat_map(|path| path.split('M').skip(1)).map(|line| line.split('L').map(point).collect()).collect()
}

#[test]
fn no_path_jumps() {
    let skies = [
        ("2003-10-17", "39.742476", "-105.1786"),     // the north
        ("2026-11-15", "-45.5", "170.5"),             // the south
        ("2026-05-28", "21.4225", "39.8262"),         // the Sun 0.1 degree from the zenith
        ("2027-05-28", "21.5390192", "-158.1709847"), // the Sun goes through the zenith itself
        ("2026-11-15", "-21.5680134", "40.3360749"),  // the Moon does
        ("2026-03-20", "0", "0"),                     // the equator at an equinox
        ("2026-06-21", "9.5", "-79.5"),               // the Sun goes through the north, where the sheet has its edge
        ("2026-06-21", "69.6492", "18.9553"),         // a polar day
        ("2026-12-21", "90", "0"),                    // a polar night
        ("2100-12-31", "-90", "180"),                 // the last day
    ];
    for (date, latitude, longitude) in skies {
        let svg = answer(&["picture", date, "--lat", latitude, "--lon", longitude], "");
        assert!(!lines(&svg).is_empty(), "{date} {latitude} {longitude} has no path");
        for pair in lines(&svg).iter().flat_map(|line| line.windows(2)) {
            let (a, b) = (pair[0], pair[1]);
            assert!((a.0 - b.0).hypot(a.1 - b.1) < 13.0, "{date} {latitude} {longitude}: from {a:?} to {b:?}");
        }
    }
}

// ---- a year

#[test]
fn a_year_is_its_days() {
    let table = answer(&[&["year", "2026", "--csv"], &TROMSO[..]].concat(), "");
    let rows: Vec<Vec<&str>> = table.split_terminator("\r\n").map(|row| row.split(',').collect()).collect();
    assert_eq!(rows[0][..4], ["date", "sun_rise_time", "sun_set_time", "sun_stays"]);
    assert!(rows.len() == 366 && rows.iter().all(|row| row.len() == 8));
    assert_eq!((rows[1][0], rows[365][0]), ("2026-01-01", "2026-12-31"));
    for index in [1, 15, 16, 100, 137, 138, 205, 206, 207, 331, 332, 365] {
        let date = rows[index][0];
        let day = answer(&[&["day", date, "--csv", "--every", "1440"], &TROMSO[..]].concat(), "");
        let day: Vec<&str> = day.lines().nth(1).unwrap().split(',').collect();
        assert_eq!(rows[index][1..4], day[9..12], "{date}");
        assert_eq!(rows[index][4..], day[5..9], "{date}");
    }
    let staying = |side: &str| rows.iter().filter(|row| row[3] == side).count();
    assert_eq!((staying("up"), staying("down")), (68, 48));
    assert_eq!(rows.iter().filter(|row| row[1].is_empty() != row[2].is_empty()).count(), 1);
}

#[test]
fn a_year_can_be_heard_and_read() {
    let svg = answer(&[&["year", "2024", "--delta-t", "69.2"], &TROMSO[..]].concat(), "");
    for part in [
        "<title id=\"raddlehue-title\">Sunrise and sunset in 2024, 69.6496° N, 18.956° E, UTC+01:00</title>",
        "<desc id=\"raddlehue-desc\">Sunrise and sunset through 2024 from latitude 69.6496 N, longitude 18.956 E, height 0 m, times in UTC+01:00.",
        "up all day on ",
        "down all day on ",
        "role=\"img\"",
        "prefers-color-scheme: dark",
        "viewBox=\"0 0 1000 ",
        "delta-T 69.2 s (given)",
        "width=\"878.4\"",
    ] {
        assert!(svg.contains(part), "{part}");
    }
    assert!(svg.contains("stroke-dasharray"), "the line of sunset is told apart without colour");
    assert!(svg.contains("font: 36px") && svg.matches("font-size").count() == 1, "text has at least 3.5 % of the width");
    assert!(!svg.contains("NaN") && !svg.contains("inf"));
}

// At a pole the Sun rises on one day of the year and sets on another: each is a mark, since no line goes through it.
#[test]
fn a_year_at_a_pole() {
    let svg = answer(&["year", "2026", "--lat", "90S", "--lon", "0"], "");
    assert!(svg.contains("<path class=\"rise\" d=\"\"/>") && svg.contains("<path class=\"set\" d=\"\"/>"));
    assert_eq!((svg.matches("class=\"rise-mark\"").count(), svg.matches("class=\"set-mark\"").count()), (1, 1));
}

// ---- streams

#[cfg(target_os = "linux")]
#[test]
fn a_full_disk_is_an_error() {
    for words in
        [&["day", "2026-10-10"][..], &["picture", "2026-10-10"], &["year", "2026"], &["eclipse", "2028-07-22", "--picture"]]
    {
        let full = OpenOptions::new().write(true).open("/dev/full").unwrap();
        let output = raddlehue(&[words, &DUNEDIN].concat()).stdout(full).output().unwrap();
        assert_eq!(output.status.code(), Some(1));
        assert!(String::from_utf8(output.stderr).unwrap().contains("cannot be written"));
    }
    let full = OpenOptions::new().write(true).open("/dev/full").unwrap();
    assert_eq!(raddlehue(&["--help"]).stdout(full).output().unwrap().status.code(), Some(1));
}

#[cfg(target_os = "linux")]
#[test]
fn nobody_hears_and_the_status_is_the_same() {
    let full = OpenOptions::new().write(true).open("/dev/full").unwrap();
    assert_eq!(raddlehue(&["nonsense"]).stderr(full).status().unwrap().code(), Some(2));
}
