//! What is answered of eclipses: those of the report, those that the horizon or midnight cuts, and days that have none.

mod running;

use running::answer;

const BURGOS: [&str; 6] = ["--lat", "42.34N", "--lon", "3.7W", "--zone", "+02:00"];
/// Where the Sun is low in the north at midnight, and is covered then.
const TAIMYR: [&str; 6] = ["--lat", "75N", "--lon", "110E", "--zone", "+07:00"];

fn eclipse(date: &str, words: &[&str]) -> String {
    answer(&[&["eclipse", date], words].concat(), "")
}

/// The lines of a table under its head, each by its columns.
fn rows(date: &str, words: &[&str]) -> Vec<Vec<String>> {
    let table = eclipse(date, &[words, &["--csv"]].concat());
    table.split_terminator("\r\n").skip(1).map(|row| row.split(',').map(str::to_string).collect()).collect()
}

fn phases(rows: &[Vec<String>]) -> Vec<&str> {
    rows.iter().map(|row| row[0].as_str()).collect()
}

// ---- figures

// 003, Table 4, with its places and its delta-T.
#[test]
fn the_seven_eclipses_of_the_report() {
    for (date, longitude, latitude, delta_t, kind) in [
        ("2009-07-22", "143.3617", "24.6117", "66.4", "total"),
        ("2008-08-01", "34.7417", "81.1133", "65.8", "total"),
        ("2006-03-29", "22.8867", "29.62", "64.9", "total"),
        ("2005-04-08", "-123.4817", "-15.7883", "64.8", "total"),
        ("2002-12-04", "62.8383", "-40.5283", "64.4", "total"),
        ("2001-06-21", "0.9867", "-11.595", "64.2", "total"),
        ("1981-02-04", "-145.9033", "-45.8883", "51.5", "annular"),
    ] {
        let rows = rows(date, &["--lon", longitude, "--lat", latitude, "--delta-t", delta_t]);
        let inner = if kind == "total" { ["totality_begins", "totality_ends"] } else { ["ring_begins", "ring_ends"] };
        assert_eq!(phases(&rows), ["first_contact", inner[0], "maximum", inner[1], "last_contact"], "{date}");
        assert!(rows.iter().all(|row| row[9] == kind && row[10] == "up"), "{date}");
        assert_eq!(kind == "total", rows[2][2] == "100.0000", "{date}");
    }
}

// By the second, the share is above 0 from the first to the last, and the whole between the other two.
#[test]
fn to_the_second() {
    let text = eclipse("2009-07-22", &["--lon", "143.3617", "--lat", "24.6117", "--delta-t", "66.4"]);
    for line in [
        "\na total eclipse: the whole Sun is covered for 6 min 41 s\nthe Sun is up throughout\nmaximum while the Sun is up: 100.0000 % at 02:3",
        "\nfirst contact    01:05:48 ",
        "\ntotality begins  02:29:35  100.0000 ",
        "\ntotality ends    02:36:16  100.0000 ",
        "\nlast contact     03:56:46 ",
    ] {
        assert!(text.contains(line), "{line}: {text}");
    }
}

#[test]
fn a_sun_that_sets_during_the_eclipse() {
    let text = eclipse("2026-08-12", &BURGOS);
    assert!(text.contains("\nthe Sun sets at 21:20:15 during the eclipse; the maximum comes while it is up\n"), "{text}");
    let rows = rows("2026-08-12", &BURGOS);
    assert_eq!(phases(&rows), ["first_contact", "totality_begins", "maximum", "totality_ends", "sunset", "last_contact"]);
    let up: Vec<&str> = rows.iter().map(|row| row[5].as_str()).collect();
    assert_eq!(up, ["true", "true", "true", "true", "true", "false"]);
    assert!(rows.iter().all(|row| row[10].is_empty() && row[11] == rows[2][1] && row[12] == "100.0000"));
}

#[test]
fn a_maximum_below_the_horizon() {
    let new_york = ["--lat", "40.71N", "--lon", "74.006W", "--zone", "-04:00"];
    let text = eclipse("2025-03-29", &new_york);
    assert!(text.contains(" during the eclipse; the maximum comes before sunrise\nmaximum while the Sun is up: 27."), "{text}");
    assert!(text.contains(", at sunrise\n"), "{text}");
    let rows = rows("2025-03-29", &new_york);
    assert_eq!(phases(&rows), ["first_contact", "maximum", "sunrise", "last_contact"]);
    assert_eq!((&rows[0][11], &rows[0][12]), (&rows[2][1], &rows[2][2]), "the most that is seen is at sunrise");
    let night = eclipse("2026-08-13", &["--lat", "40N", "--lon", "120E", "--zone", "+08:00"]);
    assert!(night.contains("\nthe Sun is below the horizon throughout, so that nothing is seen\n"), "{night}");
    assert!(night.contains("\na partial eclipse: ") && !night.contains("while the Sun is up"), "{night}");
}

// ---- midnight, and the ends of the years

#[test]
fn an_eclipse_over_midnight_is_told_on_both_days() {
    let (before, after) = (rows("2026-08-12", &TAIMYR), rows("2026-08-13", &TAIMYR));
    assert_eq!(before, after);
    assert!(before[0][1].starts_with("2026-08-12T23:10:") && before[4][1].starts_with("2026-08-13T00:52:"));
    assert!(eclipse("2026-08-12", &TAIMYR).contains("\nlast contact     2026-08-13 00:52:"));
    assert!(eclipse("2026-08-13", &TAIMYR).contains("\nfirst contact    2026-08-12 23:10:"));
    assert!(eclipse("2026-08-13", &[&TAIMYR[..], &["--picture"]].concat())
        .contains(">from 2026-08-12 23:10 to 2026-08-13 00:52</text>"));
    // Further south the Sun skims the horizon: it sets, and rises before the eclipse is over.
    let skims = eclipse("2026-08-12", &[&["--lat", "74.3N"], &TAIMYR[2..]].concat());
    assert!(skims.contains("\nthe Sun sets at 23:26:") && skims.contains(" and rises at 2026-08-13 00:05:"), "{skims}");
}

#[test]
fn a_day_without_an_eclipse() {
    let here = ["--lat", "45.5S", "--lon", "170.5E"];
    let text = eclipse("2026-11-15", &here);
    assert!(text.contains("\nno eclipse here on this day\nthe Sun and the Moon are nearest at "), "{text}");
    let json = eclipse("2026-11-15", &[&here[..], &["--json"]].concat());
    assert!(json.contains("\"kind\": \"none\", \"sun_stays\": null, \"maximum_while_up_time\": null"), "{json}");
    let rows = rows("2026-11-15", &here);
    assert_eq!((phases(&rows), rows[0][2].as_str(), rows[0][9].as_str()), (vec!["nearest"], "0.0000", "none"));
    let svg = eclipse("2026-11-15", &[&here[..], &["--picture"]].concat());
    assert!(svg.contains(">no eclipse here on this day</text>") && !svg.contains("NaN"));
    // The first and the last day have no day before or after that is answered.
    for date in ["1900-01-01", "2100-12-31"] {
        assert!(eclipse(date, &here).contains("\nno eclipse here on this day\n"), "{date}");
    }
}

// ---- forms

#[test]
fn forms_have_units_in_their_names() {
    let json = eclipse("2026-08-12", &[&BURGOS[..], &["--json"]].concat());
    for member in [
        "\"date\": \"2026-08-12\", \"zone\": \"+02:00\"",
        "\"delta_t_seconds\": 68.8, \"delta_t_source\": \"table_forecast\"",
        "\"rise_set_elevation_degrees\": -0.8333",
        "\"kind\": \"total\", \"sun_stays\": null",
        "\"maximum_while_up_covered_percent\": 100.0000",
        "{\"phase\": \"first_contact\", \"time\": \"2026-08-12T19:33:",
        "\"sun_is_up\": false, \"separation_degrees\": 0.5",
    ] {
        assert!(json.contains(member), "{member}: {json}");
    }
    assert_eq!(json.matches('{').count(), json.matches('}').count());
    let csv = eclipse("2026-08-12", &[&BURGOS[..], &["--csv"]].concat());
    assert!(csv.starts_with("phase,time,covered_percent,sun_azimuth_degrees,sun_elevation_degrees,sun_is_up,separation_degrees,"));
    assert!(csv.split_terminator("\r\n").all(|row| row.split(',').count() == 17 && !row.contains(['\r', '\n'])), "{csv}");
}

// ---- the picture

/// The words of a picture and the box about each: a letter is about 20 units wide, and lines are 36 high.
fn boxes(svg: &str) -> Vec<(String, [f64; 4])> {
    let number = |line: &str, name: &str| -> f64 {
        line.split_once(&format!(" {name}=\"")).unwrap().1.split('"').next().unwrap().parse().unwrap()
    };
    let texts = svg.lines().filter(|line| line.starts_with("<text") && !line.contains("class=\"title\""));
    let box_of = |line: &str| {
        let words = line.split_once('>').unwrap().1.trim_end_matches("</text>").to_string();
        let (x, foot, width) = (number(line, "x"), number(line, "y"), 20.0 * words.chars().count() as f64);
        let left = match (line.contains("class=\"middle\""), line.contains("class=\"end\"")) {
            (true, _) => x - width / 2.0,
            (_, true) => x - width,
            _ => x,
        };
        (words, [left, left + width, foot - 30.0, foot])
    };
    texts.map(box_of).collect()
}

#[test]
fn no_words_of_a_picture_touch() {
    let graze = ["--lat", "8.1800842N", "--lon", "100E"];
    let skims = [&["--lat", "74.3N"], &TAIMYR[2..]].concat();
    let short_total = ["--lon", "-123.4817", "--lat", "-15.7883", "--delta-t", "64.8"];
    let overhead = ["--lon", "156.1626339", "--lat", "20.2748935", "--delta-t", "66.5"];
    let underfoot = ["--lon", "-23.554042", "--lat", "-20.2750398", "--delta-t", "66.4"];
    for (date, here) in [
        ("2026-08-12", &BURGOS[..]),
        ("2026-08-12", &TAIMYR),
        ("2026-08-12", &skims),
        ("2026-08-12", &graze),
        ("2005-04-08", &short_total),
        ("2009-07-22", &overhead),
        ("2009-07-22", &underfoot),
    ] {
        let svg = eclipse(date, &[here, &["--picture"]].concat());
        let boxes = boxes(&svg);
        for (index, (words, [left, right, top, foot])) in boxes.iter().enumerate() {
            assert!(*left >= 0.0 && *right <= 1000.0, "{here:?}: {words} lies beyond the sheet");
            for (others, [other_left, other_right, other_top, other_foot]) in &boxes[..index] {
                let apart = left >= other_right || other_left >= right || top >= other_foot || other_top >= foot;
                assert!(apart, "{here:?}: {words} touches {others}");
            }
        }
        assert!(!svg.contains("NaN") && !svg.contains("inf"));
    }
}

#[test]
fn a_picture_can_be_heard_and_read() {
    let svg = eclipse("2026-08-12", &[&BURGOS[..], &["--picture"]].concat());
    for part in [
        "<title id=\"raddlehue-title\">Eclipse of the Sun on 2026-08-12, 42.34° N, 3.7° W, UTC+02:00</title>",
        "<desc id=\"raddlehue-desc\">The share of the Sun's disk that the Moon covers on 2026-08-12 from latitude 42.34 N",
        "first contact 19:33:",
        "role=\"img\"",
        "prefers-color-scheme: dark",
        "viewBox=\"0 0 1000 ",
        ">the Sun is down</text>",
        ">totality</text>",
        ">delta-T 68.8 s (forecast since 2022)</text>",
    ] {
        assert!(svg.contains(part), "{part}");
    }
    assert!(svg.contains("font: 36px") && svg.matches("font-size").count() == 1, "text has at least 3.5 % of the width");
    // Five windows; in the last the Sun is down, as it is on the rest of the chart.
    assert_eq!(svg.matches("<circle class=\"rim\"").count(), 5);
    assert_eq!(svg.matches("<rect class=\"dark\" x=\"-86.0\"").count(), 1);
}
