//! Turning points planned and judged: what is printed is accepted when it is read, and what is damaged is not.

mod running;

use running::{answer, raddlehue};
use std::io::Write;
use std::process::{Output, Stdio};

const BOULDER: [&str; 8] = ["--lat", "39.742476", "--lon", "105.1786W", "--height", "1830", "--delta-t", "67"];
const DUNEDIN: [&str; 8] = ["--lat", "45.5S", "--lon", "170.5E", "--ut1", "-0.3", "--delta-t", "69.1"];
/// Where the Sun stands straight overhead at 22:30 UTC of 2027-05-28.
const OAHU: [&str; 6] = ["--lat", "21.5390192N", "--lon", "158.1709847W", "--delta-t", "68.8"];

fn plan(body: &str, date: &str, here: &[&str], tolerance: &str, form: &[&str]) -> String {
    answer(&[&["plan", body, date, "--tolerance", tolerance], here, form].concat(), "")
}

/// The points of Boulder's Sun at a tolerance of 3 degrees, as a table.
fn points() -> String {
    plan("sun", "2003-10-17", &BOULDER, "3", &["--csv"])
}

fn boulder(tolerance: &str) -> Vec<&str> {
    [&["judge", "sun", "2003-10-17", "--tolerance", tolerance], &BOULDER[..]].concat()
}

fn judged(words: &[&str], input: &[u8]) -> Output {
    let mut child = raddlehue(words).stdin(Stdio::piped()).stdout(Stdio::piped()).stderr(Stdio::piped()).spawn().unwrap();
    // A command that refuses its words does not read its input.
    let _ = child.stdin.take().unwrap().write_all(input);
    child.wait_with_output().unwrap()
}

/// Not answered, with this status; one sentence, which has these parts.
fn refused(words: &[&str], input: &[u8], status: i32, parts: &[&str]) {
    let output = judged(words, input);
    let sentence = String::from_utf8(output.stderr).unwrap();
    assert_eq!((output.status.code(), output.stdout.len()), (Some(status), 0), "{words:?}: {sentence}");
    assert!(sentence.starts_with("raddlehue: ") && sentence.lines().count() == 1, "{words:?}: {sentence}");
    assert!(parts.iter().all(|part| sentence.contains(part)), "{words:?}, {parts:?}: {sentence}");
}

/// The lines of a table, each by its columns.
fn columns(table: &str) -> Vec<Vec<&str>> {
    table.split_terminator("\r\n").map(|row| row.split(',').collect()).collect()
}

// ---- plans

#[test]
fn a_plan_is_told_in_three_forms() {
    let csv = points();
    let rows = columns(&csv);
    let head = ["time", "minute", "azimuth_degrees", "body", "tolerance_degrees", "ut1_minus_utc_seconds"];
    assert_eq!(rows[0][..6], head);
    assert!(rows.iter().all(|row| row.len() == 9) && (3..30).contains(&rows.len()), "{csv}");
    let (count, last) = (rows.len() - 1, rows.last().unwrap());
    assert_eq!(
        (rows[1][..2].to_vec(), last[..2].to_vec()),
        (vec!["2003-10-17T00:00:00Z", "0"], vec!["2003-10-17T23:59:00Z", "1439"])
    );
    assert!(rows[1..].iter().all(|row| row[3..] == ["sun", "3.00000000", "0.0", "assumed", "67.0", "given"]));
    let text = plan("sun", "2003-10-17", &BOULDER, "3", &[]);
    let heading = format!(
        "Plan for the Sun on 2003-10-17, times in UTC\nlatitude 39.742476 N, longitude 105.1786 W, height 1830 m\n\
         UT1 minus UTC 0.0 s (assumed, since it is not given)\ndelta-T 67.0 s (given)\n\
         {count} turning points for 1440 minutes, tolerance 3 degrees\nazimuth in degrees from north over east; "
    );
    assert!(text.starts_with(&heading), "{text}");
    let json = plan("sun", "2003-10-17", &BOULDER, "3", &["--json"]);
    for part in [
        "\"date\": \"2003-10-17\", \"zone\": \"Z\", \"body\": \"sun\"",
        "\"delta_t_seconds\": 67.0, \"delta_t_source\": \"given\"",
        "\"tolerance_degrees\": 3.00000000",
        &format!("\"turning_points\": {count}, \"minutes\": 1440"),
    ] {
        assert!(json.contains(part), "{part}: {json}");
    }
    for row in &rows[1..] {
        let (time, minute, azimuth) = (row[0], row[1], row[2]);
        assert!(text.contains(&format!("\n{}  {minute:>6}  {azimuth:>12}\n", &time[11..16])), "{row:?}");
        assert!(
            json.contains(&format!("{{\"time\": \"{time}\", \"minute\": {minute}, \"azimuth_degrees\": {azimuth}}}")),
            "{row:?}"
        );
    }
    assert_eq!((text.lines().count(), json.matches("\"time\"").count()), (8 + count, count));
}

#[test]
fn the_points_are_the_body_s_azimuths() {
    for (body, column) in [("sun", 1), ("moon", 3)] {
        let day = answer(&[&["day", "2026-11-15", "--csv", "--every", "1"], &DUNEDIN[..]].concat(), "");
        let day = columns(&day);
        let planned = plan(body, "2026-11-15", &DUNEDIN, "0.5", &["--csv"]);
        for row in &columns(&planned)[1..] {
            let minute: usize = row[1].parse().unwrap();
            assert_eq!((row[0], row[2]), (day[1 + minute][0], day[1 + minute][column]), "{body} {minute}");
        }
    }
}

#[test]
fn no_plan_is_said_with_both_reasons() {
    for (tolerance, form) in [("0", "--csv"), ("1", "--json"), ("180", "--picture"), ("1000", "--ut1")] {
        let form = if form == "--ut1" { &[form, "0"][..] } else { &[form] };
        let words = [&["plan", "sun", "2027-05-28", "--tolerance", tolerance], &OAHU[..], form].concat();
        let both =
            "refused 107: there is no plan: a minute of the day has no azimuth, or two adjacent minutes are exactly opposite";
        refused(&words, b"", 1, &[both, " (at 22:30 UTC the Sun stands straight overhead)"]);
    }
    assert!(plan("moon", "2027-05-28", &OAHU, "1", &[]).starts_with("Plan for the Moon on 2027-05-28"));
}

// ---- verdicts

#[test]
fn what_is_planned_is_accepted() {
    for (body, date, here) in [("sun", "2003-10-17", &BOULDER), ("moon", "2026-11-15", &DUNEDIN), ("sun", "2026-11-15", &DUNEDIN)]
    {
        for tolerance in ["0", "0.00000001", "0.01", "3", "179.99999999", "180", "92233720368.54775807"] {
            let table = plan(body, date, here, tolerance, &["--csv"]);
            let words = [&["judge", body, date, "--tolerance", tolerance], &here[..]].concat();
            let verdict = answer(&words, &table);
            let name = if body == "sun" { "Sun" } else { "Moon" };
            assert!(
                verdict.starts_with(&format!("Verdict on a proposal for the {name} on {date}, times in UTC\nlatitude ")),
                "{verdict}"
            );
            let count = columns(&table).len() - 1;
            let end = format!(
                "\n{count} turning points, tolerance {tolerance} degrees\n\
                 accepted: they lie within the tolerance at every minute at which the {name} has an azimuth\n"
            );
            assert!(
                verdict.contains("\nUT1 minus UTC ") && verdict.contains("\ndelta-T ") && verdict.ends_with(&end),
                "{verdict}"
            );
            assert_eq!(verdict, answer(&words, &table.replace("\r\n", "\n")), "lines may end without a CR");
            assert_eq!(verdict, answer(&words, table.trim_end()), "and the last without any");
        }
    }
}

#[test]
fn the_first_minute_out_of_tolerance_is_told() {
    let table = points();
    refused(&boulder("0"), table.as_bytes(), 1, &["--tolerance \"0\": refused 31: ", " (first at 00:01 UTC, minute 1)"]);
    let mut rows: Vec<&str> = table.split_terminator("\r\n").collect();
    // Without any one inner point.
    for inner in 2..rows.len() - 1 {
        let row = rows.remove(inner);
        refused(
            &boulder("3"),
            rows.join("\r\n").as_bytes(),
            1,
            &["refused 31: a minute of the proposal is out of tolerance (first at "],
        );
        rows.insert(inner, row);
    }
    let straight = "minute,azimuth_degrees\n0,255.67\n1439,255.27\n";
    refused(&boulder("179"), straight.as_bytes(), 1, &["refused 31: ", " UTC, minute "]);
    assert!(answer(&boulder("180"), straight).contains("\n2 turning points, tolerance 180 degrees\naccepted: "));
}

#[test]
fn a_minute_without_an_azimuth_is_not_compared() {
    let day = answer(&[&["day", "2027-05-28", "--csv", "--every", "1"], &OAHU[..]].concat(), "");
    let judge = [&["judge", "sun", "2027-05-28", "--tolerance", "0"], &OAHU[..]].concat();
    let table = |absent: &str| {
        let row = |(minute, row): (usize, &Vec<&str>)| format!("{minute},{}", if row[1].is_empty() { absent } else { row[1] });
        let rows: Vec<String> = columns(&day)[1..].iter().enumerate().map(row).collect();
        format!("minute,azimuth_degrees\n{}\n", rows.join("\n"))
    };
    for anything in ["0", "123.45678901"] {
        assert!(answer(&judge, &table(anything)).contains("\n1440 turning points, tolerance 0 degrees\naccepted: "));
    }
    refused(&judge, table("").as_bytes(), 1, &["line 1352, \"1350,\": an azimuth is written in degrees"]);
}

// ---- damaged tables

#[test]
fn a_head_that_does_not_name_the_columns() {
    refused(&boulder("3"), b"", 1, &["standard input is empty", "minute and azimuth_degrees"]);
    for (head, part) in [
        ("", "does not name the column minute"),
        ("0,255.67", "does not name the column minute"),
        ("minute", "does not name the column azimuth_degrees"),
        ("minute;azimuth_degrees", "does not name the column minute"),
        ("minute,azimuth_e8", "does not name the column azimuth_degrees"),
        ("Minute,azimuth_degrees", "does not name the column minute"),
        ("minute, azimuth_degrees", "does not name the column azimuth_degrees"),
        ("minute,azimuth_degrees,minute", "names the column minute twice"),
        ("time,minute,azimuth_degrees,time", "names the column time twice"),
        ("Plan for the Sun on 2003-10-17, times in UTC", "does not name the column minute"),
    ] {
        refused(&boulder("3"), format!("{head}\n0,1,2\n").as_bytes(), 1, &[&format!("line 1, {head:?}: it "), part]);
    }
    refused(&boulder("3"), b"minute,azimuth_degrees\n", 1, &["refused 29: "]);
    refused(&boulder("3"), b"minute,azimuth_degrees\n0,\xff\n", 1, &["line 2, ", "not text in UTF-8"]);
}

#[test]
fn a_line_that_is_no_point() {
    for (row, part) in [
        ("", "it has 1 columns, and the first line names 2"),
        ("7", "it has 1 columns"),
        ("7,1,2", "it has 3 columns"),
        ("x,1", "a minute is a whole number"),
        ("-1,1", "a minute is a whole number"),
        ("7.5,1", "a minute is a whole number"),
        ("007,1", "a minute is a whole number"),
        (" 7,1", "a minute is a whole number"),
        ("4294967296,1", "a minute is a whole number"),
        ("7,", "an azimuth is written in degrees"),
        ("7,none", "an azimuth is written in degrees"),
        ("7,1e1", "an azimuth is written in degrees"),
        ("7,1.123456789", "an azimuth is written in degrees"),
        ("7,\"1\"", "an azimuth is written in degrees"),
        ("7,99999999999999", "an azimuth is written in degrees"),
    ] {
        for end in ["\n", "\r\n"] {
            let table = ["minute,azimuth_degrees", "0,255.67", row, "1439,255.27", ""].join(end);
            refused(&boulder("180"), table.as_bytes(), 1, &[&format!("line 3, \"{}", row.escape_debug()), part]);
        }
    }
}

#[test]
fn a_line_of_another_day_or_body() {
    let table = points();
    let other = |from: &str, to: &str| table.replacen(from, to, 1);
    let cases = [
        (other("2003-10-17T00:00:00Z", "2003-10-18T00:00:00Z"), "its time is not that of minute 0 of 2003-10-17 UTC"),
        (other("2003-10-17T00:00:00Z", "2003-10-17T00:00:00+01:00"), "its time is not that of minute 0 "),
        (other("T00:00:00Z,0,", "T00:00:00Z,1,"), "its time is not that of minute 1 of 2003-10-17 UTC, 2003-10-17T00:01:00Z"),
        (other("sun", "moon"), "its body is \"moon\", and the Sun is asked for"),
    ];
    for (table, part) in cases {
        refused(&boulder("180"), table.as_bytes(), 1, &["line 2, \"2003-10-1", part]);
    }
    let words = [&["judge", "moon", "2003-10-17", "--tolerance", "3"], &BOULDER[..]].concat();
    refused(&words, table.as_bytes(), 1, &["line 2, ", "its body is \"sun\", and the Moon is asked for"]);
}

#[test]
fn points_that_are_no_proposal_have_their_line() {
    for (rows, line, number) in [
        ("1,255\n1439,255", "line 2, \"1,255\": ", 29),
        ("0,255\n1438,255", "line 3, \"1438,255\": ", 29),
        ("0,255\n1440,255", "line 3, \"1440,255\": ", 29),
        ("0,255", "line 2, \"0,255\": ", 29),
        ("0,255\n7,255\n7,255\n1439,255", "line 4, \"7,255\": ", 29),
        ("0,255\n7,255\n6,255\n1439,255", "line 4, \"6,255\": ", 29),
        ("0,255\n7,360\n1439,255", "line 3, \"7,360\": ", 29),
        ("0,-0.00000001\n1439,255", "line 2, \"0,-0.00000001\": ", 29),
        ("0,255\n7,75\n1439,255", "line 3, \"7,75\": ", 30),
        ("0,255\n7,254\n8,74\n1439,255", "line 4, \"8,74\": ", 30),
    ] {
        let table = format!("minute,azimuth_degrees\n{rows}\n");
        refused(&boulder("180"), table.as_bytes(), 1, &[&format!("{line}refused {number}: ")]);
    }
    let rows: Vec<String> = (0..1440).chain([1439]).map(|minute| format!("{minute},255")).collect();
    let table = format!("minute,azimuth_degrees\n{}\n", rows.join("\n"));
    refused(&boulder("180"), table.as_bytes(), 1, &["line 1442, \"1439,255\": refused 29: "]);
}

// ---- words

#[test]
fn refused_words() {
    let table = points();
    for command in ["plan", "judge"] {
        let with = |words: &[&str], status, parts: &[&str]| {
            refused(&[&[command], words].concat(), table.as_bytes(), status, parts);
        };
        let here = |words: &[&'static str]| [words, &BOULDER[..]].concat();
        for word in
            ["", "three", "3,5", "3°", "1e1", "inf", "nan", "+3", ".5", "3.", "03", "0x3", "0.123456789", "99999999999999999999"]
        {
            let words = [&["sun", "2003-10-17", "--tolerance", word], &BOULDER[..]].concat();
            with(&words, 2, &[&format!("the tolerance {word:?} cannot be read: "), "degrees from 0 up"]);
        }
        for word in ["-1", "-0.00000001"] {
            let words = [&["sun", "2003-10-17", "--tolerance", word], &BOULDER[..]].concat();
            with(&words, 2, &[&format!("the tolerance {word:?} is below 0")]);
        }
        with(&here(&["sun", "2003-10-17"]), 2, &["\"--tolerance\" is missing"]);
        with(&here(&["sun", "--tolerance", "3"]), 2, &["DATE is missing"]);
        with(&here(&["mars", "2003-10-17", "--tolerance", "3"]), 2, &["\"mars\""]);
        with(&here(&["sun", "2003-10-17", "points.csv", "--tolerance", "3"]), 2, &["\"points.csv\" is one too many"]);
        with(&here(&["sun", "17.10.2003", "--tolerance", "3"]), 2, &["\"17.10.2003\""]);
        with(&here(&["sun", "2003-10-17", "--tolerance", "3", "--zone", "Z"]), 2, &["\"--zone\" is unknown"]);
        with(&here(&["sun", "2003-02-29", "--tolerance", "3"]), 1, &["\"2003-02-29\": refused 3: "]);
        for (flag, word, number) in [("--lat", "91", 8), ("--lon", "181", 7), ("--height", "9001", 9), ("--ut1", "1", 5)] {
            let other: Vec<&str> =
                ["--lat", "5", "--lon", "5"].chunks(2).filter(|pair| pair[0] != flag).flatten().copied().collect();
            let words = [&["sun", "2003-10-17", "--tolerance", "180", flag, word], &other[..]].concat();
            // Of a table that would be refused as well.
            refused(
                &[&[command], &words[..]].concat(),
                b"minute,azimuth_degrees\n7,7\n",
                1,
                &[&format!("{flag} {word:?}: refused {number}: ")],
            );
        }
    }
    for form in ["--json", "--csv", "--picture"] {
        refused(&[&boulder("3")[..], &[form]].concat(), table.as_bytes(), 2, &[&format!("{form:?} is unknown")]);
    }
    let planned = [&["plan", "sun", "2003-10-17", "--tolerance", "3"], &BOULDER[..]].concat();
    for forms in [["--json", "--csv"], ["--json", "--picture"], ["--picture", "--csv"]] {
        refused(&[&planned[..], &forms].concat(), b"", 2, &["only one"]);
    }
}

// ---- the picture

fn picture(body: &str, date: &str, here: &[&str], tolerance: &str) -> String {
    plan(body, date, here, tolerance, &["--picture"])
}

#[test]
fn a_picture_can_be_heard_and_read() {
    let svg = picture("sun", "2003-10-17", &BOULDER, "10");
    for part in [
        "<title id=\"raddlehue-title\">Plan for the Sun on 2003-10-17, 39.742476° N, 105.1786° W, UTC</title>",
        "<desc id=\"raddlehue-desc\">The azimuth of the Sun on 2003-10-17 from latitude 39.742476 N, longitude 105.1786 W, height 1830 m, times in UTC, and ",
        " turning points that stand for its 1440 minutes. ",
        "lies within 10 degrees of the Sun's. Turning points: 00:00 255.6769°; ",
        "role=\"img\"",
        "prefers-color-scheme: dark",
        "viewBox=\"0 0 1000 ",
        ">azimuth of the Sun, from north over east</text>",
        ">tolerance 10° either way</text>",
        " turning points for 1440 minutes</text>",
        ">delta-T 67.0 s (given)</text>",
    ] {
        assert!(svg.contains(part), "{part}: {svg}");
    }
    assert!(svg.contains("stroke-dasharray"), "what lies between the points is told apart without colour");
    assert!(svg.contains("font: 36px") && svg.matches("font-size").count() == 1, "text has at least 3.5 % of the width");
    assert!(!svg.contains("too thin to be seen"));
    assert!(picture("sun", "2003-10-17", &BOULDER, "0.5").contains(">the band is too thin to be seen here</text>"));
}

/// The lines of a class: how far each is moved, and its points.
fn lines(svg: &str, class: &str) -> Vec<(f64, Vec<(f64, f64)>)> {
    let number = |text: &str| text.parse::<f64>().unwrap();
    let point = |text: &str| text.split_once(' ').map(|(x, y)| (number(x), number(y))).unwrap();
    let line = |line: &str| {
        let moved = line.split_once("translate(0 ").unwrap().1.split(')').next().map(number).unwrap();
        let path = line.split_once(" d=\"M").unwrap().1.split('"').next().unwrap().trim_end_matches('Z');
        (moved, path.split('L').map(point).collect())
    };
    svg.lines().filter(|line| line.starts_with(&format!("<path class=\"{class}\" transform"))).map(line).collect()
}

const TOP: f64 = 160.0;
const BOTTOM: f64 = 880.0;

// The line leaves the frame at the top, and its copy a turn lower comes in at the foot: at each moment exactly one of them lies in the frame.
#[test]
fn no_line_runs_across_the_picture() {
    for (body, date, latitude, longitude, tolerance) in [
        ("sun", "2003-10-17", "39.742476", "-105.1786", "3"),
        ("moon", "2026-11-15", "-45.5", "170.5", "0"),
        ("moon", "2026-11-15", "-45.5", "170.5", "12"),
        ("sun", "2026-05-28", "21.4225", "39.8262", "5"), // 0.1 degree from the zenith
        ("sun", "2026-06-21", "9.5", "-79.5", "60"),
        ("sun", "2026-06-21", "9.5", "-79.5", "1000"),
        ("moon", "2026-12-21", "90", "0", "20"),
        ("sun", "2100-12-31", "-90", "180", "0.00000001"),
    ] {
        let svg = picture(body, date, &["--lat", latitude, "--lon", longitude], tolerance);
        let curves = lines(&svg, &format!("{body} azimuth"));
        let curve = &curves[0].1;
        assert!(curve.windows(2).all(|pair| (pair[0].1 - pair[1].1).abs() <= 360.1), "no step is more than half a turn: {date}");
        for index in 0..curve.len() {
            let within = |(moved, spots): &&(f64, Vec<(f64, f64)>)| (TOP..BOTTOM).contains(&(spots[index].1 + moved));
            let on_edge = [TOP, BOTTOM].iter().any(|edge| ((curve[index].1 - edge) / 720.0).fract().abs() < 1e-3);
            assert!(on_edge || curves.iter().filter(within).count() == 1, "{date} {latitude} {index}");
        }
        // The band is the curve, higher and lower.
        let half = (tolerance.parse::<f64>().unwrap().min(180.0) * 2.0 * 10.0).round() / 10.0;
        for (_, band) in lines(&svg, "band") {
            let (upper, lower) = band.split_at(curve.len());
            for ((spot, upper), lower) in curve.iter().zip(upper).zip(lower.iter().rev()) {
                assert!((spot.1 - upper.1 - half).abs() < 0.21 && (lower.1 - spot.1 - half).abs() < 0.21, "{date} {latitude}");
            }
        }
        let legs = lines(&svg, "legs");
        assert!(legs[0].1.windows(2).all(|pair| (pair[0].1 - pair[1].1).abs() <= 360.0), "{date}: the short way");
        let marks = svg.matches("<circle class=\"point\"").count() + svg.matches("<circle class=\"dot\"").count();
        assert_eq!(marks, legs[0].1.len() + 1, "one for each point, and one in the legend");
        assert!(!svg.contains("NaN") && !svg.contains("inf\""));
    }
}

// A letter is about 20 units wide.
#[test]
fn the_words_fit_the_sheet() {
    let here = ["--lat", "45.1234567S", "--lon", "170.1234567W", "--delta-t", "-1234.567", "--ut1", "-0.899"];
    for tolerance in ["0.00000001", "92233720368.54775807"] {
        let svg = picture("moon", "2026-11-15", &here, tolerance);
        for line in svg.lines().filter(|line| line.starts_with("<text x=")) {
            let (x, words) = (line.split('"').nth(1).unwrap(), line.split(['>', '<']).nth(2).unwrap());
            let right = x.parse::<f64>().unwrap() + 20.0 * words.chars().count() as f64;
            assert!(right <= 1000.0, "{words} ends at {right}");
        }
    }
}

// ---- streams and locales

#[cfg(target_os = "linux")]
#[test]
fn a_full_disk_is_an_error() {
    let planned = [&["plan", "sun", "2003-10-17", "--tolerance", "3"], &BOULDER[..]].concat();
    for words in [planned.clone(), [&planned[..], &["--picture"]].concat(), boulder("3"), vec!["plan", "--help"]] {
        let full = std::fs::OpenOptions::new().write(true).open("/dev/full").unwrap();
        let mut child = raddlehue(&words).stdin(Stdio::piped()).stdout(full).stderr(Stdio::piped()).spawn().unwrap();
        let _ = child.stdin.take().unwrap().write_all(points().as_bytes());
        let output = child.wait_with_output().unwrap();
        assert_eq!(output.status.code(), Some(1), "{words:?}");
        assert!(String::from_utf8(output.stderr).unwrap().contains("the answer cannot be written"), "{words:?}");
    }
}

#[test]
fn no_locale_changes_a_byte() {
    let planned = [&["plan", "moon", "2003-10-17", "--tolerance", "0.5"], &BOULDER[..]].concat();
    let forms = [&[][..], &["--json"], &["--csv"], &["--picture"]].map(|form| [&planned[..], form].concat());
    for words in forms.into_iter().chain([boulder("3")]) {
        let outputs = ["de_DE.UTF-8", "C"].map(|locale| {
            let mut command = raddlehue(&words);
            command.env("LC_ALL", locale).env("LANG", locale);
            let mut child = command.stdin(Stdio::piped()).stdout(Stdio::piped()).stderr(Stdio::piped()).spawn().unwrap();
            let _ = child.stdin.take().unwrap().write_all(points().as_bytes());
            child.wait_with_output().unwrap()
        });
        assert!(outputs[0].status.success() && !outputs[0].stdout.is_empty(), "{words:?}");
        assert_eq!(outputs[0], outputs[1], "{words:?}");
    }
}
