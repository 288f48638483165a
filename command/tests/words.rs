//! Hostile words: none of them is answered, and each is named in a sentence.

use raddlehue::Refusal;
use std::io::Write;
use std::process::{Command, Output, Stdio};

const HERE: [&str; 4] = ["--lat", "45.5N", "--lon", "5.2E"];

fn run(words: &[&str], input: &[u8]) -> Output {
    let mut command = Command::new(env!("CARGO_BIN_EXE_raddlehue"));
    let mut child = command.args(words).stdin(Stdio::piped()).stdout(Stdio::piped()).stderr(Stdio::piped()).spawn().unwrap();
    // A command that refuses its words does not read its input.
    let _ = child.stdin.take().unwrap().write_all(input);
    child.wait_with_output().unwrap()
}

/// Not answered, with this status; the sentence on the standard error names the word.
fn refused(words: &[&str], input: &str, status: i32, named: &str) -> String {
    let output = run(words, input.as_bytes());
    let sentence = String::from_utf8(output.stderr).unwrap();
    assert_eq!(output.status.code(), Some(status), "{words:?}: {sentence}");
    assert!(output.stdout.is_empty(), "{words:?} has an answer");
    assert!(
        sentence.starts_with("raddlehue: ") && sentence.ends_with('\n') && sentence.lines().count() == 1,
        "{words:?}: {sentence}"
    );
    assert!(sentence.contains(&format!("{named:?}")), "{words:?} is not named: {sentence}");
    sentence
}

fn here<'a>(words: &[&'a str]) -> Vec<&'a str> {
    [words, &HERE].concat()
}

// ---- dates and times

#[test]
fn dates() {
    let words = [
        "2026", "2026-8-9", "2026-08-9", "26-08-09", "20260809", "2026/08/09", "09.08.2026", "2026-W32-7", "2026-221",
        "2026-08-09T00:00Z", "today", "", " ", "2026-08-09 ", "2026 08 09", "0x7ea-08-09", "inf", "nan", "２０２６-08-09",
    ];
    for word in words {
        refused(&here(&["day", word]), "", 2, word);
        refused(&here(&["picture", word]), "", 2, word);
        refused(&here(&["eclipse", word]), "", 2, word);
        refused(&here(&["strip", "make", "sun", word, "--out", "never"]), "", 2, word);
        refused(&here(&["plan", "sun", word, "--tolerance", "1"]), "", 2, word);
        refused(&here(&["judge", "sun", word, "--tolerance", "1"]), "", 2, word);
    }
    for word in [
        "2026-08-32", "2026-02-29", "2026-13-01", "2026-00-01", "2026-08-00", "1899-12-31", "2101-01-01", "0000-00-00",
        "9999-12-31",
    ] {
        refused(&here(&["day", word]), "", 1, word);
        refused(&here(&["picture", word]), "", 1, word);
        refused(&here(&["eclipse", word]), "", 1, word);
        refused(&here(&["strip", "make", "sun", word, "--out", "never"]), "", 1, word);
        refused(&here(&["plan", "moon", word, "--tolerance", "1"]), "", 1, word);
        refused(&here(&["judge", "moon", word, "--tolerance", "1"]), "minute,azimuth_degrees\n", 1, word);
    }
    // A zone's day has to lie within the years of UTC as a whole.
    refused(&here(&["eclipse", "1900-01-01", "--zone", "+00:01"]), "", 1, "1900-01-01");
    refused(&here(&["eclipse", "2100-12-31", "--zone", "-00:01"]), "", 1, "2100-12-31");
    // The words of the old script: a year, a month and a day that a shell would read as octal.
    refused(&here(&["day", "2026", "010", "010"]), "", 2, "010");
    refused(&["day", "2026", "010", "010", "5.2", "45.5", "0"], "", 2, "010");
    refused(&here(&["day", "-"]), "", 2, "-");
}

#[test]
fn years() {
    let words = [
        "26", "202", "02026", "20 6", "2026 ", " 2026", "2026-01", "2026-01-01", "-2026", "0x7ea", "2e3", "2026.0", "MMXXVI",
        "this", "", "inf", "nan", "２０２６", "٢٠٢٦",
    ];
    for word in words {
        refused(&here(&["year", word]), "", 2, word);
    }
    for word in ["+2026", "-", "--2026"] {
        refused(&here(&["year", word]), "", 2, word);
    }
    for word in ["1899", "2101", "0000", "9999"] {
        refused(&here(&["year", word]), "", 1, word);
        refused(&here(&["year", word, "--csv"]), "", 1, word);
    }
    // A zone's year has to lie within the years of UTC as a whole.
    refused(&here(&["year", "1900", "--zone", "+00:01"]), "", 1, "1900");
    refused(&here(&["year", "2100", "--zone", "-00:01"]), "", 1, "2100");
}

#[test]
fn times() {
    let words = [
        "2026-08-09", "2026-08-09T12:00", "2026-08-09T12:00:00", "2026-08-09 12:00Z", "2026-08-09T12Z", "2026-08-09T12:00:00,5Z",
        "2026-08-09T12:00:00.1234Z", "2026-08-09T12:00:00.0000Z", "2026-08-09T12:00+1", "2026-08-09T12:00+0100",
        "2026-08-09T12:00.5Z", "2026-08-09T12:00:00.Z", "2026-08-09T12:00:00.5.5Z", "2026-08-09T12:00:00.x5Z",
        "2026-08-09T12:00CET", "2026-8-9T12:00Z", "now", "", "1e9", "inf", "nan", "2026-08-09t12:00z", "2026-08-09T1:00Z",
        "2026-08-09T12:00+15:00", "2026-08-09T12:00-00:00",
    ];
    for word in words {
        refused(&here(&["place", "sun", word]), "", 2, word);
        refused(&here(&["batch", "sun", "--start", word]), "0\n", 2, word);
    }
    for word in [
        "2026-08-32T12:00Z", "2026-08-09T24:00Z", "2026-08-09T12:60Z", "2016-12-31T23:59:60Z", "2101-01-01T00:00Z",
        "1900-01-01T00:00+01:00",
    ] {
        refused(&here(&["place", "moon", word]), "", 1, word);
        refused(&here(&["batch", "moon", "--start", word]), "0\n", 1, word);
    }
}

#[test]
fn a_fourth_decimal_of_a_second() {
    const LOST: &str = "it has more than three decimals of a second, and the rest would be lost";
    let (noon, time, seconds) = ("2026-08-09T12:00Z", "2026-08-09T12:00:00.1234Z", "0.1234");
    for sentence in [
        refused(&here(&["place", "sun", time]), "", 2, time),
        refused(&here(&["place", "sun", noon, "--ut1", seconds]), "", 2, seconds),
        refused(&here(&["place", "sun", noon, "--delta-t", seconds]), "", 2, seconds),
        refused(&here(&["batch", "sun", "--start", time]), "0\n", 2, time),
        refused(&here(&["batch", "sun", "--start", noon]), &format!("{seconds}\n"), 1, seconds),
        refused(&here(&["batch", "sun"]), &format!("{time}\n"), 1, time),
    ] {
        assert!(sentence.contains(LOST), "{sentence}");
    }
}

#[test]
fn zones_and_steps() {
    for word in ["13", "+13", "+1300", "UTC", "NZDT", "east", "", "+24:00", "+13:60", "-00:00", "z"] {
        refused(&here(&["day", "2026-08-09", "--zone", word]), "", 2, word);
        refused(&here(&["picture", "2026-08-09", "--zone", word]), "", 2, word);
        refused(&here(&["year", "2026", "--zone", word]), "", 2, word);
        refused(&here(&["eclipse", "2026-08-12", "--zone", word]), "", 2, word);
    }
    for word in ["0", "-1", "1441", "0.5", "1e1", "0x10", "ten", "", "inf", "010", "99999999999999999999"] {
        refused(&here(&["day", "2026-08-09", "--every", word]), "", 2, word);
    }
}

// ---- numbers

#[test]
fn degrees() {
    let words = [
        "east", "north", "45.5N 5.2E", "0,5", "7°30", "7°30'", "0x10", "1e1", "inf", "-inf", "infinity", "nan", "NaN", "", " ",
        " 5", "5 ", "+5", "5.", ".5", "05", "010", "5..5", "5.5.5", "N", "5n", "5°N", "-5N", "+5N", "-5S", "5 N", "5NN",
        "5.12345678", "5.12345678N", "12345678901234567890", "five", "5d", "5_0", "٥",
    ];
    for word in words {
        refused(&["day", "2026-08-09", "--lat", word, "--lon", "5.2"], "", 2, word);
        refused(&["eclipse", "2026-08-12", "--lat", word, "--lon", "5.2"], "", 2, word);
        refused(&["strip", "make", "moon", "2026-08-12", "--lat", word, "--lon", "5.2", "--out", "never"], "", 2, word);
        refused(&["plan", "moon", "2026-08-12", "--lat", word, "--lon", "5.2", "--tolerance", "1"], "", 2, word);
        refused(&["judge", "moon", "2026-08-12", "--lat", "5.2", "--lon", word, "--tolerance", "1"], "", 2, word);
        refused(&["place", "sun", "2026-08-09T12:00Z", "--lat", "5.2", "--lon", word], "", 2, word);
    }
    for word in ["5E", "5.2W"] {
        refused(&["day", "2026-08-09", "--lat", word, "--lon", "5.2"], "", 2, word);
    }
    for word in ["5N", "5.2S"] {
        refused(&["day", "2026-08-09", "--lat", "5.2", "--lon", word], "", 2, word);
    }
    for word in ["91", "-90.0000001", "90.0000001N", "99999999999", "91S"] {
        refused(&["day", "2026-08-09", "--lat", word, "--lon", "5.2"], "", 1, word);
        refused(&["picture", "2026-08-09", "--lat", word, "--lon", "5.2"], "", 1, word);
        refused(&["year", "2026", "--lat", word, "--lon", "5.2"], "", 1, word);
        refused(&["eclipse", "2026-08-12", "--lat", word, "--lon", "5.2"], "", 1, word);
    }
    for word in ["181", "-180.0000001", "360E"] {
        refused(&["day", "2026-08-09", "--lat", "5.2", "--lon", word], "", 1, word);
        refused(&["batch", "sun", "--lat", "5.2", "--lon", word], "2026-08-09T12:00Z\n", 1, word);
    }
}

#[test]
fn other_numbers() {
    for flag in ["--height", "--ut1", "--delta-t"] {
        for word in ["sixty", "", "6,9", "0x10", "1e1", "inf", "nan", "+5", "0.1234", "5.0000", "5 ", "010"] {
            refused(&here(&["day", "2026-08-09", flag, word]), "", 2, word);
        }
    }
    for (flag, word, refusal) in [
        ("--height", "9001", Refusal::Height),
        ("--height", "-501", Refusal::Height),
        ("--ut1", "1", Refusal::Ut1),
        ("--ut1", "0.901", Refusal::Ut1),
        ("--ut1", "-0.901", Refusal::Ut1),
        ("--delta-t", "8000.001", Refusal::DeltaT),
        ("--delta-t", "-8000.001", Refusal::DeltaT),
    ] {
        let said = format!("{flag} {word:?}: refused {}: {}\n", refusal.number(), refusal.sentence());
        for words in [["day", "2026-08-09"], ["year", "2026"], ["eclipse", "2026-08-12"]] {
            assert!(refused(&here(&[&words[..], &[flag, word]].concat()), "", 1, word).ends_with(&said), "{words:?}");
        }
    }
    let at = ["place", "sun", "2026-08-09T12:00Z"];
    // Milliseconds where seconds are meant.
    for (flag, word) in [("--ut1", "900"), ("--delta-t", "67000")] {
        let sentence = refused(&here(&[&at[..], &[flag, word]].concat()), "", 1, word);
        assert!(sentence.contains(&format!("in seconds, {flag} {word:?}: refused ")), "{sentence}");
    }
    for word in ["thin", "", "1e3", "inf", "nan", "1013,2", "0.1234567"] {
        refused(&here(&[&at[..], &["--pressure", word, "--temperature", "10"]].concat()), "", 2, word);
        refused(&here(&[&at[..], &["--pressure", "1010", "--temperature", word]].concat()), "", 2, word);
    }
    refused(&here(&[&at[..], &["--pressure", "1201", "--temperature", "10"]].concat()), "", 1, "1201");
    refused(&here(&[&at[..], &["--pressure", "-0.1", "--temperature", "10"]].concat()), "", 1, "-0.1");
    refused(&here(&[&at[..], &["--pressure", "1010", "--temperature", "80.5"]].concat()), "", 1, "80.5");
    refused(&here(&[&at[..], &["--pressure", "1010"]].concat()), "", 2, "--temperature");
    refused(&here(&[&at[..], &["--temperature", "10"]].concat()), "", 2, "--pressure");
}

#[test]
fn azimuths() {
    for word in [
        "", "5.5", "north", "none", "null", "1e10", "0x10", "inf", "nan", "010", "9999999999999999999", "359.9", "1 2",
        "9223372036854775808", "92233720368.54775807",
    ] {
        refused(&["middle", word, "0"], "", 2, word);
        refused(&["middle", "0", word], "", 2, word);
    }
    refused(&["middle", "36000000000", "0"], "", 1, "36000000000");
    refused(&["middle", "0", "-1"], "", 1, "-1");
    refused(&["middle", "0", "18000000000"], "", 1, "18000000000");
    refused(&["middle", "0", "1", "2"], "", 2, "2");
    // The library's number for no direction is not reduced.
    for words in [["middle", "9223372036854775807", "0"], ["middle", "0", "9223372036854775807"]] {
        refused(&words, "", 1, "9223372036854775807");
        let output = run(&words, b"");
        assert!(String::from_utf8(output.stderr).unwrap().contains("refused 15: "));
    }
}

// ---- flags and commands

#[test]
fn flags() {
    for word in ["--frob", "--latitude", "--LAT", "-x", "-l", "--", "---", "--lat=5"] {
        refused(&here(&["day", "2026-08-09", word]), "", 2, word);
    }
    for flag in ["--lat", "--lon", "--height", "--zone", "--every", "--ut1", "--delta-t"] {
        refused(&["day", "2026-08-09", flag], "", 2, flag);
        refused(&["day", "2026-08-09", flag, "--json"], "", 2, flag);
        refused(&["day", "2026-08-09", flag, "1", flag, "1"], "", 2, flag);
    }
    refused(&here(&["day", "2026-08-09", "--json", "--json"]), "", 2, "--json");
    refused(&["day", "2026-08-09", "--lon", "5"], "", 2, "--lat");
    refused(&["day", "2026-08-09", "--lat", "5"], "", 2, "--lon");
    refused(&here(&["picture", "2026-08-09", "--json"]), "", 2, "--json");
    refused(&here(&["year", "2026", "--json"]), "", 2, "--json");
    refused(&here(&["year", "2026", "--every", "60"]), "", 2, "--every");
    refused(&here(&["year", "2026", "--csv", "--csv"]), "", 2, "--csv");
    refused(&here(&["year", "2026", "--csv", "2027"]), "", 2, "2027");
    refused(&["year", "2026", "--lon", "5"], "", 2, "--lat");
    refused(&["middle", "0", "1", "--lat", "5"], "", 2, "--lat");
    refused(&here(&["eclipse", "2026-08-12", "--every", "60"]), "", 2, "--every");
    refused(&here(&["eclipse", "2026-08-12", "--svg"]), "", 2, "--svg");
    refused(&here(&["eclipse", "2026-08-12", "--picture", "--picture"]), "", 2, "--picture");
    refused(&here(&["eclipse", "2026-08-12", "--picture", "e.svg"]), "", 2, "e.svg");
    refused(&here(&["day", "2026-08-12", "--picture"]), "", 2, "--picture");
    refused(&["eclipse", "2026-08-12", "--lon", "5"], "", 2, "--lat");
    refused(&["strip", "make", "sun", "2026-08-12", "--lon", "5", "--out", "never"], "", 2, "--lat");
    refused(&here(&["strip", "make", "sun", "2026-08-12", "--out"]), "", 2, "--lat");
    refused(&here(&["strip", "make", "sun", "2026-08-12", "--every", "5"]), "", 2, "--every");
    refused(&["strip", "show", "never", "--picture"], "", 2, "--picture");
    refused(&["strip", "show", "never", "ever"], "", 2, "ever");
    refused(&["strip", "find", "never", "never", "2026-08-12", "--lat", "5"], "", 2, "--lat");
    refused(&here(&["plan", "sun", "2026-08-12"]), "", 2, "--tolerance");
    refused(&here(&["judge", "sun", "2026-08-12", "--tolerance"]), "", 2, "--lat");
    refused(&here(&["plan", "sun", "2026-08-12", "--tolerance", "1", "--every", "5"]), "", 2, "--every");
    refused(&here(&["judge", "sun", "2026-08-12", "--tolerance", "1", "--csv"]), "", 2, "--csv");
}

#[test]
fn commands() {
    for word in ["days", "Day", "", "-v", "--", "help", "2026-08-09", "--verbose"] {
        refused(&[word], "", 2, word);
    }
    refused(&["--version", "x"], "", 2, "x");
    for word in ["write", "Make", "", "make show", "2026-08-09", "--lat"] {
        refused(&["strip", word], "", 2, word);
    }
    refused(&["strip make", "sun"], "", 2, "strip make");
    for word in ["Sun", "mars", "", "sunmoon", "sun moon"] {
        refused(&here(&["place", word, "2026-08-09T12:00Z"]), "", 2, word);
        refused(&here(&["batch", word]), "", 2, word);
    }
    for words in [
        &[][..],
        &["day"],
        &["place"],
        &["place", "sun"],
        &["batch"],
        &["middle"],
        &["middle", "0"],
        &["picture"],
        &["year"],
        &["eclipse"],
        &["strip"],
        &["strip", "make"],
        &["strip", "show"],
        &["strip", "find", "a", "b"],
        &["plan"],
        &["plan", "sun"],
        &["judge"],
        &["judge", "moon"],
    ] {
        let output = run(words, b"");
        assert_eq!((output.status.code(), output.stdout.len()), (Some(2), 0), "{words:?}");
        assert!(String::from_utf8(output.stderr).unwrap().contains("missing"), "{words:?}");
    }
    for words in [
        &["day", "2026-08-09", "--json", "--csv"][..],
        &["eclipse", "2026-08-12", "--json", "--picture"],
        &["eclipse", "2026-08-12", "--picture", "--csv"],
        &["plan", "sun", "2026-08-12", "--tolerance", "1", "--picture", "--csv"],
    ] {
        let output = run(&here(words), b"");
        assert_eq!((output.status.code(), output.stdout.len()), (Some(2), 0), "{words:?}");
        assert!(String::from_utf8(output.stderr).unwrap().contains("only one"), "{words:?}");
    }
}

#[cfg(unix)]
#[test]
fn words_that_are_no_text() {
    use std::ffi::OsStr;
    use std::os::unix::ffi::OsStrExt;
    let output = Command::new(env!("CARGO_BIN_EXE_raddlehue")).arg("day").arg(OsStr::from_bytes(b"2026\xff")).output().unwrap();
    assert_eq!((output.status.code(), output.stdout.len()), (Some(2), 0));
}

// ---- lines of a track

#[test]
fn lines() {
    let start = here(&["batch", "moon", "--start", "2100-12-31T23:59:59Z"]);
    let times = here(&["batch", "moon"]);
    for line in [
        "x", "", " ", "0 ", " 0", "-1", "+1", "0.1234", "0.5000", "1e1", "0,5", "0x1", "inf", "nan", "010", "0\r", "4294967.296",
        "2026-08-09T12:00Z",
    ] {
        refused(&start, &format!("0\n0.5\n{line}\n0\n"), 1, line);
    }
    refused(&start, "0\n1\n", 1, "1");
    let sentence = refused(&start, "0\n4294967.296\n", 1, "4294967.296");
    assert!(sentence.contains("at most 4294967.295 seconds") && sentence.contains("leave --start out"), "{sentence}");
    for line in [
        "0", "", "2026-08-09", "2026-08-09T12:00", "2026-08-32T12:00Z", "2101-01-01T00:00Z", "2026-08-09T12:00Z\r",
        "2026-08-09T12:00:00.1234Z", "2100-12-31T23:59:59.9999Z",
    ] {
        refused(&times, &format!("2026-08-09T12:00Z\n2026-08-09T12:00Z\n{line}\n"), 1, line);
    }
    let output = run(&start, b"0\n0.999\n1\nx");
    assert!(
        String::from_utf8(output.stderr).unwrap().contains("line 4"),
        "a line that cannot be read is judged before the library is asked"
    );
    let output = run(&start, b"0\n0.999\n1\n2");
    assert!(String::from_utf8(output.stderr).unwrap().contains("line 3, \"1\": refused 13"));
    let output = run(&times, b"2026-08-09T12:00Z\n\xff\n");
    assert_eq!((output.status.code(), output.stdout.len()), (Some(1), 0));
}
