//! Day strips in files: what is written, what is read, and what is neither.

mod running;

use running::{answer, raddlehue};
use std::fs::{self, OpenOptions};
use std::path::PathBuf;
use std::process::Output;

const BOULDER: [&str; 8] = ["--lat", "39.742476", "--lon", "105.1786W", "--height", "1830", "--delta-t", "67"];
/// Where the Sun stands straight overhead at 22:30 UTC of 2027-05-28.
const OAHU: [&str; 6] = ["--lat", "21.5390192N", "--lon", "158.1709847W", "--delta-t", "68.8"];

/// An empty directory for one test.
struct Room(PathBuf);

impl Room {
    fn of(test: &str) -> Room {
        let path = PathBuf::from(env!("CARGO_TARGET_TMPDIR")).join(test);
        let _ = fs::remove_dir_all(&path);
        fs::create_dir_all(&path).unwrap();
        Room(path)
    }

    fn file(&self, name: &str) -> String {
        self.0.join(name).to_str().unwrap().to_string()
    }

    fn put(&self, name: &str, bytes: &[u8]) -> String {
        fs::write(self.file(name), bytes).unwrap();
        self.file(name)
    }

    fn is_empty(&self) -> bool {
        fs::read_dir(&self.0).unwrap().next().is_none()
    }

    /// The strip of Boulder's Sun on a day of October 2003.
    fn boulder(&self, day: &str, name: &str) -> String {
        let file = self.file(name);
        answer(&[&["strip", "make", "sun", &format!("2003-10-{day}"), "--out", &file], &BOULDER[..]].concat(), "");
        file
    }
}

/// Not answered, with this status; one sentence, which has these parts.
fn refused(words: &[&str], status: i32, parts: &[&str]) {
    no_answer(words, raddlehue(words).output().unwrap(), status, parts);
}

fn no_answer(words: &[&str], output: Output, status: i32, parts: &[&str]) {
    let sentence = String::from_utf8(output.stderr).unwrap();
    assert_eq!((output.status.code(), output.stdout.len()), (Some(status), 0), "{words:?}: {sentence}");
    assert!(sentence.starts_with("raddlehue: ") && sentence.lines().count() == 1, "{words:?}: {sentence}");
    assert!(parts.iter().all(|part| sentence.contains(part)), "{words:?}: {sentence}");
}

/// The lines of a table, each by its columns.
fn columns(table: &str) -> Vec<Vec<&str>> {
    table.split_terminator("\r\n").map(|row| row.split(',').collect()).collect()
}

fn name(file: &str) -> String {
    let shown: String = file.chars().take(60).collect();
    format!("{shown:?}")
}

// ---- what is written

#[test]
fn the_file_is_the_strip() {
    let room = Room::of("the_file_is_the_strip");
    for (index, (step, body)) in [("1", "sun"), ("2", "moon"), ("5", "moon"), ("10", "sun")].into_iter().enumerate() {
        let file = room.file(step);
        let words = ["strip", "make", body, "2003-10-17", "--step", step, "--out", &file];
        let said = answer(&[&words, &BOULDER[..]].concat(), "");
        let bytes = fs::read(&file).unwrap();
        assert!(said.contains(&format!("\n{} bytes are written to {}", bytes.len(), name(&file))), "{said}");
        let minutes: usize = step.parse().unwrap();
        let length = (16 + 4 * (1440 / minutes)) as u16;
        let codes = [0, u8::from(body == "moon")];
        let point = [(-1_051_786_000_i32).to_be_bytes(), 397_424_760_i32.to_be_bytes()].concat();
        let header = [&length.to_be_bytes()[..], &[1], &codes, &[7, 211, 10, 17], &point, &[minutes as u8]].concat();
        assert_eq!(bytes[..18], header, "{index}");
        // All decimals of a table of the day, the last of them cut off.
        let day = answer(&[&["day", "2003-10-17", "--csv", "--every", step], &BOULDER[..]].concat(), "");
        let column = if body == "sun" { 1 } else { 3 };
        let azimuths = columns(&day).into_iter().skip(1).map(|row| row[column].replace('.', "").parse::<u64>().unwrap() / 10);
        assert!(bytes[18..].chunks(4).map(|four| u64::from(u32::from_be_bytes(four.try_into().unwrap()))).eq(azimuths));
    }
}

#[test]
fn a_strip_says_what_it_is_worked_with() {
    let room = Room::of("a_strip_says_what_it_is_worked_with");
    let file = room.file("b");
    let said = answer(&["strip", "make", "sun", "2003-10-17", "--lat", "39.742476", "--lon", "-105.1786", "--out", &file], "");
    assert!(said
        .starts_with("Strip of the Sun on 2003-10-17 UTC, air none\nlatitude 39.742476 N, longitude 105.1786 W, height 0 m\n"));
    assert!(said.contains("\nUT1 minus UTC 0.0 s (assumed, since it is not given)\ndelta-T 64.5 s (from a table"), "{said}");
    assert!(said.contains("\n144 azimuths, one every 10 minutes; none of them is absent\n594 bytes are written to "), "{said}");
}

#[test]
fn nothing_is_overwritten() {
    let room = Room::of("nothing_is_overwritten");
    let file = room.put("here", b"mine");
    let inside = room.file("no/such/directory");
    for (out, why) in [
        (&file[..], "is there already"),
        (&room.file(".")[..], "is there already"),
        ("/dev/null", "is there already"),
        (&inside[..], "cannot be written"),
    ] {
        let words = ["strip", "make", "moon", "2003-10-17", "--out", out];
        refused(&[&words, &BOULDER[..]].concat(), 1, &[why, &name(out)]);
    }
    assert_eq!(fs::read(&file).unwrap(), b"mine");
}

// A file may have no bytes here: the write fails, and what was begun is taken away.
#[cfg(unix)]
#[test]
fn a_failed_write_leaves_no_file() {
    let room = Room::of("a_failed_write_leaves_no_file");
    let file = room.file("half");
    let words = [&["strip", "make", "sun", "2003-10-17", "--out", &file], &BOULDER[..]].concat();
    let mut shell = std::process::Command::new("sh");
    shell.args(["-c", "trap '' XFSZ; ulimit -f 0; exec \"$0\" \"$@\"", env!("CARGO_BIN_EXE_raddlehue")]).args(&words);
    no_answer(&words, shell.output().unwrap(), 1, &["cannot be written", &name(&file)]);
    assert!(room.is_empty());
}

#[test]
fn refused_words_make_no_file() {
    let room = Room::of("refused_words_make_no_file");
    let file = room.file("none");
    let good = ["strip", "make", "sun", "2003-10-17", "--out", &file];
    let with = |words: &[&'static str], status, parts: &[&str]| refused(&[&good, words].concat(), status, parts);
    for step in ["0", "3", "4", "15", "-1", "1440", "266"] {
        refused(&[&good[..], &BOULDER, &["--step", step]].concat(), 1, &[&format!("--step {step:?}: refused 25: ")]);
    }
    for step in ["", "ten", "2.5", "2,5", "1e1", "010", "0x5", "99999999999999999999"] {
        refused(&[&good[..], &BOULDER, &["--step", step]].concat(), 2, &[&format!("{step:?}")]);
    }
    // The air of a strip is none, so that there is nothing to choose.
    for air in ["none", "standard", "measured", "1"] {
        refused(&[&good[..], &BOULDER, &["--air", air]].concat(), 2, &["\"--air\" is unknown"]);
    }
    with(&["--lat", "39,7", "--lon", "5"], 2, &["\"39,7\"", "with a point"]);
    with(&["--lat", "91", "--lon", "5"], 1, &["--lat \"91\": refused 8: "]);
    with(&["--lat", "5", "--lon", "180.0000001"], 1, &["--lon \"180.0000001\": refused 7: "]);
    with(&["--lat", "5", "--lon", "5", "--height", "9001"], 1, &["--height \"9001\": refused 9: "]);
    with(&["--lat", "5", "--lon", "5", "--zone", "+01:00"], 2, &["\"--zone\" is unknown"]);
    with(&["--lat", "5", "--lon", "5", "--json"], 2, &["\"--json\" is unknown"]);
    refused(
        &[&["strip", "make", "sun", "1899-12-31", "--out", &file], &BOULDER[..]].concat(),
        1,
        &["\"1899-12-31\": refused 1: "],
    );
    refused(
        &[&["strip", "make", "sun", "2003-02-29", "--out", &file], &BOULDER[..]].concat(),
        1,
        &["\"2003-02-29\": refused 3: "],
    );
    refused(&[&["strip", "make", "mars", "2003-10-17", "--out", &file], &BOULDER[..]].concat(), 2, &["\"mars\""]);
    refused(&[&good[..4], &BOULDER].concat(), 2, &["\"--out\" is missing"]);
    for out in ["", "-"] {
        refused(&[&good[..4], &BOULDER, &["--out", out]].concat(), 2, &[&format!("{out:?} is none")]);
    }
    assert!(room.is_empty());
}

// ---- what is read

#[test]
fn a_strip_is_shown() {
    let room = Room::of("a_strip_is_shown");
    let file = room.boulder("17", "b");
    let text = answer(&["strip", "show", &file], "");
    let heading = "Strip of the Sun on 2003-10-17, times in UTC\nlatitude 39.742476 N, longitude 105.1786 W\n\
        air none, which changes no azimuth\n144 azimuths, one every 10 minutes; none of them is absent\n\
        azimuth in degrees from north over east, rounded down\n\ntime       azimuth\n00:00  ";
    assert!(text.starts_with(heading), "{text}");
    assert!(text.contains("\n19:30  194.1824835\n") && text.lines().last().unwrap().starts_with("23:50  "), "{text}");
    let json = answer(&["strip", "show", &file, "--json"], "");
    for part in [
        "\"date\": \"2003-10-17\", \"zone\": \"Z\", \"body\": \"sun\"",
        "\"air\": \"none\"",
        "\"latitude_degrees\": 39.7424760, \"longitude_degrees\": -105.1786000",
        "\"step_minutes\": 10, \"steps\": 144, \"absent\": 0",
        "{\"time\": \"2003-10-17T19:30:00Z\", \"azimuth_degrees\": 194.1824835}",
    ] {
        assert!(json.contains(part), "{part}: {json}");
    }
    assert_eq!(json.matches("\"time\"").count(), 144);
    let csv = answer(&["strip", "show", &file, "--csv"], "");
    let rows = columns(&csv);
    assert_eq!(rows[0], ["time", "azimuth_degrees", "body", "air", "latitude_degrees", "longitude_degrees", "step_minutes"]);
    assert_eq!(rows[118], ["2003-10-17T19:30:00Z", "194.1824835", "sun", "none", "39.7424760", "-105.1786000", "10"]);
    assert!(rows.len() == 145 && rows.iter().all(|row| row.len() == 7));
    refused(&["strip", "show", &file, "--json", "--csv"], 2, &["only one"]);
}

// Made by a version that had standard air: byte 1 is still read, at every step, and nothing but the air is another.
#[test]
fn an_old_strip_says_what_was_carried_over() {
    let room = Room::of("an_old_strip_says_what_was_carried_over");
    for step in ["1", "2", "5", "10"] {
        let bare = room.file(step);
        answer(&[&["strip", "make", "moon", "2003-10-17", "--step", step, "--out", &bare], &BOULDER[..]].concat(), "");
        let mut bytes = fs::read(&bare).unwrap();
        bytes[3] = 1;
        let old = room.put(&format!("{step}.old"), &bytes);
        for (form, none, carried_over) in [
            (None, "\nair none, ", "\nair measured at 1010 mbar and 10 degrees Celsius, carried over from an old strip, "),
            (
                Some("--json"),
                "\"air\": \"none\"",
                "\"air\": \"carried_over\", \"pressure_mbar\": 1010, \"temperature_celsius\": 10",
            ),
            (Some("--csv"), ",moon,none,", ",moon,carried_over,"),
        ] {
            let shown = |file| answer(&["strip", "show", file].into_iter().chain(form).collect::<Vec<_>>(), "");
            assert!(shown(&bare).contains(none));
            assert_eq!(shown(&old), shown(&bare).replace(none, carried_over));
        }
        assert!(answer(&["strip", "find", &old, &bare, "2003-10-17"], "").contains("\nair measured at 1010 mbar"));
    }
}

#[test]
fn an_absent_azimuth_is_none() {
    let room = Room::of("an_absent_azimuth_is_none");
    let file = room.file("oahu");
    let words = ["strip", "make", "sun", "2027-05-28", "--step", "5", "--out", &file];
    assert!(answer(&[&words, &OAHU[..]].concat(), "").contains("; 1 of them is absent\n"));
    let text = answer(&["strip", "show", &file], "");
    assert!(text.contains("\n288 azimuths, one every 5 minutes; 1 of them is absent\n"));
    assert!(text.contains("\nazimuth none where it is absent, as that of a body straight overhead or straight underfoot\n"));
    assert!(text.contains("\n22:30         none\n"), "{text}");
    let json = answer(&["strip", "show", &file, "--json"], "");
    assert!(json.contains("{\"time\": \"2027-05-28T22:30:00Z\", \"azimuth_degrees\": null}") && json.contains("\"absent\": 1"));
    let csv = answer(&["strip", "show", &file, "--csv"], "");
    assert_eq!(columns(&csv).into_iter().find(|row| row[0] == "2027-05-28T22:30:00Z").unwrap()[1], "");
    // A phone may send none at all; the point's ends, a minute's step, the Moon.
    let header = [&5776_u16.to_be_bytes()[..], &[1, 0, 1, 7, 108, 1, 1], &(-1_800_000_000_i32).to_be_bytes()].concat();
    let bytes = [&header[..], &(-1_i32).to_be_bytes(), &[1], &[255; 5760]].concat();
    let text = answer(&["strip", "show", &room.put("none", &bytes)], "");
    assert!(text.starts_with("Strip of the Moon on 1900-01-01, times in UTC\nlatitude 0.0000001 S, longitude 180 W\n"), "{text}");
    assert!(text.contains("\n1440 azimuths, one every minute; 1440 of them are absent\n"), "{text}");
    assert_eq!(text.matches("         none\n").count(), 1440);
}

#[test]
fn a_file_that_is_no_strip_is_refused() {
    let room = Room::of("a_file_that_is_no_strip_is_refused");
    let good = fs::read(room.boulder("17", "good")).unwrap();
    let with = |index: usize, byte: u8| {
        let mut bytes = good.clone();
        bytes[index] = byte;
        bytes
    };
    let long = [&good[..], &[10]].concat();
    // A length of its own that two bytes hold, and more than they do: 65,537 bytes, and one more.
    let most = [&[255, 255], &good[2..], &[0; 64_943]].concat();
    let more = [&most[..], &[0]].concat();
    for (bytes, number) in [
        (vec![], 20),
        (vec![0], 20),
        (b"time,azimuth\r\n".to_vec(), 20),
        (good[..593].to_vec(), 20),
        (long, 20),
        (with(1, 0), 20),
        (with(2, 2), 21),
        (with(3, 2), 22),
        (with(4, 2), 22),
        (with(7, 13), 23),
        (with(13, 127), 24),
        (with(17, 15), 25),
        (with(17, 5), 20),
        (with(18, 250), 26),
        (most.clone(), 20),
        ([&most[..2], &[9], &most[3..]].concat(), 21),
        ([&more[..2], &[9], &more[3..]].concat(), 20),
    ] {
        let file = room.put("bad", &bytes);
        let (named, refusal) = (name(&file), format!(": refused {number}: "));
        refused(&["strip", "show", &file], 1, &[&named, &refusal]);
        refused(&["strip", "show", &file, "--json"], 1, &[&named, &refusal]);
    }
}

#[test]
fn a_file_that_cannot_be_read() {
    let room = Room::of("a_file_that_cannot_be_read");
    for file in [&room.file(".")[..], &room.file("missing"), ""] {
        refused(&["strip", "show", file], 1, &[&format!("the file {}", name(file)), "cannot be read: "]);
        refused(&["strip", "find", file, file, "2003-10-17"], 1, &[&format!("the file {}", name(file)), "cannot be read: "]);
    }
    refused(&["strip", "show", "-"], 2, &["\"-\" is unknown"]);
}

// It has no end, and is not waited for.
#[cfg(target_os = "linux")]
#[test]
fn a_file_without_an_end_is_refused() {
    refused(&["strip", "show", "/dev/zero"], 1, &["\"/dev/zero\": refused 20: "]);
}

// ---- two strips

#[test]
fn the_strip_that_bears_the_date() {
    let room = Room::of("the_strip_that_bears_the_date");
    let (first, second) = (room.boulder("17", "first"), room.boulder("18", "second"));
    let find = |date: &str, form: &[&str]| answer(&[&["strip", "find", &first, &second, date], form].concat(), "");
    for (date, which, file) in [("2003-10-17", "first", &first), ("2003-10-18", "second", &second)] {
        let text = find(date, &[]);
        let (found, shown) = text.split_once('\n').unwrap();
        assert!(found.starts_with(&format!("the {which} strip, {}", name(file))), "{found}");
        assert!(found.ends_with(" bears the date: its azimuths are the 576 bytes behind the first 18"), "{found}");
        assert_eq!(shown, answer(&["strip", "show", file], ""));
        let json = find(date, &["--json"]);
        let part = format!("{{\n  \"found_in\": \"{which}\", \"azimuths_offset_bytes\": 18, \"azimuths_length_bytes\": 576,\n");
        assert_eq!(json.replace(&part, "{\n"), answer(&["strip", "show", file, "--json"], ""));
        let csv = find(date, &["--csv"]);
        let added = format!("{which},18,576,");
        let plain = csv.replace("found_in,azimuths_offset_bytes,azimuths_length_bytes,", "").replace(&added, "");
        assert_eq!(plain, answer(&["strip", "show", file, "--csv"], ""));
        assert_eq!(csv.matches(&added).count(), 144);
    }
    assert!(answer(&["strip", "find", &first, &first, "2003-10-17"], "").starts_with("the first strip, "), "both bear it");
    for date in ["2003-10-16", "2003-11-17", "2002-10-17", "1899-10-17"] {
        refused(&["strip", "find", &first, &second, date], 1, &[&format!("{date:?}: refused 27: neither strip bears that date")]);
    }
    refused(&["strip", "find", &first, &second, "2003-02-30"], 1, &["\"2003-02-30\": refused 3: "]);
    refused(&["strip", "find", &first, &second, "17.10.2003"], 2, &["\"17.10.2003\""]);
    refused(&["strip", "find", &first, &second], 2, &["DATE is missing"]);
    refused(&["strip", "find", &first, "2003-10-17"], 2, &["DATE is missing"]);
}

#[test]
fn both_strips_are_judged() {
    let room = Room::of("both_strips_are_judged");
    let good = room.boulder("17", "good");
    let mut bytes = fs::read(&good).unwrap();
    bytes[590] = 255;
    let azimuth = room.put("azimuth", &bytes);
    bytes[2] = 0;
    let version = room.put("version", &bytes);
    let cases = [(&azimuth, &good, 26, &azimuth), (&good, &azimuth, 26, &azimuth), (&version, &azimuth, 21, &version)];
    for (first, second, number, named) in cases.into_iter().chain([(&azimuth, &version, 26, &azimuth)]) {
        for date in ["2003-10-17", "2003-10-18"] {
            let parts = [name(named), format!(": refused {number}: ")];
            refused(&["strip", "find", first, second, date], 1, &parts.each_ref().map(String::as_str));
        }
    }
}

// ---- streams and locales

#[cfg(target_os = "linux")]
#[test]
fn a_full_disk_is_an_error() {
    let room = Room::of("a_full_disk_is_an_error");
    let file = room.boulder("17", "b");
    for words in [&["strip", "show", &file][..], &["strip", "find", &file, &file, "2003-10-17"], &["strip", "--help"]] {
        let full = OpenOptions::new().write(true).open("/dev/full").unwrap();
        let output = raddlehue(words).stdout(full).output().unwrap();
        no_answer(words, output, 1, &["the answer cannot be written"]);
    }
}

#[test]
fn no_locale_changes_a_byte() {
    let room = Room::of("no_locale_changes_a_byte");
    let made = ["de_DE.UTF-8", "C"].map(|locale| {
        let words = [&["strip", "make", "moon", "2003-10-17", "--out", "b"], &BOULDER[..]].concat();
        let made = raddlehue(&words).current_dir(&room.0).env("LC_ALL", locale).env("LANG", locale).output().unwrap();
        let shown = [&[][..], &["--json"], &["--csv"]].map(|form| {
            let words = [&["strip", "show", "b"], form].concat();
            raddlehue(&words).current_dir(&room.0).env("LC_ALL", locale).env("LANG", locale).output().unwrap()
        });
        assert!(made.status.success() && shown.iter().all(|shown| shown.status.success()));
        let bytes = fs::read(room.file("b")).unwrap();
        fs::remove_file(room.file("b")).unwrap();
        (made, shown, bytes)
    });
    assert_eq!(made[0], made[1]);
}
