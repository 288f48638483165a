//! Every line of the repository's vectors, to the last unit and the last bit.

use std::collections::BTreeMap;

use raddlehue_reference::eclipse::are_disks;
use raddlehue_reference::*;

mod lines;
use lines::{exactly, read, start_and_point, whole, wholes};

#[allow(dead_code)]
#[path = "../examples/days.rs"]
mod day_lines;

/// Checks every line of a file but its comments, and gives the count of lines of each kind.
fn check_file(name: &str) -> BTreeMap<String, usize> {
    let mut counts = BTreeMap::new();
    for line in read(&format!("vectors/{name}")).lines().filter(|line| !line.starts_with('#')) {
        let (kind, rest) = line.split_once(' ').expect("a kind, then its numbers");
        let (input, answer) = rest.split_once('|').expect("a question and an answer");
        match kind {
            "sums" => check_sums(input, answer),
            "sun" | "moon" => check_place(body(kind), input, answer),
            "sine" => check_sine(input, answer),
            "atan" => check_arctangent(input, answer),
            "root" => check_root(input, answer),
            "middle" => check_middle(input, answer),
            "refr" => check_refraction(input, answer),
            "sheet" => check_sheet(input, answer),
            "batch" => check_batch(input, answer),
            "eclipse" => check_eclipse(input, answer),
            "share" => check_share(input, answer),
            other => panic!("unknown kind {other}"),
        }
        *counts.entry(kind.to_string()).or_insert(0) += 1;
    }
    counts
}

fn counted(kinds: &[(&str, usize)]) -> BTreeMap<String, usize> {
    kinds.iter().map(|&(kind, count)| (kind.to_string(), count)).collect()
}

#[test]
fn places() {
    assert_eq!(check_file("places.txt"), counted(&[("moon", 125), ("sums", 65), ("sun", 115)]));
}

#[test]
fn milliseconds() {
    assert_eq!(check_file("milliseconds.txt"), counted(&[("moon", 102), ("sums", 50), ("sun", 78)]));
}

#[test]
fn leaves() {
    let expected = [
        ("atan", 240),
        ("batch", 6),
        ("middle", 240),
        ("moon", 2),
        ("refr", 240),
        ("root", 240),
        ("sheet", 24),
        ("sine", 480),
        ("sun", 4),
    ];
    assert_eq!(check_file("leaves.txt"), counted(&expected));
}

#[test]
fn horizon() {
    assert_eq!(check_file("horizon.txt"), counted(&[("moon", 125), ("refr", 45), ("sun", 112)]));
}

#[test]
fn overhead() {
    assert_eq!(check_file("overhead.txt"), counted(&[("moon", 212), ("sun", 212)]));
}

#[test]
fn eclipses() {
    assert_eq!(check_file("eclipses.txt"), counted(&[("eclipse", 121), ("share", 61)]));
}

#[test]
fn days() {
    let text = read("vectors/days.txt");
    for line in text.lines() {
        assert_eq!(day_lines::answered(line).as_deref(), Some(line));
    }
    assert_eq!(text.lines().filter(|line| line.starts_with("day ")).count(), 81);
}

fn body(word: &str) -> Body {
    match word {
        "sun" => Body::Sun,
        "moon" => Body::Moon,
        other => panic!("unknown body {other}"),
    }
}

/// An angle, or the word for no direction.
fn direction(word: &str) -> Option<i64> {
    (word != "none").then(|| whole(word))
}

fn double(word: &str) -> f64 {
    assert_eq!(word.len(), 16);
    f64::from_bits(u64::from_str_radix(word, 16).expect("hex digits"))
}

fn bytes(hex: &str) -> Vec<u8> {
    assert_eq!(hex.len() % 2, 0);
    (0..hex.len()).step_by(2).map(|at| u8::from_str_radix(&hex[at..at + 2], 16).expect("hex digits")).collect()
}

fn air(words: &[&str]) -> Air {
    match *words {
        ["none"] => Air::None,
        ["carried-over"] => carried_over(),
        ["measured", pressure, temperature] => Air::Measured(double(pressure), double(temperature)),
        _ => panic!("unknown air {words:?}"),
    }
}

/// What an old strip, which has air byte 1, is read with. The answers of its lines are those of standard air, so that
/// the place is shown with the same bits as before.
fn carried_over() -> Air {
    let header = [2, 80, 1, 1, 1, 7, 211, 10, 17, 0xc1, 0x4f, 0x04, 0xf0, 0x17, 0xb0, 0x38, 0x78, 10];
    let old = [&header[..], &[0; 4 * 144]].concat();
    let (strip, _) = read_strip(&old).expect("accepted");
    Air::from(strip.air)
}

fn check_sums(input: &str, answer: &str) {
    let [tt] = exactly(input);
    let [longitude, latitude, metres, l, b, r, psi, epsilon, obliquity, sidereal] = exactly(&answer.replace('|', " "));
    assert_eq!(moon(tt), Moon { longitude, latitude, metres }, "moon at {tt}");
    assert_eq!(sun(tt), Sun { longitude: l, latitude: b, radius: r }, "sun at {tt}");
    let expected = Nutation { longitude: psi, obliquity: epsilon, true_obliquity: obliquity };
    assert_eq!(nutation(tt), expected, "nutation at {tt}");
    assert_eq!(mean_sidereal(tt), sidereal, "sidereal at {tt}");
}

fn check_place(body: Body, input: &str, answer: &str) {
    let words: Vec<&str> = input.split_whitespace().collect();
    let (start, point) = start_and_point(&words[..12].join(" "));
    let air = air(&words[12..]);
    let answer: Vec<&str> = answer.split_whitespace().collect();
    let [refusal, azimuth, elevation, shown @ ..] = &answer[..] else { panic!("too short: {answer:?}") };

    let got = match place(start, body, point, air) {
        Ok(place) => {
            check_entries(start, body, point, place);
            (0, place.azimuth, place.elevation)
        }
        Err(number) => (number.into(), Some(0), 0),
    };
    assert_eq!(got, (whole(refusal), direction(azimuth), whole(elevation)), "{body:?}{input}");

    let (number, has_azimuth, got) = match shown_place(start, body, point, air) {
        Ok(Shown { azimuth, elevation, refraction }) => {
            (0, azimuth.is_some(), [azimuth.unwrap_or(0.0), elevation, refraction])
        }
        Err(number) => (number.into(), true, [0.0; 3]),
    };
    assert_eq!((number, has_azimuth), (whole(refusal), direction(azimuth).is_some()), "{body:?}{input}");
    assert_eq!(got.map(|value| format!("{:016x}", value.to_bits())).as_slice(), shown, "{body:?}{input}");
}

/// A batch of this place alone, in buffers of two.
fn check_entries(start: Start, body: Body, point: Point, Place { azimuth, elevation }: Place) {
    let (mut azimuths, mut elevations) = ([-7; 2], [-8; 2]);
    assert_eq!(batch(start, body, point, &[0], &mut azimuths, &mut elevations), Ok(1));
    assert_eq!((azimuths, elevations), ([azimuth.unwrap_or(i64::MAX), -7], [elevation, -8]), "{start:?} {point:?}");
}

fn check_sine(input: &str, answer: &str) {
    let [angle] = exactly(input);
    assert_eq!([sine(angle), cosine(angle)], exactly(answer), "sine and cosine of {angle}");
}

fn check_arctangent(input: &str, answer: &str) {
    let [y, x] = exactly(input);
    assert_eq!(arctangent(y, x), direction(answer.trim()), "arctangent of {y}, {x}");
}

fn check_root(input: &str, answer: &str) {
    let n = input.trim().parse().expect("a number from 0 up");
    assert_eq!(root(n), answer.trim().parse().expect("a number from 0 up"), "root of {n}");
}

fn check_middle(input: &str, answer: &str) {
    let [a, b] = exactly(input);
    let got = match middle(a, b) {
        Ok(azimuth) => [0, azimuth],
        Err(number) => [number.into(), 0],
    };
    assert_eq!(got, exactly(answer), "middle of {a}, {b}");
}

fn check_refraction(input: &str, answer: &str) {
    let words: Vec<&str> = input.split_whitespace().collect();
    let got = refraction(whole(words[0]), air(&words[1..]));
    assert_eq!(got.to_bits(), double(answer.trim()).to_bits(), "refraction at {input}");
}

fn check_sheet(input: &str, answer: &str) {
    let input = bytes(input.trim());
    let expected = String::from_utf8(bytes(answer.trim())).expect("text");
    assert_eq!(sheet(&input), expected);
}

fn check_batch(input: &str, answer: &str) {
    let (request, offsets) = input.split_once(';').expect("a request and offsets");
    let words: Vec<&str> = request.split_whitespace().collect();
    let (start, point) = start_and_point(&words[1..13].join(" "));
    let offsets: Vec<u32> = wholes(offsets).into_iter().map(|offset| offset.try_into().expect("an offset")).collect();
    let mut azimuths = vec![-7; words[13].parse().expect("a length")];
    let mut elevations = vec![-8; words[14].parse().expect("a length")];
    let [refusal, index, count] = match batch(start, body(words[0]), point, &offsets, &mut azimuths, &mut elevations) {
        Ok(count) => [0, 0, count],
        Err((number, index)) => [number.into(), index, 0],
    };
    let parts: Vec<Vec<i64>> = answer.split(';').map(wholes).collect();
    assert_eq!(parts, [vec![refusal as i64, index as i64, count as i64], azimuths, elevations], "batch{input}");
}

fn check_eclipse(input: &str, answer: &str) {
    let (start, point) = start_and_point(input);
    let got = match eclipse(start, point) {
        Ok(found) => vec![0, found.separation, found.sun_radius, found.moon_radius, found.share],
        Err(number) => vec![number.into()],
    };
    assert_eq!(got, wholes(answer), "eclipse {input}");
}

/// Refusal 105 is C's, for three numbers that this library is not asked for.
fn check_share(input: &str, answer: &str) {
    let [separation, sun_radius, moon_radius] = exactly(input);
    let got = if are_disks(separation, sun_radius, moon_radius) {
        vec![0, covered_share(separation, sun_radius, moon_radius)]
    } else {
        vec![105]
    };
    assert_eq!(got, wholes(answer), "share {input}");
}
