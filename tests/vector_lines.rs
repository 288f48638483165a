// The places of tests/vectors: BODY TIME.. POINT.. AIR | REFUSAL AZIMUTH ELEVATION SHOWN-AZIMUTH SHOWN-ELEVATION REFRACTION, the last three in bits. An azimuth is `none` where
// there is none; a refused line has zeros, and its call writes nothing.
#![allow(dead_code)]

use crate::archive::*;

pub fn numbers(text: &str) -> Vec<i64> {
    text.split_whitespace().map(|word| word.parse().unwrap()).collect()
}

pub fn request(numbers: &[i64]) -> [i64; 12] {
    numbers.try_into().unwrap_or_else(|_| panic!("{numbers:?} has {} numbers", numbers.len()))
}

// A double's bits.
pub fn bits(word: &str) -> i64 {
    u64::from_str_radix(word, 16).unwrap() as i64
}

fn double(word: &str) -> f64 {
    f64::from_bits(bits(word) as u64)
}

pub fn body(name: &str) -> u32 {
    match name {
        "sun" => SUN,
        "moon" => MOON,
        _ => panic!("{name} is no body"),
    }
}

pub fn air(words: &[&str]) -> Air {
    match words {
        ["none"] => NO_AIR,
        ["carried-over"] => carried_over(),
        ["measured", pressure, temperature] => measured(double(pressure), double(temperature)),
        _ => panic!("{words:?} is no air"),
    }
}

// A direction, where the word has one.
pub fn direction(word: &str) -> Option<i64> {
    (word != "none").then(|| word.parse().unwrap())
}

// What a call writes: these where it is accepted, nothing where it is refused.
pub fn written<const N: usize>(refusal: u32, values: [i64; N]) -> Answer<[i64; N]> {
    if refusal == 0 {
        (0, values)
    } else {
        assert_eq!(values, [0; N]);
        (refusal, [POISON; N])
    }
}

// A line's request, with the two answers to it.
#[derive(Debug)]
pub struct PlaceLine {
    pub numbers: [i64; 12],
    pub body: u32,
    pub air: Air,
    pub place: Answer<Seen<2>>,
    pub shown: Answer<Seen<3>>,
}

impl PlaceLine {
    pub fn of(line: &str) -> PlaceLine {
        let (left, right) = line.split_once(" | ").unwrap();
        let words: Vec<&str> = left.split(' ').collect();
        let wanted: Vec<&str> = right.split(' ').collect();
        let refusal = wanted[0].parse().unwrap();
        let azimuth = direction(wanted[1]);
        let seen = [azimuth.unwrap_or(0), wanted[2].parse().unwrap()];
        PlaceLine {
            numbers: request(&numbers(&words[1..13].join(" "))),
            body: body(words[0]),
            air: air(&words[13..]),
            place: told(written(refusal, seen), azimuth),
            shown: told(written(refusal, [wanted[3], wanted[4], wanted[5]].map(bits)), azimuth),
        }
    }

    pub fn check(&self) {
        assert_eq!(place(&self.numbers, self.body, self.air), self.place, "{self:?}");
        assert_eq!(shown_place(&self.numbers, self.body, self.air), self.shown, "{self:?}");
    }
}

// How many places without an azimuth tests/vectors/overhead.txt has at a whole minute.
pub const ABSENT: usize = 17;

// Their days: the request of a day, the body, and the minute at which it has none.
pub fn absent_minutes(text: &str) -> Vec<([i64; 8], u32, usize)> {
    let lines = text.lines().filter(|line| !line.starts_with('#')).map(PlaceLine::of);
    let on_the_minute = lines.filter(|line| line.place.1.has_azimuth == 0 && line.air.kind == 0 && line.numbers[5..7] == [0, 0]);
    let day_of = |line: PlaceLine| {
        let [year, month, day, hour, minute, _, _, ut1, delta_t, longitude, latitude, height] = line.numbers;
        ([year, month, day, ut1, delta_t, longitude, latitude, height], line.body, (60 * hour + minute) as usize)
    };
    let days: Vec<_> = on_the_minute.map(day_of).collect();
    assert_eq!(days.len(), ABSENT);
    days
}

fn told<const N: usize>((refusal, numbers): Answer<[i64; N]>, azimuth: Option<i64>) -> Answer<Seen<N>> {
    let has_azimuth = if refusal == 0 { u32::from(azimuth.is_some()) } else { Seen::<N>::UNWRITTEN.has_azimuth };
    (refusal, Seen { has_azimuth, numbers })
}
