// Every eclipse and covered share of tests/vectors/eclipses.txt, and requests that nobody should make, through the archive; of every eclipse the radii are those of the archive's own sums,
// place and sine, and the share is that of its three numbers. A refused call writes nothing.
use std::env;
use std::fs;

mod archive;
use archive::*;

// How many lines of each kind the file has.
const ECLIPSES: usize = 121;
const SHARES: usize = 61;

// ---- the vectors

// What a line has to say of an answer.
fn said<const N: usize>((refusal, values): Answer<[i64; N]>) -> Vec<i64> {
    if refusal != 0 {
        assert_eq!(values, [POISON; N], "written to, and refused {refusal}");
        return vec![refusal.into()];
    }
    [&[0], &values[..]].concat()
}

fn share(disks: [i64; 3]) -> Answer<[i64; 1]> {
    let [separation, sun_radius, moon_radius] = disks;
    let (refusal, share) = covered_share(separation, sun_radius, moon_radius);
    (refusal, [share])
}

fn exactly<const N: usize>(numbers: &[i64]) -> [i64; N] {
    numbers.try_into().unwrap_or_else(|_| panic!("{numbers:?} are not {N} numbers"))
}

fn vectors(path: &str) {
    let text = fs::read_to_string(path).unwrap();
    let numbers = |part: &str| part.split(' ').map(|word| word.parse().unwrap()).collect::<Vec<i64>>();
    let mut counts = [0; 2];
    for line in text.lines().filter(|line| !line.starts_with('#')) {
        let (left, expected) = line.split_once(" | ").unwrap();
        let (kind, input) = left.split_once(' ').unwrap();
        let (at, found) = match kind {
            "eclipse" => (0, said(checked_eclipse(&exactly(&numbers(input))))),
            "share" => (1, said(share(exactly(&numbers(input))))),
            _ => panic!("{line} is no eclipse and no share"),
        };
        assert_eq!(found, numbers(expected), "{line}");
        counts[at] += 1;
    }
    assert_eq!(counts, [ECLIPSES, SHARES]);
}

// ---- an eclipse of its parts

fn accepted<T>((refusal, values): Answer<T>) -> T {
    assert_eq!(refusal, 0);
    values
}

// Equation 58 of report 003, with the Earth's own distance from the Sun.
fn sun_radius(tt: i64) -> i64 {
    let [_, _, radius] = accepted(sun_sums(tt));
    (9_596_300_000_000_000_000 / (36 * radius as u64)) as i64
}

// Equation 59, with the Moon's own distance and its elevation as a place has it. The divisions are floors.
fn moon_radius(request: &[i64; 12], tt: i64) -> i64 {
    let [_, _, metres] = accepted(moon_sums(tt));
    let [_, elevation] = accepted(place(request, MOON, NO_AIR)).numbers;
    let parallax = 6_378_140_000_000_000 / metres;
    let sine = unsafe { raddlehue_sine(elevation) };
    358_473_400 * (1_000_000_000 + (parallax * sine).div_euclid(1_000_000_000)) / (36 * metres)
}

// An eclipse, held to its parts where it is accepted.
fn checked_eclipse(request: &[i64; 12]) -> Answer<[i64; 4]> {
    let found = eclipse(request);
    if let (0, [separation, sun, moon, covered]) = found {
        let [_, tt] = accepted(instant(start_of(request)));
        assert_eq!([sun, moon], [sun_radius(tt), moon_radius(request, tt)], "{request:?}");
        assert_eq!(share([separation, sun, moon]), (0, [covered]), "{request:?}");
    }
    found
}

// ---- what no caller should ask for

fn fields() {
    for (request, refusal) in wrong_requests() {
        assert_eq!(eclipse(&request), (refusal, [POISON; 4]), "{request:?}");
    }
}

fn shares() {
    let good = [1_000_000, 26_000_000, 27_000_000];
    assert_eq!(share(good), (0, [1_000_000]));
    for at in 0..3 {
        for extreme in [i64::MIN, i64::MIN + 1, -1, 1 << 62, i64::MAX] {
            let mut disks = good;
            disks[at] = extreme;
            assert_eq!(share(disks), (105, [POISON]), "{disks:?}");
        }
    }
}

fn main() {
    vectors(&env::args().nth(1).expect("the file of vectors"));
    fields();
    shares();
    println!("eclipses: {ECLIPSES} eclipses and {SHARES} shares come out");
}
