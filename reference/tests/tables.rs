//! The tables against the repository's comma-separated ones, and against floating-point mathematics.

use std::fs;
use std::path::Path;

use raddlehue_reference::instant::Polynomial;
use raddlehue_reference::moon::{A1, A2, A3, ELONGATION, LATITUDE_ARGUMENT, MEAN_LONGITUDE, MOON_ANOMALY, SUN_ANOMALY};
use raddlehue_reference::nutation::{X0, X1, X2, X3, X4};
use raddlehue_reference::sine;
use raddlehue_reference::tables::*;

/// The rows of a table, without its heading.
fn table(name: &str) -> Vec<Vec<String>> {
    let path = Path::new(env!("CARGO_MANIFEST_DIR")).join("../tests/tables").join(name);
    let text = fs::read_to_string(path).expect("the tables are in the repository");
    text.lines().skip(1).map(|line| line.split(',').map(str::to_string).collect()).collect()
}

fn numbers(row: &[String]) -> Vec<i64> {
    row.iter().map(|cell| cell.parse().expect("a whole number")).collect()
}

#[test]
fn polynomials() {
    let ours: [(&str, Polynomial); 13] = [
        ("Lp", MEAN_LONGITUDE),
        ("D", ELONGATION),
        ("M", SUN_ANOMALY),
        ("Mp", MOON_ANOMALY),
        ("F", LATITUDE_ARGUMENT),
        ("A1", A1),
        ("A2", A2),
        ("A3", A3),
        ("X0", X0),
        ("X1", X1),
        ("X2", X2),
        ("X3", X3),
        ("X4", X4),
    ];
    let rows = table("polynomials.csv");
    assert_eq!(rows.len(), ours.len());
    for (row, (name, ours)) in rows.iter().zip(ours) {
        assert_eq!(row[0], name);
        let [c0, c1, c2, sign3, k3, sign4, k4] = numbers(&row[1..])[..] else { panic!("seven numbers") };
        assert_eq!([ours.c0, ours.c1, ours.c2], [c0, c1, c2], "{name}");
        assert_eq!([ours.cubic, ours.quartic], [(100 * sign3, k3), (100 * sign4, k4)], "{name}");
    }
}

#[test]
fn moon_longitude_and_distance() {
    let rows = table("moon_longitude_distance.csv");
    assert_eq!(rows.len(), MOON_LONGITUDE.len());
    for (row, ours) in rows.iter().zip(&MOON_LONGITUDE) {
        let mut cells = ours.multiples.map(i64::from).to_vec();
        cells.extend([i64::from(ours.l), i64::from(ours.r)]);
        assert_eq!(numbers(row), cells);
    }
}

#[test]
fn moon_latitude() {
    let rows = table("moon_latitude.csv");
    assert_eq!(rows.len(), MOON_LATITUDE.len());
    for (row, ours) in rows.iter().zip(&MOON_LATITUDE) {
        let mut cells = ours.multiples.map(i64::from).to_vec();
        cells.push(i64::from(ours.b));
        assert_eq!(numbers(row), cells);
    }
}

#[test]
fn nutation() {
    let rows = table("nutation.csv");
    assert_eq!(rows.len(), NUTATION.len());
    for (row, ours) in rows.iter().zip(&NUTATION) {
        let mut cells = ours.multiples.map(i64::from).to_vec();
        cells.extend([ours.a, ours.b, ours.c, ours.d].map(i64::from));
        assert_eq!(numbers(row), cells);
    }
}

#[test]
fn sun() {
    let rows = table("sun.csv");
    let counts = [("L", &SUN_LONGITUDE[..], &[64, 34, 20, 7, 3, 1][..]), ("B", &SUN_LATITUDE, &[5, 2])];
    let mut seen = 0;
    for (letter, groups, counts) in counts.into_iter().chain([("R", &SUN_RADIUS[..], &[40, 10, 6, 2, 1][..])]) {
        assert_eq!(groups.len(), counts.len());
        for (i, (group, &count)) in groups.iter().zip(counts).enumerate() {
            let name = format!("{letter}{i}");
            let theirs: Vec<Vec<i64>> =
                rows.iter().filter(|row| row[0] == name).map(|row| numbers(&row[1..])).collect();
            assert_eq!(theirs.len(), count, "{name}");
            let (constant, moving): (Vec<_>, Vec<_>) = theirs.into_iter().partition(|row| row[1] == 0 && row[2] == 0);
            assert_eq!(constant.iter().map(|row| row[0]).sum::<i64>(), group.constant, "{name}");
            let ours: Vec<Vec<i64>> = group.rows.iter().map(|row| vec![row.a, row.b, 5000 * row.c]).collect();
            assert_eq!(moving, ours, "{name}");
            seen += count;
        }
    }
    assert_eq!(seen, rows.len());
    assert_eq!(raddlehue_reference::cosine(0), 1_000_000_000, "on which the constant rows rest");
}

/// The nearest whole number, where the value is far enough from a tie for doubles to tell.
fn nearest(value: f64) -> i64 {
    let fraction = value - value.floor();
    assert!((fraction - 0.5).abs() > 1e-4, "{value} is too near a tie");
    value.round() as i64
}

#[test]
fn sine_table_is_the_nearest_whole() {
    for (k, &entry) in SINE.iter().enumerate() {
        assert_eq!(entry, nearest((k as f64 / 4.0).to_radians().sin() * 1e9), "entry {k}");
        assert_eq!(entry, sine(25_000_000 * k as i64));
    }
}

#[test]
fn arctangent_table_is_the_nearest_whole() {
    for (k, &entry) in ARCTANGENT.iter().enumerate() {
        assert_eq!(entry, nearest(0.5f64.powi(k as i32).atan().to_degrees() * 1e8), "entry {k}");
    }
}

#[test]
fn sine_lies_within_six_units() {
    for step in 0..2_000_000 {
        let angle = step * 18_000 + step % 17_989;
        let exact = (angle as f64 / 1e8).to_radians().sin() * 1e9;
        assert!((sine(angle) as f64 - exact).abs() <= 6.0, "{angle}");
    }
}
