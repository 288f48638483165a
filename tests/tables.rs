// Every entry of the code's tables and polynomials against the csv files in tests/tables.
use std::fs;
use std::path::Path;
use std::process::exit;

// Where the code has its polynomials, and where its tables.
const CODE: [&str; 3] = ["crates/moon_sums/src", "crates/earth/src", "crates/sum_tables/src"];
const TABLES: &str = "tests/tables";

// The Sun's groups, which have the same names in the code, with the rows that 01 counts.
const SUN_GROUPS: [(&str, usize); 13] = [
    ("L0", 64),
    ("L1", 34),
    ("L2", 20),
    ("L3", 7),
    ("L4", 3),
    ("L5", 1),
    ("B0", 5),
    ("B1", 2),
    ("R0", 40),
    ("R1", 10),
    ("R2", 6),
    ("R3", 2),
    ("R4", 1),
];

// A polynomial's name in polynomials.csv, the file that has it, and its name there.
const POLYNOMIALS: [(&str, &str, &str); 13] = [
    ("Lp", "moon.rt", "MEAN_LONGITUDE"),
    ("D", "moon.rt", "ELONGATION"),
    ("M", "moon.rt", "SUN_ANOMALY"),
    ("Mp", "moon.rt", "MOON_ANOMALY"),
    ("F", "moon.rt", "LATITUDE_ARGUMENT"),
    ("A1", "moon.rt", "VENUS"),
    ("A2", "moon.rt", "JUPITER"),
    ("A3", "moon.rt", "THIRD"),
    ("X0", "nutation.rt", "MEAN_ELONGATION"),
    ("X1", "nutation.rt", "SUN_MEAN_ANOMALY"),
    ("X2", "nutation.rt", "MOON_MEAN_ANOMALY"),
    ("X3", "nutation.rt", "MOON_LATITUDE_ARGUMENT"),
    ("X4", "nutation.rt", "ASCENDING_NODE"),
];

const COEFFICIENTS: [&str; 7] = ["c0", "c1", "c2", "s3", "k3", "s4", "k4"];

fn fail(why: String) -> ! {
    eprintln!("tables: {why}");
    exit(1)
}

fn read(path: String) -> String {
    fs::read_to_string(&path).unwrap_or_else(|error| fail(format!("{path}: {error}")))
}

fn number(text: &str) -> i64 {
    let digits = text.trim().replace('_', "");
    digits.parse().unwrap_or_else(|_| fail(format!("'{text}' is no number")))
}

// The lines of a csv file below its header, each split at its commas.
fn csv(name: &str) -> Vec<Vec<String>> {
    let text = read(format!("{TABLES}/{name}.csv"));
    text.lines().skip(1).map(|line| line.split(',').map(str::to_string).collect()).collect()
}

fn numbers(fields: &[String]) -> Vec<i64> {
    fields.iter().map(|field| number(field)).collect()
}

// What stands between `const NAME: .. =`, or `static NAME: .. =`, and its semicolon; the type may hold a semicolon of its own.
fn constant(file: &str, name: &str) -> String {
    let path = CODE.map(|folder| format!("{folder}/{file}")).into_iter().find(|path| Path::new(path).exists());
    let text = read(path.unwrap_or_else(|| fail(format!("no folder of {CODE:?} has {file}"))));
    let heads: Vec<_> = ["const", "static"].iter().flat_map(|word| text.match_indices(&format!("{word} {name}: ")).map(|head| head.0).collect::<Vec<_>>()).collect();
    if heads.len() != 1 {
        fail(format!("{file} has {} constants and statics {name}", heads.len()));
    }
    let after = &text[heads[0]..];
    let value = after.split_once(" = ").and_then(|(_, value)| value.split_once(';'));
    value.unwrap_or_else(|| fail(format!("{file}: {name} has no end"))).0.trim().to_string()
}

fn without<'a>(text: &'a str, open: &str, close: &str) -> &'a str {
    let inner = text.strip_prefix(open).and_then(|rest| rest.strip_suffix(close));
    inner.unwrap_or_else(|| fail(format!("'{text}' is not within {open} and {close}")))
}

// The rows of a constant array of arrays.
fn array(file: &str, name: &str) -> Vec<Vec<i64>> {
    let text = constant(file, name);
    let rows = without(&text, "[", "]").split_inclusive(']').map(|row| row.trim_start_matches(',').trim());
    rows.filter(|row| !row.is_empty()).map(|row| without(row, "[", "]").split(',').map(number).collect()).collect()
}

// The fields of a constant polynomial, c0 first.
fn polynomial(file: &str, name: &str) -> Vec<i64> {
    let text = constant(file, name);
    let body = without(&text, "Polynomial {", "}");
    let fields: Vec<_> = body.split(',').filter(|field| !field.trim().is_empty()).collect();
    let mut values = Vec::new();
    for (field, expected) in fields.iter().zip(COEFFICIENTS) {
        match field.split_once(':') {
            Some((key, value)) if key.trim() == expected => values.push(number(value)),
            _ => fail(format!("{file}: {name} has '{}' where {expected} stands", field.trim())),
        }
    }
    if fields.len() != COEFFICIENTS.len() {
        fail(format!("{file}: {name} has {} fields", fields.len()));
    }
    values
}

// The count of entries, once all are equal and there are so many rows.
fn same(name: &str, code: &[Vec<i64>], printed: &[Vec<i64>], rows: usize) -> usize {
    if printed.len() != rows || code.len() != rows {
        fail(format!("{name}: {} rows in the code, {} in the csv, {rows} in 01", code.len(), printed.len()));
    }
    for (i, (ours, theirs)) in code.iter().zip(printed).enumerate() {
        if ours != theirs {
            fail(format!("{name}, row {i}: the code has {ours:?}, the csv {theirs:?}"));
        }
    }
    code.iter().map(Vec::len).sum()
}

fn signed_table(name: &str, file: &str, csv_name: &str, rows: usize, trailing: &[i64]) -> usize {
    let printed: Vec<_> = csv(csv_name).iter().map(|fields| [&numbers(fields), trailing].concat()).collect();
    same(name, &array(file, name), &printed, rows)
}

fn sun() -> usize {
    let printed = csv("sun");
    let mut count = 0;
    let mut rows = 0;
    for (group, length) in SUN_GROUPS {
        let of_group = printed.iter().filter(|fields| fields[0] == group);
        let of_group: Vec<_> = of_group.map(|fields| numbers(&fields[1..])).collect();
        count += same(group, &array("sun_terms.rt", group), &of_group, length);
        rows += length;
    }
    if rows != printed.len() {
        fail(format!("sun.csv has {} rows, {rows} of a known group", printed.len()));
    }
    count
}

fn polynomials() -> usize {
    let printed = csv("polynomials");
    if printed.len() != POLYNOMIALS.len() {
        fail(format!("polynomials.csv has {} rows", printed.len()));
    }
    let mut count = 0;
    for (row, (printed_name, file, name)) in printed.iter().zip(POLYNOMIALS) {
        if row[0] != printed_name {
            fail(format!("polynomials.csv has {} where {printed_name} stands", row[0]));
        }
        count += same(name, &[polynomial(file, name)], &[numbers(&row[1..])], 1);
    }
    count
}

fn main() {
    // the code's rows of latitude have a last column for the distance, always 0
    let moon = signed_table("LONGITUDE_DISTANCE", "moon_terms.rt", "moon_longitude_distance", 60, &[])
        + signed_table("LATITUDE", "moon_terms.rt", "moon_latitude", 60, &[0]);
    let nutation = signed_table("NUTATION", "nutation_terms.rt", "nutation", 63, &[]);
    let count = moon + nutation + sun() + polynomials();
    println!("tables: {},{:03} entries equal the csv", count / 1000, count % 1000);
}
