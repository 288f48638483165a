// The program `places`: the places and refusals of tests/vectors/places.txt, overhead.txt and milliseconds.txt to the last decimal, and lines of every form.
use std::env;

mod program;
use program::{printed, vectors};

const NUMBERS: &str = "2003 10 17 19 30 30 0 0 67000 -1051786000 397424760 1830";
const SUN: &str = "194.34024073 39.87204605\n";
const OTHER: &str = "refused 16\n";

// An azimuth that is absent is printed as the vectors have it.
fn degrees(units: &str) -> String {
    if units == "none" {
        return units.to_string();
    }
    let units: i64 = units.parse().unwrap();
    let sign = if units < 0 { "-" } else { "" };
    let size = units.unsigned_abs();
    format!("{sign}{}.{:08}", size / 100_000_000, size % 100_000_000)
}

// The request without its air, and its answer; a refusal of the air (10, 11) is no request here.
fn case(vector: &str) -> Option<(String, String)> {
    let (request, answer) = vector.split_once(" | ")?;
    let words: Vec<&str> = request.split(' ').collect();
    let numbers: Vec<&str> = answer.split(' ').collect();
    if !["sun", "moon"].contains(&words[0]) || ["10", "11"].contains(&numbers[0]) {
        return None;
    }
    let line = match numbers[0] {
        "0" => format!("{} {}\n", degrees(numbers[1]), degrees(numbers[2])),
        refusal => format!("refused {refusal}\n"),
    };
    Some((words[..13].join(" ") + "\n", line))
}

// Inputs with what is printed for them.
fn forms(program: &str) -> usize {
    let sun = format!("sun {NUMBERS}");
    let zeros = format!("{} {}", ["-000000000"; 9].join(" "), ["-0000000000"; 3].join(" "));
    let wide_year = sun.replace("2003", "0000002003");
    let cases: Vec<(Vec<u8>, String)> = vec![
        (vec![], String::new()),
        (b"\n\n".to_vec(), OTHER.repeat(2)),
        (sun.clone().into(), SUN.into()),
        (format!("{sun}\n{sun}").into(), SUN.repeat(2)),
        (format!("{sun}\n\n").into(), format!("{SUN}{OTHER}")),
        (format!("{sun}{}\n{sun}\n", "0".repeat(100_000)).into(), format!("{OTHER}{SUN}")),
        (format!("{}\n{sun}\n", "sun ".repeat(1000)).into(), format!("{OTHER}{SUN}")),
        (format!("moon {zeros}\n").into(), "refused 1\n".into()),
        (format!("moon {zeros}0\n").into(), OTHER.into()),
        (format!("moon {zeros} \n").into(), OTHER.into()),
        (format!("moon {zeros}").into(), "refused 1\n".into()),
        (format!("{wide_year}\n").into(), OTHER.into()),
        (format!("moon {zeros}0").into(), OTHER.into()),
        (format!("sun\0{NUMBERS}\n").into(), OTHER.into()),
        (vec![0xff, b'\n', 0x80], OTHER.repeat(2)),
    ];
    for (input, answers) in &cases {
        assert_eq!(&printed(program, input), answers, "{:?}", String::from_utf8_lossy(input));
    }
    cases.len()
}

// Lines that meet the end of a read at every byte of theirs.
fn large(program: &str) -> usize {
    let count = 100;
    let lines = format!("sun {NUMBERS}\n").repeat(count);
    let answers = SUN.repeat(count);
    for before in 0..62 {
        let input = format!("{}\n{lines}", "9".repeat(before));
        assert_eq!(printed(program, input.as_bytes()), format!("{OTHER}{answers}"));
    }
    62
}

fn main() {
    let program = env::args().nth(1).expect("the program");
    let count: usize = env::args().skip(2).map(|path| vectors(&program, &path, case)).sum();
    assert_eq!(count, 785);
    let further = forms(&program) + large(&program);
    println!("places: {count} vectors and {further} further inputs come out");
}
