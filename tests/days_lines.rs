// The program `days`: the days and refusals of tests/vectors/days.txt to the minute, and lines of every form.
use std::env;

mod program;
use program::{printed, vectors};

const NUMBERS: &str = "2003 10 17 0 67000 -1051786000 397424760 1830";
const SUN: &str = "13:13 00:21\n";
const OTHER: &str = "refused 16\n";

fn time(minute: &str) -> String {
    match minute.parse::<u32>() {
        Ok(minute) => format!("{:02}:{:02}", minute / 60, minute % 60),
        Err(_) => minute.to_string(),
    }
}

// A request with its answer, where the program knows the body.
fn case(vector: &str) -> Option<(String, String)> {
    let (request, answer) = vector.strip_prefix("day ")?.split_once(" | ")?;
    let numbers: Vec<&str> = answer.split(' ').collect();
    let body = request.split(' ').next()?;
    if !["sun", "moon"].contains(&body) {
        return None;
    }
    let line = match numbers[0] {
        "0" => format!("{} {}\n", time(numbers[1]), time(numbers[2])),
        refusal => format!("refused {refusal}\n"),
    };
    Some((format!("{request}\n"), line))
}

// Inputs with what is printed for them.
fn forms(program: &str) -> usize {
    let sun = format!("sun {NUMBERS}");
    let cases: Vec<(Vec<u8>, String)> = vec![
        (vec![], String::new()),
        (b"\n\n".to_vec(), OTHER.repeat(2)),
        (sun.clone().into(), SUN.into()),
        (format!("{sun}\n{sun}\n").into(), SUN.repeat(2)),
        (format!("{sun} \n").into(), OTHER.into()),
        (format!("{sun} 0\n").into(), OTHER.into()),
        (format!("Sun {NUMBERS}\n").into(), OTHER.into()),
        (format!("mars {NUMBERS}\n").into(), OTHER.into()),
        (format!("sun  {NUMBERS}\n").into(), OTHER.into()),
        (sun.replace("2003", "0000002003").into(), OTHER.into()),
        (sun.replace("397424760", "0397424760").into(), SUN.into()),
        (sun.replace("1830", "00000001830").into(), OTHER.into()),
        (sun.replace(" 0 67000", " 900 67000").into(), SUN.into()),
        (sun.replace(" 0 67000", " 901 67000").into(), "refused 5\n".into()),
        (sun.replace(" 0 67000", " 0 8000001").into(), "refused 6\n".into()),
        (format!("{sun}{}\n{sun}\n", "0".repeat(100_000)).into(), format!("{OTHER}{SUN}")),
        (vec![0xff, b'\n', 0x80], OTHER.repeat(2)),
    ];
    for (input, answers) in &cases {
        assert_eq!(&printed(program, input), answers, "{:?}", String::from_utf8_lossy(input));
    }
    cases.len()
}

fn main() {
    let program = env::args().nth(1).expect("the program");
    let path = env::args().nth(2).expect("the file of vectors");
    let count = vectors(&program, &path, case);
    assert!(count >= 75, "{count} vectors");
    println!("days: {count} vectors and {} further inputs come out", forms(&program));
}
