// The argument sheet, as a program: every sheet of tests/vectors/leaves.txt, and lines of every form that is refused or accepted.
use std::env;
use std::fs;

mod program;
use program::printed;

const HEADER: &str = "TT LPRIME GMST\n";
const LINE: &str = "2000 1 2 12 0 0 0 0 0";
const ANSWER: &str = "86400000 23149284417 28144626573\n";

fn bytes(hex: &str) -> Vec<u8> {
    (0..hex.len()).step_by(2).map(|at| u8::from_str_radix(&hex[at..at + 2], 16).unwrap()).collect()
}

fn vectors(program: &str, path: &str) -> usize {
    let text = fs::read_to_string(path).unwrap();
    let sheets = text.lines().filter_map(|line| line.strip_prefix("sheet "));
    let mut count = 0;
    for sheet in sheets {
        let (input, output) = sheet.split_once("| ").unwrap();
        let expected = String::from_utf8(bytes(output)).unwrap();
        assert_eq!(printed(program, &bytes(input.trim_end())), expected, "{sheet}");
        count += 1;
    }
    count
}

// Lines with their refusals, each in a run of its own and all in one.
fn refused(program: &str) -> usize {
    let long = format!("{LINE}{}", " 0".repeat(30));
    let many = "0".repeat(5000);
    let cases: Vec<(&str, u8)> = vec![
        ("", 16),
        (" ", 16),
        ("2000 1 2 12 0 0 0 0", 16),
        ("2000 1 2 12 0 0 0 0 0 0", 16),
        (" 2000 1 2 12 0 0 0 0 0", 16),
        ("2000 1 2 12 0 0 0 0 0 ", 16),
        ("2000  1 2 12 0 0 0 0 0", 16),
        ("2000\t1 2 12 0 0 0 0 0", 16),
        ("2000 1 2 12 0 0 0 0 0\r", 16),
        ("2000 1 2 12 0 0 0 0 +0", 16),
        ("2000 1 2 12 0 0 0 0 -", 16),
        ("2000 1 2 12 0 0 0 0 --1", 16),
        ("2000 1 2 12 0 0 0 0 1-", 16),
        ("2000 1 2 12 0 0 0 0 0000000000", 16),
        ("2000 1 2 12 0 0 0 0 1.0", 16),
        ("2000 1 2 12 0 0 0 0 \0", 16),
        ("1899 13 32 24 60 60 1000 901 8000001 0", 16),
        (&long, 16),
        (&many, 16),
        ("1899 13 32 24 60 60 1000 901 8000001", 1),
        ("2101 1 1 0 0 0 0 0 0", 1),
        ("-2000 1 2 12 0 0 0 0 0", 1),
        ("2000 0 2 12 0 0 0 0 0", 2),
        ("2000 13 32 24 60 60 1000 901 8000001", 2),
        ("2000 1 32 24 60 60 1000 901 8000001", 3),
        ("1900 2 29 0 0 0 0 0 0", 3),
        ("2000 1 2 24 0 0 0 901 8000001", 4),
        ("2000 1 2 0 60 0 0 901 8000001", 4),
        ("2000 1 2 0 0 60 0 901 8000001", 4),
        ("2000 1 2 0 0 0 1000 901 8000001", 4),
        ("2000 1 2 0 0 0 -1 901 8000001", 4),
        ("2000 1 2 12 0 0 0 901 8000001", 5),
        ("2000 1 2 12 0 0 0 -901 8000001", 5),
        ("2000 1 2 12 0 0 0 900 8000001", 6),
        ("2000 1 2 12 0 0 0 -900 -8000001", 6),
    ];
    let mut input = String::new();
    let mut expected = HEADER.to_string();
    for (line, refusal) in &cases {
        let answer = format!("refused {refusal}\n");
        input += &format!("{line}\n");
        expected += &answer;
        let alone = printed(program, format!("{line}\n").as_bytes());
        assert_eq!(alone, format!("{HEADER}{answer}"), "{line:?}");
    }
    assert_eq!(printed(program, input.as_bytes()), expected);
    cases.len()
}

// Accepted lines of every form, and where a line ends.
fn accepted(program: &str) -> usize {
    let exactly = |size: usize| {
        // leading zeros, nine digits at most, fill a line up to its size
        let mut words: Vec<String> = LINE.split(' ').map(str::to_string).collect();
        let mut missing = size - LINE.len();
        for word in &mut words {
            let zeros = missing.min(9 - word.len());
            *word = "0".repeat(zeros) + word;
            missing -= zeros;
        }
        assert_eq!(missing, 0);
        words.join(" ")
    };
    let negative = "2000 1 2 12 0 -0 0 0 -0";
    let cases: Vec<(Vec<u8>, String)> = vec![
        (vec![], String::new()),
        (b"\n".to_vec(), "refused 16\n".into()),
        (b"\n\n".to_vec(), "refused 16\n".repeat(2)),
        (LINE.into(), ANSWER.into()),
        (format!("{LINE}\n").into(), ANSWER.into()),
        (format!("{LINE}\n\n").into(), format!("{ANSWER}refused 16\n")),
        (format!("{LINE}\n{LINE}").into(), ANSWER.repeat(2)),
        (format!("{LINE}\n ").into(), format!("{ANSWER}refused 16\n")),
        (format!("{negative}\n").into(), ANSWER.into()),
        (b"2000 1 1 12 0 0 321 0 0\n".to_vec(), "321 21831649665 28046195953\n".into()),
        (b"2000 1 2 11 59 59 999 900 -899\n".to_vec(), "86400000 23149284417 28145002182\n".into()),
        (format!("{}\n", exactly(80)).into(), ANSWER.into()),
        (exactly(80).into(), ANSWER.into()),
        (format!("{}\n", exactly(81)).into(), "refused 16\n".into()),
        (exactly(81).into(), "refused 16\n".into()),
        (format!("{} \n", exactly(80)).into(), "refused 16\n".into()),
        (vec![0xff, b'\n', 0x80], "refused 16\n".repeat(2)),
    ];
    for (input, answers) in &cases {
        let expected = format!("{HEADER}{answers}");
        assert_eq!(printed(program, input), expected, "{:?}", String::from_utf8_lossy(input));
    }
    cases.len()
}

// Inputs of many reads: lines that meet the end of a read at every byte, and newlines alone.
fn large(program: &str) -> usize {
    let count = 3000;
    let lines = format!("{LINE}\n").repeat(count);
    let answers = ANSWER.repeat(count);
    for before in 0..40 {
        let input = format!("{}\n{lines}", "9".repeat(before));
        assert_eq!(printed(program, input.as_bytes()), format!("{HEADER}refused 16\n{answers}"));
    }
    let refused = format!("{HEADER}{}", "refused 16\n".repeat(20_000));
    assert_eq!(printed(program, &vec![b'\n'; 20_000]), refused);
    41
}

fn main() {
    let program = env::args().nth(1).expect("the program");
    let path = env::args().nth(2).expect("the file of vectors");
    let count = vectors(&program, &path);
    assert_eq!(count, 24);
    let further = refused(&program) + accepted(&program) + large(&program);
    println!("sheet: {count} vectors and {further} further inputs come out");
}
