// The lines of tests/vectors/strips.txt, whose head says their form; for the archive's tests and for the reference's.

// A strip's header: air, body, year, month, day, longitude, latitude, step.
type Header = [i64; 8];

#[derive(Debug)]
pub enum StripLine {
    Read { bytes: Vec<u8>, expected: Result<Said, u32> },
    Write { header: Header, azimuths: Vec<u32>, size: usize, expected: Result<Vec<u8>, u32> },
    Find { first: Vec<u8>, second: Vec<u8>, date: [i64; 3], expected: Result<[i64; 3], u32> },
}

// What a line says of a strip that is read: its header, and the azimuths of some steps.
#[derive(Debug)]
pub struct Said {
    pub header: Header,
    pub azimuths: Vec<(u64, u32)>,
}

pub fn strip_lines(text: &str) -> Vec<StripLine> {
    text.lines().filter(|line| !line.starts_with('#')).map(strip_line).collect()
}

fn strip_line(line: &str) -> StripLine {
    let (left, answer) = line.split_once(" | ").expect("a question and an answer");
    let (kind, question) = left.split_once(' ').expect("a kind, then its numbers");
    match (kind, &question.split(" ; ").collect::<Vec<_>>()[..]) {
        ("read", [strip]) => StripLine::Read { bytes: bytes(strip), expected: answered(answer).map(said) },
        ("write", [header, azimuths, size]) => StripLine::Write {
            header: exactly(header),
            azimuths: repeated(azimuths).map(whole).collect(),
            size: whole(size),
            expected: answered(answer).map(bytes),
        },
        ("find", [first, second, date]) => StripLine::Find {
            first: bytes(first),
            second: bytes(second),
            date: exactly(date),
            expected: answered(answer).map(exactly),
        },
        _ => panic!("{line} is no line of strips"),
    }
}

// What stands behind the 0, or the refusal.
fn answered(answer: &str) -> Result<&str, u32> {
    answer.strip_prefix("0 ").ok_or_else(|| whole(answer))
}

fn said(text: &str) -> Said {
    let (header, azimuths) = text.split_once(" | ").expect("a header, then azimuths");
    let pairs = azimuths.split(", ").map(|pair| pair.split_once(' ').expect("a step and its azimuth"));
    let azimuth = |word| if word == "none" { u32::MAX } else { whole(word) };
    Said { header: exactly(header), azimuths: pairs.map(|(step, word)| (whole(step), azimuth(word))).collect() }
}

fn whole<T: std::str::FromStr>(word: &str) -> T {
    word.parse().unwrap_or_else(|_| panic!("not a whole number that fits: {word}"))
}

fn exactly<const N: usize>(text: &str) -> [i64; N] {
    let numbers: Vec<i64> = text.split(' ').map(whole).collect();
    numbers.try_into().unwrap_or_else(|_| panic!("not {N} numbers: {text}"))
}

// The words, each as often as is said behind its star.
fn repeated(text: &str) -> impl Iterator<Item = &str> {
    let words = text.split(' ').filter(|word| *word != "-");
    words.flat_map(|word| {
        let (word, times) = word.split_once('*').unwrap_or((word, "1"));
        std::iter::repeat_n(word, whole(times))
    })
}

fn bytes(text: &str) -> Vec<u8> {
    let digits: String = repeated(text).collect();
    let pairs = (0..digits.len()).step_by(2).map(|at| &digits[at..at + 2]);
    pairs.map(|pair| u8::from_str_radix(pair, 16).expect("two digits of hex")).collect()
}
