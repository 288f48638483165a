// The lines of tests/vectors/proposals.txt, whose head says their form; for the archive's tests and for the reference's.

// A day's request: the body's code, and eight numbers, a date's five and a point's three.
#[derive(Clone, Copy, Debug, PartialEq)]
pub struct Request {
    pub body: u32,
    pub numbers: [i64; 8],
}

#[derive(Debug)]
pub enum ProposalLine {
    // the refusal, and with 31 its minute
    Judge { request: Request, tolerance: u64, minutes: Vec<u32>, azimuths: Vec<i64>, expected: (u32, Option<u32>) },
    Plan { request: Request, expected: u32 },
}

pub fn proposal_lines(text: &str) -> Vec<ProposalLine> {
    text.lines().filter(|line| !line.starts_with('#')).map(proposal_line).collect()
}

fn proposal_line(line: &str) -> ProposalLine {
    let (left, answer) = line.split_once(" | ").expect("a question and an answer");
    let (kind, question) = left.split_once(' ').expect("a kind, then its numbers");
    match (kind, &question.split(" ; ").collect::<Vec<_>>()[..]) {
        ("judge", [request, tolerance, minutes, azimuths]) => ProposalLine::Judge {
            request: request_of(request),
            tolerance: whole(tolerance),
            minutes: listed(minutes).into_iter().map(|minute| minute.try_into().expect("32 bits")).collect(),
            azimuths: listed(azimuths),
            expected: match answer.split_once(' ') {
                Some((refusal, minute)) => (whole(refusal), Some(whole(minute))),
                None => (whole(answer), None),
            },
        },
        ("plan", [request]) => ProposalLine::Plan { request: request_of(request), expected: whole(answer) },
        _ => panic!("{line} is no line of proposals"),
    }
}

fn request_of(text: &str) -> Request {
    let (body, numbers) = text.split_once(' ').expect("a body, then its numbers");
    let body = match body {
        "sun" => 0,
        "moon" => 1,
        _ => panic!("{body} is no body"),
    };
    Request { body, numbers: listed(numbers).try_into().unwrap_or_else(|_| panic!("not 8 numbers: {numbers}")) }
}

fn whole<T: std::str::FromStr>(word: &str) -> T {
    word.parse().unwrap_or_else(|_| panic!("not a whole number that fits: {word}"))
}

// The numbers of a list, each as often as is said behind its star, and all from one to another where there are dots between them.
fn listed(text: &str) -> Vec<i64> {
    let words = text.split(' ').filter(|word| *word != "-");
    words.flat_map(numbers_of).collect()
}

fn numbers_of(word: &str) -> Vec<i64> {
    if let Some((first, last)) = word.split_once("..") {
        return (whole(first)..=whole(last)).collect();
    }
    let (word, times) = word.split_once('*').unwrap_or((word, "1"));
    vec![whole(word); whole(times)]
}
