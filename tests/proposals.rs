// Short strips (02, Item 7) through the archive: every line of tests/vectors/proposals.txt; plans of every day there that has one, accepted and without a needless point; and the days of
// tests/vectors/overhead.txt in which a body has no azimuth at a whole minute.
use std::env;
use std::fs;

use raddlehue_reference::proposal::first_needless;
use raddlehue_reference::Proposal;

mod archive;
mod proposal_lines;
mod reference_proposals;
mod vector_lines;
use archive::*;
use proposal_lines::{proposal_lines, ProposalLine, Request};
use vector_lines::{absent_minutes, ABSENT};

// How many lines the file has of verdicts and of plans.
const LINES: [usize; 2] = [195, 36];

// Units of a plan's tolerance, up to half a turn.
const TOLERANCES: [u64; 5] = [0, 1, 500, 1_000_000, 18_000_000_000];

// Of a plan with no more inner points than these, each is dropped before the archive's verdict; of a longer one so many, the first and the last among them.
const DROPPED: usize = 12;

// ---- the vectors

// The kind of the line.
fn check_line(line: &ProposalLine) -> usize {
    match line {
        ProposalLine::Judge { request: Request { body, numbers }, tolerance, minutes, azimuths, expected: (refusal, minute) } => {
            let expected = (*refusal, minute.unwrap_or(UNWRITTEN_MINUTE));
            assert_eq!(judge(numbers, *body, *tolerance, minutes, azimuths), expected, "{line:?}");
            0
        }
        ProposalLine::Plan { request, expected: 0 } => {
            for tolerance in TOLERANCES {
                planned(request, tolerance);
            }
            1
        }
        ProposalLine::Plan { request: Request { body, numbers }, expected } => {
            for tolerance in TOLERANCES {
                let (refusal, left) = plan(numbers, *body, tolerance);
                assert_eq!(refusal, *expected, "{line:?} {tolerance}");
                assert!(left == UNWRITTEN_PLAN, "{line:?} {tolerance}: written to, and refused");
            }
            1
        }
    }
}

fn vectors(path: &str) {
    let mut counts = [0; 2];
    for line in proposal_lines(&fs::read_to_string(path).unwrap()) {
        counts[check_line(&line)] += 1;
    }
    assert_eq!(counts, LINES);
}

// ---- plans

// Accepted as it is, and refused without a point: any one by the reference's verdict, some by the archive's, which works the day anew.
fn planned(request: &Request, tolerance: u64) {
    let Request { body, numbers } = request;
    let (refusal, plan) = plan(numbers, *body, tolerance);
    assert_eq!(refusal, 0, "{request:?} {tolerance}");
    let (minutes, azimuths) = plan.points();
    assert_eq!(judge(numbers, *body, tolerance, minutes, azimuths), (0, UNWRITTEN_MINUTE), "{request:?} {tolerance} {minutes:?}");
    let curve = reference_proposals::azimuth_curve(numbers, *body).expect("an accepted day");
    assert_eq!(first_needless(&curve, Proposal { minutes, azimuths }, tolerance), None, "{request:?} {tolerance} {minutes:?}");
    let inner = minutes.len() - 2;
    let spread = |turn: usize| 1 + turn * (inner - 1) / (DROPPED - 1);
    let dropped: Vec<usize> = if inner <= DROPPED { (1..=inner).collect() } else { (0..DROPPED).map(spread).collect() };
    for index in dropped {
        let (mut minutes, mut azimuths) = (minutes.to_vec(), azimuths.to_vec());
        minutes.remove(index);
        azimuths.remove(index);
        let (refusal, _) = judge(numbers, *body, tolerance, &minutes, &azimuths);
        assert!(matches!(refusal, 30 | 31), "{request:?} {tolerance}: point {index} of {} is needless", inner + 2);
    }
}

// ---- days with an absent azimuth

// Every minute's azimuth, and any at the line's: accepted without a tolerance. There is no plan.
fn without_azimuth(numbers: &[i64; 8], body: u32, absent: usize) {
    let azimuth = |minute| {
        let (refusal, seen) = place(&at_minute(numbers, minute), body, NO_AIR);
        assert_eq!((refusal, seen.has_azimuth), (0, u32::from(minute != absent)), "{numbers:?} {minute}");
        if minute == absent { 1_234_567_890 } else { seen.numbers[0] }
    };
    let minutes: Vec<u32> = (0..MINUTES as u32).collect();
    let mut azimuths: Vec<i64> = (0..MINUTES).map(azimuth).collect();
    assert_eq!(judge(numbers, body, 0, &minutes, &azimuths), (0, UNWRITTEN_MINUTE), "{numbers:?}");
    // the next minute is compared; next to the last comes minute 0
    let beside = (absent + 1) % MINUTES;
    azimuths[beside] ^= 1;
    assert_eq!(judge(numbers, body, 0, &minutes, &azimuths), (31, beside as u32), "{numbers:?}");
    for tolerance in TOLERANCES {
        let (refusal, left) = plan(numbers, body, tolerance);
        assert!(refusal == 107 && left == UNWRITTEN_PLAN, "{numbers:?} {tolerance}: {refusal}");
    }
}

fn absent(path: &str) {
    for (numbers, body, minute) in absent_minutes(&fs::read_to_string(path).unwrap()) {
        without_azimuth(&numbers, body, minute);
    }
}

fn main() {
    let [proposals, overhead]: [String; 2] =
        env::args().skip(1).collect::<Vec<_>>().try_into().expect("the files of proposals and of places without an azimuth");
    vectors(&proposals);
    absent(&overhead);
    let lines: usize = LINES.iter().sum();
    println!("proposals: {lines} vectors come out; {ABSENT} days have an absent azimuth, and no plan");
}
