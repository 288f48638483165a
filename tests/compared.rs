// The archive's answers against those that it has to give, and what a run has to have drawn. The first mismatch ends the run.
#![allow(dead_code)]

use std::fmt::Debug;
use std::process::exit;

use crate::archive::{Answer, POISON};

// What the archive has to answer: the values where there are some, the refusal and untouched memory where not.
pub fn answer_or<T>(found: Result<T, u32>, unwritten: T) -> Answer<T> {
    match found {
        Ok(value) => (0, value),
        Err(refusal) => (refusal, unwritten),
    }
}

pub fn answer<const N: usize>(found: Result<[i64; N], u32>) -> Answer<[i64; N]> {
    answer_or(found, [POISON; N])
}

pub fn answer_one(found: Result<i64, u32>) -> Answer<i64> {
    answer_or(found, POISON)
}

// The answers counted by their refusal.
pub fn same<T: PartialEq + Debug>(what: &str, input: impl Debug, ours: Answer<T>, expected: Answer<T>, seen: &mut [u64; 256]) {
    if ours != expected {
        eprintln!("mismatch: {what}\n  of {input:?}\n  archive   {ours:?}\n  reference {expected:?}");
        exit(1)
    }
    seen[ours.0 as usize] += 1;
}

// Every refusal of a kind of call, each to be seen; the accepted too.
pub fn complete(what: &str, seen: &[u64; 256], refusals: impl IntoIterator<Item = usize>) -> String {
    let mut counts = vec![];
    for refusal in [0].into_iter().chain(refusals) {
        if seen[refusal] == 0 {
            eprintln!("{what}: no request of this run was given {refusal}");
            exit(1);
        }
        counts.push(format!("{refusal}: {}", seen[refusal]));
    }
    format!("    {what} {}", counts.join(", "))
}

// Every case of a kind of call, each to be drawn.
pub fn all_drawn(what: &str, names: &[&str], counts: &[u64]) -> String {
    if counts.contains(&0) {
        eprintln!("{what}: {names:?} were drawn {counts:?} times in this run");
        exit(1);
    }
    let pairs: Vec<String> = names.iter().zip(counts).map(|(name, count)| format!("{name} {count}")).collect();
    format!("    {what} {}", pairs.join(", "))
}
