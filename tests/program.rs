// A program, run on an input.
use std::fs;
use std::io::Write;
use std::process::{Command, Stdio};
use std::thread;

// What the program prints; the input is written while the output is read, so that neither waits for the other.
pub fn printed(program: &str, input: &[u8]) -> String {
    let mut child =
        Command::new(program).stdin(Stdio::piped()).stdout(Stdio::piped()).spawn().unwrap();
    let mut stdin = child.stdin.take().unwrap();
    let input = input.to_vec();
    let writer = thread::spawn(move || stdin.write_all(&input).unwrap());
    let output = child.wait_with_output().unwrap();
    writer.join().unwrap();
    assert!(output.status.success());
    String::from_utf8(output.stdout).unwrap()
}

// Every case of a file of vectors, a request and its answer a line, through the program in one run; how many there are.
#[allow(dead_code)] // not every test of a program has vectors of this form
pub fn vectors(program: &str, path: &str, case: fn(&str) -> Option<(String, String)>) -> usize {
    let text = fs::read_to_string(path).unwrap();
    let (requests, answers): (Vec<String>, Vec<String>) = text.lines().filter_map(case).unzip();
    let output = printed(program, requests.concat().as_bytes());
    let lines: Vec<&str> = output.split_inclusive('\n').collect();
    assert_eq!(lines.len(), answers.len());
    for ((request, answer), line) in requests.iter().zip(&answers).zip(lines) {
        assert_eq!(line, answer, "{request}");
    }
    answers.len()
}
