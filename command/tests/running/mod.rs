//! Runs the command as a user does.

use std::io::Write;
use std::process::{Command, Output, Stdio};

pub fn raddlehue(words: &[&str]) -> Command {
    let mut command = Command::new(env!("CARGO_BIN_EXE_raddlehue"));
    command.args(words);
    command
}

fn output(words: &[&str], input: &str) -> Output {
    let mut child = raddlehue(words).stdin(Stdio::piped()).stdout(Stdio::piped()).stderr(Stdio::piped()).spawn().unwrap();
    child.stdin.take().unwrap().write_all(input.as_bytes()).unwrap();
    child.wait_with_output().unwrap()
}

/// The standard output of what is answered without a word on the standard error.
pub fn answer(words: &[&str], input: &str) -> String {
    let output = output(words, input);
    assert_eq!(output.status.code(), Some(0), "{words:?}: {}", String::from_utf8_lossy(&output.stderr));
    assert!(output.stderr.is_empty(), "{words:?}");
    String::from_utf8(output.stdout).unwrap()
}
