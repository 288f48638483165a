//! Standard input as lines, and what is wrong with one of them.

use crate::failure::{quoted, Failure};
use std::io::{self, Read};

pub fn standard_input() -> Result<Vec<u8>, Failure> {
    let mut input = Vec::new();
    io::stdin().lock().read_to_end(&mut input).map_err(|error| Failure::Broken("standard input cannot be read", error))?;
    Ok(input)
}

/// Nothing follows a final newline, and a last line may lack its own.
pub fn lines(input: &[u8]) -> Result<Vec<String>, Failure> {
    let whole = input.strip_suffix(b"\n").unwrap_or(input);
    if input.is_empty() {
        return Ok(Vec::new());
    }
    let read = |(index, line): (usize, &[u8])| match std::str::from_utf8(line) {
        Ok(line) => Ok(line.to_string()),
        Err(_) => Err(at_line(index, &String::from_utf8_lossy(line), "it is not text in UTF-8")),
    };
    whole.split(|&byte| byte == b'\n').enumerate().map(read).collect()
}

/// With the number of the line, counted from 1 where the index counts from 0.
pub fn at_line(index: usize, line: &str, sentence: &str) -> Failure {
    Failure::Line(format!("line {}, {}: {sentence}", index + 1, quoted(line)))
}

#[cfg(test)]
mod tests {
    use super::*;

    #[test]
    fn lines_end_at_newlines() {
        assert_eq!(lines(b"").unwrap(), Vec::<String>::new());
        assert_eq!(lines(b"1\n2\n").unwrap(), ["1", "2"]);
        assert_eq!(lines(b"1\n2").unwrap(), ["1", "2"]);
        assert_eq!(lines(b"\n").unwrap(), [""]);
        assert_eq!(lines(b"1\n\n").unwrap(), ["1", ""]);
        assert!(lines(b"1\n\xff\n").unwrap_err().sentence().unwrap().starts_with("line 2, "));
    }
}
