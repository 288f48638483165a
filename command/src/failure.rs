//! Why a command has no answer, and the status that says so.

use std::io;

#[derive(Debug)]
pub enum Failure {
    /// The words of the command line are not right: status 2.
    Usage(String),
    /// The library refuses, by this number: status 1.
    Refused(u32, String),
    /// A line of the input is no question, or one that is refused: status 1.
    Line(String),
    /// A file cannot be read or written: status 1.
    File(String),
    /// The answer could not be read or written: status 1.
    Broken(&'static str, io::Error),
}

impl Failure {
    pub fn status(&self) -> u8 {
        match self {
            Failure::Usage(_) => 2,
            Failure::Refused(..) | Failure::Line(_) | Failure::File(_) | Failure::Broken(..) => 1,
        }
    }

    /// The sentence for people; none where the reader of a pipe left on his own.
    pub fn sentence(&self) -> Option<String> {
        match self {
            Failure::Usage(sentence) | Failure::Refused(_, sentence) | Failure::Line(sentence) | Failure::File(sentence) => {
                Some(sentence.clone())
            }
            Failure::Broken(_, error) if error.kind() == io::ErrorKind::BrokenPipe => None,
            Failure::Broken(what, error) => Some(format!("{what}: {error}")),
        }
    }

    /// The same with the word in front that a refusal is about.
    pub fn about(self, word: &str) -> Failure {
        match self {
            Failure::Refused(number, sentence) => Failure::Refused(number, format!("{}: {sentence}", quoted(word))),
            other => other,
        }
    }
}

/// The longest part of a word that is repeated in a sentence.
const SHOWN: usize = 60;

/// A word in quotes, what cannot be seen escaped, so that a sentence can name it.
pub fn quoted(word: &str) -> String {
    let shown: String = word.chars().take(SHOWN).collect();
    let rest = if shown.len() < word.len() { " and so on" } else { "" };
    format!("{shown:?}{rest}")
}

#[cfg(test)]
mod tests {
    use super::*;

    #[test]
    fn a_word_is_quoted_and_a_long_one_cut() {
        assert_eq!(quoted("7°30"), "\"7°30\"");
        assert_eq!(quoted(""), "\"\"");
        assert_eq!(quoted("12\r"), "\"12\\r\"");
        assert_eq!(quoted(&"x".repeat(61)), format!("\"{}\" and so on", "x".repeat(60)));
    }

    #[test]
    fn a_reader_that_left_is_no_success() {
        let left = Failure::Broken("writing", io::Error::from(io::ErrorKind::BrokenPipe));
        assert_eq!((left.status(), left.sentence()), (1, None));
    }
}
