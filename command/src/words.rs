//! The words after a command's name: which may stand there, and which do.

use crate::failure::{quoted, Failure};

/// A flag, and what its value is called; a flag without a value has no such name.
pub type Flag = (&'static str, Option<&'static str>);

/// One command: its words, its help and what it does.
pub struct Command {
    pub name: &'static str,
    pub summary: &'static str,
    pub positional: &'static [&'static str],
    pub flags: &'static [&'static [Flag]],
    pub help: &'static str,
    pub run: fn(&Words) -> Result<String, Failure>,
}

/// The words of one call, each flag at most once.
pub struct Words {
    command: &'static str,
    positional: Vec<String>,
    values: Vec<(&'static str, String)>,
}

impl Words {
    pub fn read(command: &Command, given: &[String]) -> Result<Words, Failure> {
        let mut words = Words { command: command.name, positional: Vec::new(), values: Vec::new() };
        let mut rest = given.iter();
        while let Some(word) = rest.next() {
            if !is_flag(word) {
                words.positional.push(word.clone());
                continue;
            }
            let (name, value_name) = words.known(command, word)?;
            let value = match value_name {
                Some(what) => words.value_of(name, what, rest.next())?,
                None => String::new(),
            };
            words.values.push((name, value));
        }
        words.count_positional(command.positional)?;
        Ok(words)
    }

    fn known(&self, command: &Command, word: &str) -> Result<Flag, Failure> {
        let all = || command.flags.iter().copied().flatten();
        let Some(&flag) = all().find(|(name, _)| *name == word) else {
            let (name, value) = word.split_once('=').unwrap_or((word, ""));
            let hint = match all().any(|(known, _)| *known == name) {
                true => format!("; its value is a word of its own, {name} {value}"),
                false => String::new(),
            };
            return Err(self.usage(&format!("the flag {} is unknown{hint}", quoted(word))));
        };
        match self.values.iter().any(|(name, _)| *name == flag.0) {
            true => Err(self.usage(&format!("the flag {} stands twice", quoted(word)))),
            false => Ok(flag),
        }
    }

    fn value_of(&self, name: &str, what: &str, word: Option<&String>) -> Result<String, Failure> {
        match word {
            Some(word) if word.starts_with("--") => {
                Err(self.usage(&format!("the flag {} needs {what} after it, and {} is a flag", quoted(name), quoted(word))))
            }
            Some(word) => Ok(word.clone()),
            None => Err(self.usage(&format!("the flag {} needs {what} after it, and nothing follows", quoted(name)))),
        }
    }

    fn count_positional(&self, wanted: &[&str]) -> Result<(), Failure> {
        if let Some(extra) = self.positional.get(wanted.len()) {
            let list = if wanted.is_empty() { "none".to_string() } else { wanted.join(" ") };
            return Err(self.usage(&format!("the word {} is one too many: {list} is wanted", quoted(extra))));
        }
        match wanted.get(self.positional.len()) {
            Some(missing) => Err(self.usage(&format!("{missing} is missing"))),
            None => Ok(()),
        }
    }

    /// The word at a place that `positional` of the command names.
    pub fn positional(&self, index: usize) -> &str {
        self.positional.get(index).map_or("", String::as_str)
    }

    pub fn all_positional(&self) -> impl Iterator<Item = &str> {
        self.positional.iter().map(String::as_str)
    }

    pub fn value(&self, flag: &str) -> Option<&str> {
        self.values.iter().find(|(name, _)| *name == flag).map(|(_, value)| value.as_str())
    }

    pub fn required(&self, flag: &str) -> Result<&str, Failure> {
        self.value(flag).ok_or_else(|| self.usage(&format!("the flag {} is missing", quoted(flag))))
    }

    pub fn has(&self, flag: &str) -> bool {
        self.value(flag).is_some()
    }

    pub fn usage(&self, sentence: &str) -> Failure {
        Failure::Usage(format!("{sentence}; see raddlehue {} --help", self.command))
    }
}

// A minus and a digit begin a number.
fn is_flag(word: &str) -> bool {
    word.starts_with('-') && !word[1..].starts_with(|next: char| next.is_ascii_digit() || next == '.')
}

#[cfg(test)]
mod tests {
    use super::*;

    const COMMAND: Command = Command {
        name: "test",
        summary: "",
        positional: &["DATE"],
        flags: &[&[("--lat", Some("degrees"))], &[("--json", None)]],
        help: "",
        run: |_| Ok(String::new()),
    };

    fn read(words: &[&str]) -> Result<Words, Failure> {
        let words: Vec<String> = words.iter().map(|word| word.to_string()).collect();
        Words::read(&COMMAND, &words)
    }

    fn sentence(words: &[&str]) -> String {
        match read(words) {
            Err(failure) => failure.sentence().unwrap(),
            Ok(_) => panic!("{words:?} is read"),
        }
    }

    #[test]
    fn flags_and_words_in_any_order() {
        let words = read(&["--lat", "-5.5", "2026-11-15", "--json"]).unwrap_or_else(|_| panic!());
        assert_eq!((words.positional(0), words.value("--lat"), words.has("--json")), ("2026-11-15", Some("-5.5"), true));
        assert!(read(&["-5"]).is_ok(), "a number below zero is no flag");
    }

    #[test]
    fn what_is_not_right_is_named() {
        assert!(sentence(&["--lat", "--json", "d"]).contains("\"--json\" is a flag"));
        assert!(sentence(&["d", "--lat"]).contains("nothing follows"));
        assert!(sentence(&["d", "--frob"]).contains("\"--frob\" is unknown"));
        assert!(sentence(&["d", "-"]).contains("\"-\" is unknown"));
        assert!(sentence(&["d", "--lat=5"]).contains("--lat 5"));
        assert!(sentence(&["d", "--json", "--json"]).contains("twice"));
        assert!(sentence(&["d", "e"]).contains("\"e\" is one too many"));
        assert!(sentence(&[]).contains("DATE is missing"));
    }
}
