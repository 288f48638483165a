// docs/REFUSALS.md is the one list of refusals: the header, the Rust crate and the definitions that the proofs rest on have the same numbers, names and sentences.
// The first difference is named in a sentence. Run from the repository's root.
use std::collections::HashSet;
use std::fs;
use std::process::ExitCode;

const LIST: &str = "docs/REFUSALS.md";
const HEADER: &str = "include/raddlehue.h";
const CRATE: &str = "bindings/rust/src/refusal.rs";
const NUMBERS: &str = "crates/calendar/specs/Refusal.antt";
const CODES: &str = "crates/boundary/specs/Codes.antt";

// How the definitions begin a clause, and what the list puts before its name.
const FAMILIES: [(&str, &str); 3] =
    [("number Of.", ""), ("strip_number Strips.", "STRIP_"), ("proposal_number Proposals.", "PROPOSAL_")];

// The two that carry a number are cases of their answers' own errors.
const CARRYING: [(&str, &str, &str); 2] = [
    ("crates/batch/specs/Batch.antt", "batch_answer (Err (Late i)) = record { refusal = ", "TOO_LATE"),
    ("crates/proposal/specs/Verdict.antt", "judgement_answer (Err (Out minute)) = record { refusal = ", "PROPOSAL_OUT"),
];

// Where our own numbers begin; the papers' stay below.
const OURS: u32 = 101;

// A refusal as one file has it. The definitions have no sentence.
#[derive(Clone, Debug, PartialEq)]
struct Refusal {
    number: u32,
    name: String,
    sentence: Option<String>,
}

impl Refusal {
    fn new(number: &str, name: String, sentence: Option<&str>) -> Result<Refusal, String> {
        let number = number.trim().parse().map_err(|_| format!("the number of {name} is {number}, which is none"))?;
        Ok(Refusal { number, name, sentence: sentence.map(str::to_string) })
    }
}

fn read(path: &str) -> Result<String, String> {
    fs::read_to_string(path).map_err(|error| format!("{path} cannot be read: {error}"))
}

fn between<'a>(text: &'a str, before: &str, after: &str) -> Option<&'a str> {
    let (_, rest) = text.split_once(before)?;
    Some(rest.split_once(after)?.0)
}

// ShortBuffer as SHORT_BUFFER.
fn upper(camel: &str) -> String {
    let mut name = String::new();
    for letter in camel.chars() {
        if letter.is_uppercase() && !name.is_empty() {
            name.push('_');
        }
        name.push(letter.to_ascii_uppercase());
    }
    name
}

// ---- the files

// The rows of the table, whose last column says where a refusal is from.
fn list() -> Result<Vec<Refusal>, String> {
    let mut rows = Vec::new();
    for line in read(LIST)?.lines().filter(|line| line.starts_with('|')).skip(2) {
        let cells: Vec<&str> = line.trim_matches('|').split('|').map(str::trim).collect();
        let [number, name, sentence, from] = cells[..] else {
            return Err(format!("{LIST} has a row of {} columns, not 4: {line}", cells.len()));
        };
        let refusal = Refusal::new(number, name.to_string(), Some(sentence))?;
        if !["01", "02", "ours"].contains(&from) || (from == "ours") != (refusal.number >= OURS) {
            return Err(format!("{LIST} has {name} from {from}, and ours are those from {OURS}"));
        }
        rows.push(refusal);
    }
    if rows.is_empty() {
        return Err(format!("{LIST} has no table of refusals"));
    }
    Ok(rows)
}

// The enum's numbers, each with its text; 0, which refuses nothing, is left out.
fn header() -> Result<Vec<Refusal>, String> {
    let text = read(HEADER)?;
    let missing = |what| format!("{HEADER} has no {what} of refusals");
    let (_, from_enum) = text.split_once("enum {\n    RADDLEHUE_ACCEPTED = 0,").ok_or_else(|| missing("enum"))?;
    let (entries, _) = from_enum.split_once("};").ok_or_else(|| missing("enum"))?;
    let texts = between(&text, "switch (refusal) {", "default:").ok_or_else(|| missing("text"))?;
    let mut found = Vec::new();
    for entry in entries.split(',').filter(|entry| !entry.trim().is_empty()) {
        let (name, number) = entry.split_once('=').ok_or_else(|| format!("{HEADER} has no number for {}", entry.trim()))?;
        let name = name.trim();
        let sentence = between(texts, &format!("case {name}: return \""), "\";");
        let sentence = sentence.ok_or_else(|| format!("{HEADER} has no text for {name}"))?;
        found.push(Refusal::new(number, name.replacen("RADDLEHUE_", "", 1), Some(sentence))?);
    }
    let cases = texts.matches("case ").count();
    if cases != found.len() + 1 {
        return Err(format!("{HEADER} has {cases} texts for {} refusals and 0", found.len()));
    }
    Ok(found)
}

// The rows `Refusal::Name => (number, "NAME", "sentence")`, but for the one of an unknown number.
fn rust_crate() -> Result<Vec<Refusal>, String> {
    let text = read(CRATE)?;
    let rows = between(&text, "fn row(self)", "\n    }\n").ok_or_else(|| format!("{CRATE} has no function `row`"))?;
    let mut found = Vec::new();
    for row in rows.split("Refusal::").skip(1).filter(|row| !row.starts_with("Other(")) {
        let unread = || format!("{CRATE} has a row that is not `Name => (number, \"NAME\", \"sentence\")`: {}", row.trim());
        let (variant, fields) = row.split_once("=>").ok_or_else(unread)?;
        let variant = variant.split_whitespace().next().ok_or_else(unread)?;
        let mut quoted = fields.split('"');
        let number = quoted.next().and_then(|before| before.split_once('(')).and_then(|(_, rest)| rest.split_once(','));
        let (number, name, sentence) = (number.ok_or_else(unread)?.0, quoted.next(), quoted.nth(1));
        let (name, sentence) = (name.ok_or_else(unread)?, sentence.ok_or_else(unread)?);
        if upper(variant) != name {
            return Err(format!("{CRATE} calls Refusal::{variant} {name}"));
        }
        found.push(Refusal::new(number, name.to_string(), Some(sentence))?);
    }
    Ok(found)
}

// The clauses of `number` and of those of strips and of proposals, the batch's late case and the judge's minute that is out, and our own codes.
fn definitions() -> Result<Vec<Refusal>, String> {
    let mut found = Vec::new();
    for line in read(NUMBERS)?.lines() {
        for (clause, family) in FAMILIES {
            if let Some((name, number)) = line.strip_prefix(clause).and_then(|clause| clause.split_once('=')) {
                found.push(Refusal::new(number, format!("{family}{}", upper(name.trim())), None)?);
            }
        }
    }
    for (file, clause, name) in CARRYING {
        let text = read(file)?;
        let number = between(&text, clause, ";").ok_or_else(|| format!("{file} has no number for {name}"))?;
        found.push(Refusal::new(number, name.to_string(), None)?);
    }
    for line in read(CODES)?.lines() {
        if let Some((name, number)) = line.split_once(" = ") {
            if number.parse().is_ok_and(|number: u32| number >= OURS) {
                found.push(Refusal::new(number, name.replace('-', "_").to_uppercase(), None)?);
            }
        }
    }
    Ok(found)
}

// ---- against the list

fn compare(list: &[Refusal], place: &str, found: &[Refusal]) -> Result<(), String> {
    for row in list {
        let Some(other) = found.iter().find(|other| other.name == row.name) else {
            return Err(format!("{LIST} has {} {}, and {place} has not", row.number, row.name));
        };
        if other.number != row.number {
            return Err(format!("{} is {} in {LIST}, and {} in {place}", row.name, row.number, other.number));
        }
        if other.sentence.is_some() && other.sentence != row.sentence {
            let sentence = |refusal: &Refusal| refusal.sentence.clone().unwrap_or_default();
            return Err(format!("{} reads \"{}\" in {LIST}, and \"{}\" in {place}", row.name, sentence(row), sentence(other)));
        }
    }
    let names: HashSet<&str> = list.iter().map(|row| row.name.as_str()).collect();
    if let Some(other) = found.iter().find(|other| !names.contains(other.name.as_str())) {
        return Err(format!("{place} has {} {}, and {LIST} has not", other.number, other.name));
    }
    if found.len() != list.len() {
        return Err(format!("{place} has {} refusals, and {LIST} has {}", found.len(), list.len()));
    }
    Ok(())
}

fn distinct(list: &[Refusal]) -> Result<(), String> {
    let (mut numbers, mut names) = (HashSet::new(), HashSet::new());
    match list.iter().find(|row| !numbers.insert(row.number) || !names.insert(&row.name)) {
        Some(row) => Err(format!("{LIST} has {} {} twice", row.number, row.name)),
        None => Ok(()),
    }
}

// The numbers of "101, then 1 to 9, 12 and 13".
fn numbers(words: &str) -> Vec<u32> {
    let mut found: Vec<u32> = Vec::new();
    let mut words = words.split(|c: char| !c.is_alphanumeric()).filter(|word| !word.is_empty()).peekable();
    while let Some(word) = words.next() {
        match (word, found.last().copied()) {
            ("to", Some(first)) => {
                let last = words.peek().and_then(|word| word.parse().ok()).unwrap_or(first);
                found.extend(first + 1..last);
            }
            _ => found.extend(word.parse::<u32>().ok()),
        }
    }
    found
}

// A strip's length, which is judged once more, against the step, behind the step's own check.
const JUDGED_AGAIN: u32 = 20;
const BEHIND: u32 = 25;

// What the header says of each function, "Refused: ..", goes down the list.
fn order(list: &[Refusal]) -> Result<usize, String> {
    let text = read(HEADER)?.replace("\n *", " ");
    let sentences: Vec<&str> = text.split("Refused: ").skip(1).filter_map(|rest| rest.split('.').next()).collect();
    for sentence in &sentences {
        let mut numbers = numbers(sentence);
        if let Some(step) = numbers.iter().position(|&number| number == BEHIND) {
            if numbers.get(step + 1) == Some(&JUDGED_AGAIN) {
                numbers.remove(step + 1);
            }
        }
        let rows = numbers.into_iter().map(|number| {
            let row = list.iter().position(|row| row.number == number);
            row.ok_or_else(|| format!("{HEADER} says \"Refused: {sentence}\", and {LIST} has no {number}"))
        });
        let rows = rows.collect::<Result<Vec<usize>, String>>()?;
        if !rows.is_sorted() {
            return Err(format!("{HEADER} says \"Refused: {sentence}\", which is not the order of {LIST}"));
        }
    }
    Ok(sentences.len())
}

fn run() -> Result<String, String> {
    let list = list()?;
    distinct(&list)?;
    compare(&list, HEADER, &header()?)?;
    compare(&list, CRATE, &rust_crate()?)?;
    compare(&list, &format!("{NUMBERS} with {CODES} and the answers that carry a number"), &definitions()?)?;
    let sentences = order(&list)?;
    Ok(format!(
        "{} in one list, the same in C, in Rust and in the definitions, and {sentences} functions in its order",
        list.len()
    ))
}

fn main() -> ExitCode {
    match run() {
        Ok(said) => println!("refusals: {said}"),
        Err(difference) => {
            eprintln!("refusals: {difference}");
            return ExitCode::FAILURE;
        }
    }
    ExitCode::SUCCESS
}
