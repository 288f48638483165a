//! What README.md shows is what the command prints.
#![cfg(unix)]

use std::fs;
use std::path::Path;
use std::process::Command;

// The examples are run one after the other in an empty directory, so that one may read what another wrote.
fn printed(line: &str, directory: &Path) -> String {
    let here = Path::new(env!("CARGO_BIN_EXE_raddlehue")).parent().unwrap().display().to_string();
    let path = format!("{here}:{}", std::env::var("PATH").unwrap_or_default());
    let mut shell = Command::new("sh");
    let output = shell.arg("-c").arg(format!("{line} 2>&1")).env("PATH", path).current_dir(directory).output().unwrap();
    String::from_utf8(output.stdout).unwrap().replace('\r', "").trim_end().to_string()
}

#[test]
fn every_example_prints_what_is_shown() {
    let page = include_str!("../README.md");
    let examples: Vec<&str> = page.split("\n    $ ").skip(1).collect();
    assert_eq!(examples.len(), 25);
    let directory = Path::new(env!("CARGO_TARGET_TMPDIR")).join("readme");
    let _ = fs::remove_dir_all(&directory);
    fs::create_dir_all(&directory).unwrap();
    for example in examples {
        let (line, rest) = example.split_once('\n').unwrap();
        let lines = rest.lines().take_while(|line| line.is_empty() || line.starts_with("    "));
        let shown: Vec<&str> = lines.map(|line| line.strip_prefix("    ").unwrap_or(line)).collect();
        assert_eq!(printed(line, &directory), shown.join("\n").trim_end(), "{line}");
    }
}
