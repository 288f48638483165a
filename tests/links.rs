//! Every relative link of the documents points at a file of the repository: `links README.md docs/PROOF.md ..`.
use std::path::Path;
use std::{env, fs, process};

/// The targets of `[words](target)` and `![words](target)`.
fn targets(text: &str) -> Vec<&str> {
    text.split("](").skip(1).filter_map(|rest| rest.split(')').next()).collect()
}

fn main() {
    let (mut links, mut broken) = (0, 0);
    for document in env::args().skip(1) {
        let text = fs::read_to_string(&document).unwrap_or_else(|error| panic!("{document}: {error}"));
        let folder = Path::new(&document).parent().unwrap_or(Path::new(""));
        for target in targets(&text) {
            let file = target.split('#').next().unwrap_or("");
            if file.is_empty() || file.contains("://") {
                continue;
            }
            links += 1;
            if !folder.join(file).exists() {
                broken += 1;
                println!("{document}: no file {target}");
            }
        }
    }
    println!("links: {links} followed, {broken} broken");
    process::exit(i32::from(broken > 0 || links == 0));
}
