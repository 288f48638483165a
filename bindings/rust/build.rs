//! Tells cargo where the archive is: the repository's `target/lib`, or the directory that RADDLEHUE_ARCHIVE names (from this package, where it is relative).
use std::env;
use std::path::{Path, PathBuf};

const VARIABLE: &str = "RADDLEHUE_ARCHIVE";
const ARCHIVE: &str = "libraddlehue.a";

fn target() -> String {
    let part = |name: &str| env::var(name).unwrap_or_default();
    format!("{} {}", part("CARGO_CFG_TARGET_ARCH"), part("CARGO_CFG_TARGET_OS"))
}

/// The directory to link from, or a sentence that says what is amiss.
fn directory() -> Result<PathBuf, String> {
    let package = env::var_os("CARGO_MANIFEST_DIR").unwrap_or_default();
    let given = env::var_os(VARIABLE);
    if given.is_none() && target() != "x86_64 linux" {
        let target = target();
        return Err(format!(
            "the archive of this repository is for x86_64 linux, not for {target}: let {VARIABLE} name a directory whose {ARCHIVE} is for that target"
        ));
    }
    let directory = Path::new(&package).join(given.unwrap_or("../../target/lib".into()));
    println!("cargo::rerun-if-changed={}", directory.join(ARCHIVE).display());
    if directory.join(ARCHIVE).is_file() {
        return Ok(directory);
    }
    let directory = directory.display();
    Err(format!("no {ARCHIVE} in {directory}: run `make lib` in the repository first, or let {VARIABLE} name its directory"))
}

fn main() {
    println!("cargo::rerun-if-changed=build.rs");
    println!("cargo::rerun-if-env-changed={VARIABLE}");
    match directory() {
        Ok(directory) => {
            println!("cargo::rustc-link-search=native={}", directory.display());
            println!("cargo::rustc-link-lib=static=raddlehue");
        }
        Err(sentence) => println!("cargo::error={sentence}"),
    }
}
