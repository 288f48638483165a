//! Nobody reads: the command ends quietly, and not as if it had succeeded.

#![cfg(unix)]

mod running;

use running::{answer, raddlehue};
use std::fs;
use std::os::fd::OwnedFd;
use std::os::unix::net::UnixStream;
use std::path::Path;

const BOULDER: [&str; 8] = ["--lat", "39.742476", "--lon", "105.1786W", "--height", "1830", "--delta-t", "67"];

/// The reader has left before the command begins, so that it cannot be done before that.
fn unread(words: &[&str]) {
    let (writer, reader) = UnixStream::pair().unwrap();
    drop(reader);
    let output = raddlehue(words).stdout(OwnedFd::from(writer)).output().unwrap();
    assert_eq!((output.status.code(), output.stderr.len()), (Some(1), 0), "{words:?}");
}

#[test]
fn a_reader_that_left_is_no_success() {
    let file = Path::new(env!("CARGO_TARGET_TMPDIR")).join("a_reader_that_left");
    // Of an earlier run: a strip is never written over a file.
    let _ = fs::remove_file(&file);
    let file = file.to_str().unwrap();
    answer(&[&["strip", "make", "sun", "2003-10-17", "--out", file], &BOULDER[..]].concat(), "");
    unread(&["strip", "show", file]);
    unread(&["--help"]);
    for words in [
        &["day", "2003-10-17", "--every", "1", "--json"][..],
        &["picture", "2003-10-17"],
        &["eclipse", "2003-10-17"],
        &["plan", "sun", "2003-10-17", "--tolerance", "0", "--csv"],
    ] {
        unread(&[words, &BOULDER].concat());
    }
}
