//! A strip in a file: the whole of it, and nothing else.

use crate::failure::{quoted, Failure};
use std::fs::{self, File, OpenOptions};
use std::io::{self, Read, Write};

/// The length of a strip stands in two bytes, before what it counts. A file that is longer than that is none, whatever its end, and is not read to it.
const LONGEST: u64 = 2 + u16::MAX as u64;

pub fn read(name: &str) -> Result<Vec<u8>, Failure> {
    let mut bytes = Vec::new();
    match File::open(name).and_then(|file| file.take(LONGEST + 1).read_to_end(&mut bytes)) {
        Ok(_) => Ok(bytes),
        Err(error) => Err(Failure::File(format!("the file {} cannot be read: {error}", quoted(name)))),
    }
}

/// Nothing that is there is overwritten, and what cannot be written as a whole is taken away again.
pub fn write_new(name: &str, bytes: &[u8]) -> Result<(), Failure> {
    let broken = |error| Failure::File(format!("the file {} cannot be written: {error}", quoted(name)));
    let mut file = match OpenOptions::new().write(true).create_new(true).open(name) {
        Err(error) if error.kind() == io::ErrorKind::AlreadyExists => {
            return Err(Failure::File(format!(
                "{} is there already, and nothing is overwritten: write to another file",
                quoted(name)
            )));
        }
        opened => opened.map_err(broken)?,
    };
    file.write_all(bytes).and_then(|()| file.sync_all()).map_err(|error| {
        drop(file);
        // Where even this fails, the sentence says all the same that the file is not to be trusted.
        let _ = fs::remove_file(name);
        broken(error)
    })
}
