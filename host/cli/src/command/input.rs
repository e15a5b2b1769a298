//! A file that is read, or standard input where its name is `-`.

use std::ffi::OsStr;
use std::io::{self, Read};
use std::path::Path;

use super::Refusal;
use crate::files::Disk;
use graftspindle::sizes::{HGC_MOST, HGV_MOST};

/// What was read, and what it is called.
pub struct Input {
    pub name: String,
    pub bytes: Vec<u8>,
}

pub fn is_standard(word: &OsStr) -> bool {
    word == "-"
}

/// No more than so many bytes and one.
pub fn read(disk: &dyn Disk, word: &OsStr, most: usize) -> Result<Input, Refusal> {
    if !is_standard(word) {
        let path = Path::new(word);
        return Ok(Input { name: path.display().to_string(), bytes: disk.read(path, most + 1)? });
    }
    let (name, mut bytes) = ("standard input".to_string(), Vec::new());
    let read = io::stdin().lock().take(most as u64 + 1).read_to_end(&mut bytes);
    read.map_err(|fault| Refusal::Fault(format!("cannot read standard input: {fault}")))?;
    Ok(Input { name, bytes })
}

/// Standard input can be read once.
pub fn at_most_one(words: &[&OsStr]) -> Result<(), Refusal> {
    match words.iter().filter(|word| is_standard(word)).count() {
        0 | 1 => Ok(()),
        _ => Err(Refusal::Fault("- stands for standard input, which can be read once".to_string())),
    }
}

/// An HGV and its HGC.
pub fn pair(disk: &dyn Disk, hgv: &OsStr, hgc: &OsStr) -> Result<(Input, Input), Refusal> {
    at_most_one(&[hgv, hgc])?;
    Ok((read(disk, hgv, HGV_MOST)?, read(disk, hgc, HGC_MOST)?))
}
