//! Who holds a lock, as far as the system says it (`/proc/locks`).

use std::fs::{self, File};
use std::os::unix::fs::MetadataExt;

/// The process of a line `1: FLOCK  ADVISORY  WRITE 4711 08:01:131 0 EOF`, where it locks the file of this number.
fn process(line: &str, number: u64) -> Option<u64> {
    let words: Vec<&str> = line.split_whitespace().collect();
    let [_, "FLOCK", _, _, process, file, ..] = words[..] else {
        return None;
    };
    let same = file.rsplit(':').next()?.parse() == Ok(number);
    process.parse().ok().filter(|_| same)
}

/// The system hands out its locks in parts, and what others lock meanwhile can hide a line: so it is asked again.
const TIMES: usize = 5;

fn found(number: u64) -> Option<u64> {
    let locks = fs::read_to_string("/proc/locks").unwrap_or_default();
    locks.lines().find_map(|line| process(line, number))
}

/// Its number, its name and its user; less where the system says less.
pub fn of(lock: &File) -> String {
    let number = lock.metadata().map(|known| known.ino()).unwrap_or_default();
    let Some(process) = (0..TIMES).find_map(|_| found(number)) else {
        return "another process".to_string();
    };
    let folder = format!("/proc/{process}");
    let name = fs::read_to_string(format!("{folder}/comm")).unwrap_or_default();
    match fs::metadata(&folder) {
        Ok(known) => format!("process {process} ({}, user {})", name.trim(), known.uid()),
        Err(_) => format!("process {process}"),
    }
}
