//! What was tried before with the same sources and vectors is not tried again.

use super::mutations::Change;
use std::collections::HashMap;
use std::fs::{read, read_to_string, OpenOptions};
use std::hash::{DefaultHasher, Hash, Hasher};
use std::io::Write;
use std::path::{Path, PathBuf};

/// The answers by their sums, and the file that keeps them.
pub struct Kept {
    path: PathBuf,
    inputs: u64,
    known: HashMap<String, String>,
}

/// A sum over all that the judge's answer hangs on.
fn sum(files: &[PathBuf]) -> Result<u64, String> {
    let mut hasher = DefaultHasher::new();
    for file in files {
        read(file).map_err(|fault| format!("{}: {fault}", file.display()))?.hash(&mut hasher);
    }
    Ok(hasher.finish())
}

impl Kept {
    pub fn open(path: &Path, inputs: &[PathBuf]) -> Result<Kept, String> {
        let text = read_to_string(path).unwrap_or_default();
        let known = text.lines().filter_map(|line| line.split_once(' '));
        let known = known.map(|(sum, answer)| (sum.to_string(), answer.to_string())).collect();
        Ok(Kept { path: path.to_path_buf(), inputs: sum(inputs)?, known })
    }

    fn sum_of(&self, change: &Change) -> String {
        let mut hasher = DefaultHasher::new();
        (self.inputs, &change.file, &change.pairs).hash(&mut hasher);
        format!("{:016x}", hasher.finish())
    }

    /// What notices a change, asked where it is not known.
    pub fn told(
        &mut self,
        change: &Change,
        ask: impl Fn(&Change) -> Result<Option<String>, String>,
    ) -> Result<Option<String>, String> {
        let sum = self.sum_of(change);
        if !self.known.contains_key(&sum) {
            let answer = ask(change)?.unwrap_or_default();
            let file = OpenOptions::new().create(true).append(true).open(&self.path);
            file.and_then(|mut file| writeln!(file, "{sum} {answer}")).map_err(|fault| fault.to_string())?;
            self.known.insert(sum.clone(), answer);
        }
        Ok(Some(self.known[&sum].clone()).filter(|answer| !answer.is_empty()))
    }
}
