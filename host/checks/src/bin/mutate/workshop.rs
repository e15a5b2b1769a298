//! A copy of the plain implementation and of what judges it, compiled without the proved library, as fast as may be.

use super::mutations::Change;
use std::fs::{copy, create_dir_all, read_dir, read_to_string, remove_dir_all, write};
use std::path::{Path, PathBuf};
use std::process::Command;

/// What the judge stands on.
const PARTS: [&str; 5] = ["plain", "vectors", "tried", "lists", "sample"];

/// The files of `plain` that the vectors of forms ask first of all; the others are asked by those of imports alone.
const OF_FORMS: [&str; 5] = ["hgv.rs", "line.rs", "rows.rs", "verdict.rs", "words.rs"];

/// What the definition's functions are lent and answer, without the functions.
const TYPES: &str =
    "pub mod raw {\n    mod answers;\n    mod revision;\n    mod writer;\n    pub use answers::*;\n    pub use writer::List;\n}\n";

/// The judge as the program of one crate with them.
const MAIN: &str = "fn main() {\n    judge::main()\n}\n";

pub struct Workshop {
    folder: PathBuf,
}

fn told<T>(what: &Path, done: std::io::Result<T>) -> Result<T, String> {
    done.map_err(|fault| format!("{}: {fault}", what.display()))
}

/// A file, and the folder of its own name.
fn copy_part(from: &Path, to: &Path) -> Result<(), String> {
    told(from, copy(from.with_extension("rs"), to.with_extension("rs")))?;
    for entry in read_dir(from).into_iter().flatten().flatten() {
        told(to, create_dir_all(to))?;
        told(&entry.path(), copy(entry.path(), to.join(entry.file_name())))?;
    }
    Ok(())
}

/// The Rust files of a folder and of those in it, by name.
fn files(folder: &Path) -> Vec<PathBuf> {
    let entries = read_dir(folder).into_iter().flatten().flatten().map(|entry| entry.path());
    let of_entry = |path: PathBuf| if path.is_dir() { files(&path) } else { vec![path] };
    let mut all: Vec<PathBuf> =
        entries.flat_map(of_entry).filter(|path| path.extension().is_some_and(|e| e == "rs")).collect();
    all.sort();
    all
}

impl Workshop {
    /// Copies what is needed, and compiles what no change touches.
    pub fn open(folder: &Path) -> Result<Workshop, String> {
        let workshop = Workshop { folder: folder.to_path_buf() };
        if folder.exists() {
            told(folder, remove_dir_all(folder))?;
        }
        told(folder, create_dir_all(folder.join("raw")))?;
        for part in ["answers", "revision", "writer"] {
            copy_part(&Path::new("graftspindle/src/raw").join(part), &folder.join("raw").join(part))?;
        }
        copy_part(Path::new("checks/src/bin/judge"), &folder.join("judge"))?;
        for part in PARTS {
            copy_part(&Path::new("checks/src").join(part), &folder.join(part))?;
        }
        let parts = PARTS.map(|part| format!("mod {part};\n")).concat();
        let root = format!("extern crate self as graftspindle_checks;\n{parts}mod judge;\n{MAIN}");
        told(folder, write(folder.join("graftspindle.rs"), TYPES))?;
        told(folder, write(folder.join("changed.rs"), root))?;
        workshop.compile("graftspindle", &["--crate-type", "rlib"])?;
        Ok(workshop)
    }

    /// All that the judge's answer hangs on, but for the change.
    pub fn inputs(&self) -> Vec<PathBuf> {
        let mut all = files(&self.folder);
        for program in ["cases_forms", "cases_imports"] {
            all.extend(["stdin", "stdout"].map(|name| Path::new("../crates").join(program).join(name)));
        }
        all
    }

    /// Only what changed is compiled again.
    fn compile(&self, name: &str, words: &[&str]) -> Result<(), String> {
        let mut rustc = Command::new("rustc");
        rustc.current_dir(&self.folder).args([
            "--edition",
            "2021",
            "--cap-lints",
            "allow",
            "-C",
            "opt-level=2",
            "-L",
            ".",
        ]);
        rustc.args(["-C", &format!("incremental=kept-{name}")]).args(words);
        let done = told(&self.folder, rustc.arg(format!("{name}.rs")).output())?;
        if done.status.success() {
            return Ok(());
        }
        Err(format!("rustc refuses {name}:\n{}", String::from_utf8_lossy(&done.stderr)))
    }

    /// What notices the implementation as it now stands in the folder, with a change in this file.
    pub fn judge(&self, file: &str) -> Result<Option<String>, String> {
        self.compile("changed", &["--extern", "graftspindle"])?;
        let first = if OF_FORMS.contains(&file) { "cases_forms" } else { "cases_imports" };
        let done = told(&self.folder, Command::new(self.folder.join("changed")).args(["../crates", first]).output())?;
        let found = String::from_utf8_lossy(&done.stdout).trim_end().to_string();
        match (done.status.success(), found.is_empty()) {
            (true, true) => Ok(None),
            (true, false) => Ok(Some(found)),
            _ => Err(format!("the judge fails: {}", String::from_utf8_lossy(&done.stderr))),
        }
    }

    /// The file of a change as it is, and with the change made.
    pub fn changed(&self, change: &Change) -> Result<(String, String), String> {
        let path = Path::new("checks/src/plain").join(&change.file);
        let source = told(&path, read_to_string(&path))?;
        let after = change.apply(&source)?;
        Ok((source, after))
    }

    /// What notices a change; the copy is afterwards as it was.
    pub fn try_change(&self, change: &Change) -> Result<Option<String>, String> {
        let (source, after) = self.changed(change)?;
        let path = self.folder.join("plain").join(&change.file);
        told(&path, write(&path, after))?;
        let noticed = self.judge(&change.file).map_err(|fault| format!("{}: {}: {fault}", change.file, change.what))?;
        told(&path, write(&path, source))?;
        Ok(noticed)
    }
}
