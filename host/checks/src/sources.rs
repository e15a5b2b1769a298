//! The project's own files, for the tests that compare what stands in several places.

use std::fs::{read_dir, read_to_string};
use std::path::{Path, PathBuf};

/// The folder that holds `crates/`, `docs/` and `host/`.
pub fn root() -> PathBuf {
    Path::new(env!("CARGO_MANIFEST_DIR")).join("../..")
}

pub fn text(path: &Path) -> String {
    read_to_string(path).unwrap_or_else(|fault| panic!("{}: {fault}", path.display()))
}

/// The files below a folder with this ending, by name; none where there is no such folder. What `rt` keeps in a crate's `out/` is
/// none of them.
pub fn files(folder: &Path, ending: &str) -> Vec<PathBuf> {
    let mut all = Vec::new();
    for entry in read_dir(folder).into_iter().flatten() {
        let path = entry.expect("an entry").path();
        if path.ends_with("out") {
            continue;
        }
        if path.is_dir() {
            all.extend(files(&path, ending));
        } else if path.to_string_lossy().ends_with(ending) {
            all.push(path);
        }
    }
    all.sort();
    all
}
