//! docs/MISTAKES.md lists every edit that the prover must refuse, in the words of the edit itself.

use graftspindle_checks::sources::{files, root, text};
use std::process::Command;

#[test]
fn page_lists_every_edit() {
    let told = Command::new(root().join("docs/mistakes")).output().expect("docs/mistakes runs");
    assert!(told.status.success(), "{}", String::from_utf8_lossy(&told.stderr));
    let printed = String::from_utf8(told.stdout).expect("words are text");
    let edits = files(&root().join("crates"), ".edit").len();
    assert_eq!(printed.lines().filter(|line| line.ends_with("` |")).count(), edits);
    let page = text(&root().join("docs/MISTAKES.md"));
    assert!(page == printed, "another page is printed: docs/mistakes > docs/MISTAKES.md");
}
