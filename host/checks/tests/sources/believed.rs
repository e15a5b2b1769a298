//! docs/BELIEVE.md names each definition that has to be believed, in the file that holds it, and no other.

use graftspindle_checks::sources::{root, text};
use std::collections::BTreeSet;
use std::process::Command;

/// A file of the crates' specs and a definition that it holds.
type Named = (String, String);

/// What `docs/believed` prints: a file, a colon, and its definitions.
fn found() -> BTreeSet<Named> {
    let told = Command::new(root().join("docs/believed")).output().expect("docs/believed runs");
    assert!(told.status.success(), "{}", String::from_utf8_lossy(&told.stderr));
    let lines = String::from_utf8(told.stdout).expect("names are text");
    let mut all = BTreeSet::new();
    for line in lines.lines() {
        let (file, names) = line.split_once(": ").unwrap_or_else(|| panic!("{line}"));
        all.extend(names.split(' ').map(|name| (file.to_string(), name.to_string())));
    }
    all
}

/// What the page names: each row ends in its definitions, and a link to their file.
fn named() -> BTreeSet<Named> {
    let page = text(&root().join("docs/BELIEVE.md"));
    let mut all = BTreeSet::new();
    for row in page.lines().filter(|row| row.ends_with(".antt) |")) {
        let cells: Vec<&str> = row.trim_matches('|').rsplitn(3, " | ").collect();
        let (link, names) = (cells[0], cells[1]);
        let file =
            link.split_once("](../").and_then(|(_, rest)| rest.split_once(')')).unwrap_or_else(|| panic!("{row}")).0;
        for name in names.split(' ') {
            let name =
                name.strip_prefix('`').and_then(|name| name.strip_suffix('`')).unwrap_or_else(|| panic!("{row}"));
            all.insert((file.to_string(), name.to_string()));
        }
    }
    all
}

#[test]
fn page_names_what_has_to_be_believed() {
    let (found, named) = (found(), named());
    let lacking: Vec<&Named> = found.difference(&named).collect();
    let idle: Vec<&Named> = named.difference(&found).collect();
    assert!(!named.is_empty());
    assert!(lacking.is_empty() && idle.is_empty(), "not on the page: {lacking:?}\non the page alone: {idle:?}");
}
