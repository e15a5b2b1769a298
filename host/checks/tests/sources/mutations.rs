//! Each change of `checks/mutations` can still be made, and docs/MUTATIONS.md says of each what notices it.

use graftspindle_checks::mutations::{read, Change};
use graftspindle_checks::sources::{files, root, text};

fn changes() -> Vec<Change> {
    let lists = files(&root().join("host/checks/mutations"), ".txt");
    let of_list = |path: &std::path::PathBuf| {
        let name = format!("{}.rs", path.file_stem().expect("a name").to_string_lossy());
        read(&name, &text(path)).unwrap_or_else(|fault| panic!("{fault}"))
    };
    lists.iter().flat_map(of_list).collect()
}

#[test]
fn each_change_can_be_made() {
    let all = changes();
    assert!(all.len() >= 200, "{} changes", all.len());
    for change in all {
        let source = text(&root().join("host/checks/src/plain").join(&change.file));
        assert!(change.apply(&source).is_ok_and(|after| after != source), "{}: {}", change.file, change.what);
    }
}

#[test]
fn page_says_what_notices_each() {
    let page = text(&root().join("docs/MUTATIONS.md"));
    let mut rows: Vec<(String, &str)> = Vec::new();
    for section in page.split("\n## `").skip(1) {
        let file = section.split('`').next().expect("a file");
        rows.extend(section.lines().filter(|l| l.starts_with("| ")).skip(1).map(|row| (file.to_string(), row)));
    }
    let all = changes();
    assert_eq!(rows.len(), all.len(), "another page is printed: host/mutate > docs/MUTATIONS.md");
    for (change, (file, row)) in all.iter().zip(rows) {
        let cells: Vec<&str> = row[2..].splitn(2, " | ").collect();
        assert!(file == change.file && cells[0] == change.what.replace('|', "\\|"), "{}: {row}", change.what);
        assert!(!cells[1].starts_with("NOT NOTICED"), "{row}");
        let same = change.same.as_ref().map(|reason| format!("none: {reason} |"));
        assert_eq!(same.as_deref() == Some(cells[1]), same.is_some(), "{row}");
    }
}

/// What is wrong with a list is said, and a text that stands twice or not at all is no change.
#[test]
fn a_bad_change_is_told_apart() {
    let bad = [
        "old: a\nnew: b\n",
        "what: x\n",
        "what: x\nold: a\n",
        "what: x\nnew: b\n",
        "what: x\nold: a\nold: b\nnew: c\n",
        "what: x\nold: a\nnew: b\nold: c\n",
        "what: x\nold: a\nnew: b\nold: c\nwhat: y\nold: a\nnew: c\n",
        "what: x\nold: a\nnew: a\n",
        "what: x\nold: a\nnew: b\n\nwhat: y\nold: a\nnew: b\n",
        "what: x\nold: a\nnew: b\nmore\n",
    ];
    for list in bad {
        assert!(read("a.rs", list).is_err(), "{list}");
    }
    let change =
        |old: &str| read("a.rs", &format!("# a list\n\nwhat: x\nold: {old}\nnew: c\n")).expect("a list").remove(0);
    let source = "a = 1;\n    b = 1;\n";
    assert_eq!(change("1; b").apply(source), Ok("a = c = 1;\n".to_string()));
    assert_eq!(change("a = 1;").apply(source), Ok("c\n    b = 1;\n".to_string()));
    assert!(change("= 1;").apply(source).is_err(), "it stands twice");
    assert!(change("d").apply(source).is_err() && change("a =1;").apply(source).is_err(), "it does not stand there");
}
