//! Each edit that the prover must refuse is one that the runner applies as it was meant: it reads one line of a text that goes
//! and one of a text that comes, and passes over whatever else stands there.

use graftspindle_checks::sources::{files, root, text};
use std::collections::BTreeMap;
use std::fs::read_to_string;

/// The source without its comments, and without blanks but those in quotes.
fn bare(file: &str, source: &str) -> String {
    let comment = if file.ends_with(".antt") { "--" } else { "//" };
    source.lines().map(|line| bare_line(line, comment)).collect()
}

fn bare_line(line: &str, comment: &str) -> String {
    let (mut kept, mut rest, mut quoted) = (String::new(), line, false);
    while let Some(c) = rest.chars().next() {
        if !quoted && rest.starts_with(comment) {
            break;
        }
        let whole = if is_letter_in_quotes(rest) || (quoted && c == '\\') { 2 } else { 1 };
        let (taken, behind) = rest.split_at(rest.char_indices().nth(whole).map_or(rest.len(), |(at, _)| at));
        quoted ^= c == '"';
        if quoted || !c.is_whitespace() {
            kept.push_str(taken);
        }
        rest = behind;
    }
    kept
}

/// `'"'` and the like: a letter that opens no text.
fn is_letter_in_quotes(rest: &str) -> bool {
    let mut letters = rest.chars();
    letters.next() == Some('\'') && letters.nth(1) == Some('\'')
}

/// An edit while it is read: the files as they are by now, by the paths that the edit names.
#[derive(Default)]
struct Edit {
    file: Option<String>,
    old: Option<String>,
    pairs: usize,
    changed: BTreeMap<String, String>,
}

impl Edit {
    fn name_file(&mut self, file: &str, source: impl Fn(&str) -> Option<String>) -> Result<(), String> {
        let source = source(file).ok_or(format!("there is no {file}"))?;
        self.changed.entry(file.to_string()).or_insert(source);
        self.file = Some(file.to_string());
        Ok(())
    }

    fn name_old(&mut self, old: &str) -> Result<(), String> {
        match self.old.replace(old.to_string()) {
            Some(_) => Err("an old: behind an old:".to_string()),
            None => Ok(()),
        }
    }

    fn apply(&mut self, new: &str) -> Result<(), String> {
        let old = self.old.take().ok_or("a new: without its old:")?;
        let file = self.file.as_ref().ok_or("an old: without its file:")?;
        let source = &self.changed[file];
        let times = source.matches(&old).count();
        if times != 1 {
            return Err(format!("{old:?} stands {times} times in {file}"));
        }
        let after = source.replacen(&old, new, 1);
        if bare(file, &after) == bare(file, source) {
            return Err(format!("{new:?} for {old:?} changes nothing"));
        }
        self.changed.insert(file.clone(), after);
        self.pairs += 1;
        Ok(())
    }

    fn finish(self) -> Result<(), String> {
        match (self.old, self.pairs) {
            (Some(old), _) => Err(format!("{old:?} without its new:")),
            (None, 0) => Err("it changes no file".to_string()),
            _ => Ok(()),
        }
    }
}

/// What is wrong with an edit of the files that `source` gives.
fn judge(edit: &str, source: impl Fn(&str) -> Option<String>) -> Result<(), String> {
    let mut read = Edit::default();
    for line in edit.lines() {
        if let Some(file) = line.strip_prefix("file: ") {
            read.name_file(file, &source)?;
        } else if let Some(old) = line.strip_prefix("old: ") {
            read.name_old(old)?;
        } else if let Some(new) = line.strip_prefix("new:") {
            read.apply(new.strip_prefix(' ').unwrap_or(new))?;
        } else if !line.is_empty() && !line.starts_with('#') {
            return Err(format!("the runner passes over {line:?}"));
        }
    }
    read.finish()
}

#[test]
fn each_edit_is_applied_as_it_stands() {
    let edits = files(&root().join("crates"), ".edit");
    assert!(edits.len() > 200, "{} edits", edits.len());
    for path in edits {
        let folder = path.parent().and_then(|folder| folder.parent()).expect("a crate");
        let judged = judge(&text(&path), |file| read_to_string(folder.join(file)).ok());
        assert_eq!(judged, Ok(()), "{}", path.display());
    }
}

const SOURCE: &str = "// one\nlet a = 1; // first\nlet b = \"x  y\";\nlet c = 1;\nlet d = b'\"'; // d\n";

#[test]
fn a_bad_edit_is_told_apart() {
    let source = |file: &str| (file == "src/lib.rt").then(|| SOURCE.to_string());
    let right = [
        "# a mistake\nfile: src/lib.rt\nold: a = 1\nnew: a = 2\n",
        "file: src/lib.rt\nold: a = 1\nnew: a = 2\n\nold: a = 2\nnew: a = 3\n",
        "file: src/lib.rt\nold: \"x  y\"\nnew: \"x y\"\n",
        "file: src/lib.rt\nold: let c = 1;\nnew:\n",
        "file: src/lib.rt\nold: let d\nnew: let e\n",
    ];
    for edit in right {
        assert_eq!(judge(edit, source), Ok(()), "{edit}");
    }
    let bad = [
        ("# a mistake\n", "it changes no file"),
        ("file: src/lib.rt\n", "it changes no file"),
        ("file: src/lib.rt\nold: a = 1\nlet b\nnew: a = 2\n", "the runner passes over \"let b\""),
        ("file: src/lib.rt\nold: a = 1\nnew: a = 2\n  more\n", "the runner passes over \"  more\""),
        ("file: src/lib.rt\nold: a = 1\nnew: a = 1\n", "\"a = 1\" for \"a = 1\" changes nothing"),
        ("file: src/lib.rt\nold: a = 1\nnew: a  =  1\n", "\"a  =  1\" for \"a = 1\" changes nothing"),
        ("file: src/lib.rt\nold: // first\nnew: // last\n", "\"// last\" for \"// first\" changes nothing"),
        ("file: src/lib.rt\nold: c = 1;\nnew: c = 1; // 2\n", "\"c = 1; // 2\" for \"c = 1;\" changes nothing"),
        ("file: src/lib.rt\nold: one\nnew: two\n", "\"two\" for \"one\" changes nothing"),
        ("file: src/lib.rt\nold: // d\nnew: // e\n", "\"// e\" for \"// d\" changes nothing"),
        ("file: src/lib.rt\nold: = 1\nnew: = 2\n", "\"= 1\" stands 2 times in src/lib.rt"),
        ("file: src/lib.rt\nold: a = 2\nnew: a = 3\n", "\"a = 2\" stands 0 times in src/lib.rt"),
        ("file: src/lib.rt\nold: a = 1\n", "\"a = 1\" without its new:"),
        ("file: src/lib.rt\nold: a = 1\nold: c = 1\nnew: c = 2\n", "an old: behind an old:"),
        ("file: src/lib.rt\nnew: a = 2\n", "a new: without its old:"),
        ("old: a = 1\nnew: a = 2\n", "an old: without its file:"),
        ("file: src/other.rt\nold: a = 1\nnew: a = 2\n", "there is no src/other.rt"),
    ];
    for (edit, fault) in bad {
        assert_eq!(judge(edit, source), Err(fault.to_string()), "{edit}");
    }
}
