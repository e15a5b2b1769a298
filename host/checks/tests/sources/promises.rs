//! Each public function's contract is one promise under the function's own name, and two outcomes that keep it are one by a
//! law about that name; and what docs/PROOFS.md and docs/GLOSSARY.md name is there.

use graftspindle_checks::sources::{files, root, text};
use std::collections::BTreeSet;
use std::fs::read_dir;
use std::path::{Path, PathBuf};

/// `has_text`: `HasText`.
fn in_capitals(name: &str) -> String {
    let word = |w: &str| w[..1].to_uppercase() + &w[1..];
    name.split('_').map(word).collect()
}

/// What speaks with the system, of which no contract can say what it gives or takes: a crate, and the runner of the programs.
const SYSTEM: [&str; 3] = ["printing/src/lib.rt", "vectors/src/program.rt", "vectors/src/each.rt"];

/// The library crates: those with a lib.rt.
fn libraries() -> Vec<PathBuf> {
    let crates = read_dir(root().join("crates")).expect("the crates");
    crates.map(|c| c.expect("a crate").path()).filter(|c| c.join("src/lib.rt").exists()).collect()
}

/// The sources of a library that make promises.
fn promising(library: &Path) -> Vec<PathBuf> {
    let speaks = |file: &PathBuf| SYSTEM.iter().any(|system| file.ends_with(system));
    files(&library.join("src"), ".rt").into_iter().filter(|file| !speaks(file)).collect()
}

/// What stands in front of the first character that no name has.
fn name_in(text: &str) -> &str {
    text.split(|c: char| !(c.is_alphanumeric() || c == '_')).next().expect("a name")
}

/// `WorkingDay`: `working_day`.
fn in_small_letters(name: &str) -> String {
    let letter = |(i, c): (usize, char)| match c.is_uppercase() {
        true if i == 0 => c.to_lowercase().to_string(),
        true => format!("_{}", c.to_lowercase()),
        false => c.to_string(),
    };
    name.chars().enumerate().map(letter).collect()
}

/// `<'a> Parts<'a> {`: `Parts<'a> {`.
fn behind_parameters(block: &str) -> &str {
    let own = block.strip_prefix('<').map_or(block, |rest| rest.split_once('>').expect("parameters").1);
    own.trim_start()
}

/// Each public function of a file with the text from its name to its body. A method has its type's name in front of its own.
fn public(source: &str) -> Vec<(String, String)> {
    let mut all = Vec::new();
    for start in ["\npub fn ", "\npub extern \"C\" fn "] {
        for part in source.split(start).skip(1) {
            all.push((name_in(part).to_string(), part.split("\n{").next().expect("a contract").to_string()));
        }
    }
    for block in source.split("\nimpl").skip(1) {
        let of = in_small_letters(name_in(behind_parameters(block)));
        for part in block.split("\n}").next().expect("its methods").split("\n    pub fn ").skip(1) {
            let contract = part.split("\n    {").next().expect("a contract");
            all.push((format!("{of}_{}", name_in(part)), contract.to_string()));
        }
    }
    all
}

#[test]
fn a_method_is_found_under_its_type() {
    let source = "\npub fn first(a: u64)\n    ensures { First a }\n{\n}\n\nimpl WorkingDay {\n    pub fn number(self) -> u8\n        ensures { WorkingDayNumber self result }\n    {\n    }\n}\n\nfn third() {\n}\n\nimpl<'a> Shelf<'a> {\n    pub fn book(&self) -> &'a [u8]\n        ensures { ShelfBook self result }\n    {\n    }\n}\n";
    let found: Vec<String> = public(source).into_iter().map(|(name, _)| name).collect();
    assert_eq!(found, ["first", "working_day_number", "shelf_book"]);
    assert!(public(source)[1].1.contains("WorkingDayNumber"));
}

#[test]
fn each_contract_is_one_promise_with_its_law() {
    let mut count = 0;
    for library in libraries() {
        for (name, contract) in promising(&library).iter().flat_map(|file| public(&text(file))) {
            count += 1;
            let own = in_capitals(&name);
            let called = own.trim_start_matches("Graftspindle").to_string();
            let ensures: Vec<&str> = contract.split("ensures").skip(1).collect();
            assert_eq!(ensures.len(), 1, "{name}: one ensures");
            let said = ensures[0].split('{').nth(1).expect("a promise").trim_start();
            let cited = said.split(' ').next().expect("a name");
            assert!(cited == own || cited == called, "{name}: its contract cites {cited}");
            assert!(!said.contains(" × ") && !said.contains('≡'), "{name}: its contract says more than its promise");
            let laws = text(&library.join("specs/laws/Outcomes.antt"));
            let law = format!("pub {name}_one :");
            let stated = laws.split(&law).nth(1).unwrap_or_else(|| panic!("{name}: no law {law}"));
            let stated = stated.split("\n\n").next().expect("a statement");
            assert!(stated.matches(&format!("{cited} ")).count() >= 2, "{name}: its law does not speak of {cited}");
        }
    }
    assert!(count > 50, "{count} public functions");
}

/// Every name that is declared in one of these files: definitions, laws, functions.
fn declared(sources: &[PathBuf]) -> BTreeSet<String> {
    let mut all = BTreeSet::new();
    for file in sources {
        for line in text(file).lines() {
            let words: Vec<&str> = line.split_whitespace().collect();
            let plain = ["abbrev", "unfoldable", "pub", "record", "data", "fn", "extern", "\"C\""];
            if let Some(name) = words.iter().find(|w| !plain.contains(w)) {
                all.insert(name.split(['(', '<', ':']).next().expect("a name").to_string());
            }
        }
    }
    all
}

/// The rows of the tables of a page.
fn rows(page: &str) -> Vec<String> {
    let page = text(&root().join("docs").join(page));
    page.lines().filter(|line| line.starts_with("| ")).map(str::to_string).collect()
}

/// What stands between backticks.
fn quoted(words: &str) -> Vec<&str> {
    words.split('`').skip(1).step_by(2).collect()
}

/// A path in `crates/`, a file of specs or proofs, an edit, a crate, a number, or a name that is declared.
fn is_there(name: &str, known: &BTreeSet<String>) -> bool {
    let bare = name.split(' ').next().expect("a word");
    let crates = root().join("crates");
    match bare.split_once('/') {
        Some(("crates", _)) => root().join(bare).exists(),
        Some(("laws", _)) => true,
        Some((of, rest)) => {
            let folder = crates.join(of);
            folder.join(format!("{rest}.antt")).exists() || folder.join(format!("must-fail/{rest}.edit")).exists()
        }
        None => known.contains(bare) || crates.join(bare).exists() || bare.chars().all(|c| c.is_ascii_digit()),
    }
}

#[test]
fn what_the_pages_name_is_there() {
    let known = declared(&[".antt", ".rt"].map(|ending| files(&root().join("crates"), ending)).concat());
    for (page, least) in [("PROOFS.md", 200), ("GLOSSARY.md", 40)] {
        let mut count = 0;
        for row in rows(page) {
            for name in quoted(&row) {
                count += 1;
                assert!(is_there(name, &known), "{name}: in docs/{page}, and nowhere in the crates\n{row}");
            }
        }
        assert!(count > least, "{page}: {count} names");
    }
}

/// A row of a theorem ends in its names, and the files that hold them.
#[test]
fn theorems_stand_where_the_glossary_says() {
    let mut count = 0;
    for row in rows("GLOSSARY.md").iter().filter(|row| row.starts_with("| T")) {
        let cells: Vec<&str> = row.trim_matches('|').rsplitn(3, " | ").collect();
        let path = |place: &&str| root().join("crates").join(format!("{place}.antt"));
        let held = declared(&quoted(cells[0]).iter().map(path).collect::<Vec<PathBuf>>());
        for name in quoted(cells[1]) {
            count += 1;
            assert!(held.contains(name), "{name} does not stand there\n{row}");
        }
    }
    assert!(count > 30, "{count} theorems");
}

/// The types that a page states, under names of their own.
fn stated(page: &str) -> Vec<&str> {
    page.lines().filter_map(|line| line.trim().strip_prefix("abbrev pub ")?.strip_suffix(" : Type 0")).collect()
}

/// Is this the head of a theorem of that type, under its name? The type is what stands behind the last arrow.
fn proves(head: &str, statement: &str) -> bool {
    let Some((name, kind)) = head.trim().strip_prefix("pub ").and_then(|head| head.split_once(" : ")) else {
        return false;
    };
    let result = kind.rsplit("→ ").next().expect("a type");
    in_capitals(name) == statement && result.split_whitespace().next() == Some(statement)
}

/// Where a page of the demands has a theorem's statement alone, as a type, the file of its name in proofs/ has the theorem.
#[test]
fn each_statement_has_its_theorem() {
    let demands = root().join("crates/demands");
    let mut count = 0;
    for page in files(&demands.join("specs"), ".antt") {
        for statement in stated(&text(&page)) {
            count += 1;
            let theorems = demands.join("proofs").join(page.file_name().expect("a name"));
            let is_there = text(&theorems).lines().any(|line| proves(line, statement));
            assert!(is_there, "{statement}: no theorem of this type in {}", theorems.display());
        }
    }
    assert!(count >= 10, "{count} statements");
}

/// What tells a theorem of a type from its neighbours.
#[test]
fn another_theorem_is_told_apart() {
    for head in ["  pub copy_is : CopyIs ours who replay", "pub copy_is : (o : Import f) → CopyIs o"] {
        assert!(proves(head, "CopyIs"), "{head}");
    }
    let others = [
        "  copy_is : CopyIs ours",
        "pub copy_is : SameRecords ours",
        "pub same_records : CopyIs ours",
        "pub copy_is :",
        "pub copy_is : CopyIs ours → SameRecords ours",
        "pub copy_is : (h : CopyIs ours) → SameRecords ours",
    ];
    for head in others {
        assert!(!proves(head, "CopyIs"), "{head}");
    }
}
