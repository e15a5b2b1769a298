//! An import by an index, and with `--plain` without one: the same files, the same answer, the same line in the journal.

use crate::common::*;
use graftspindle::sizes::SLOT;
use graftspindle_checks::generate::case;
use graftspindle_checks::kinds::kinds;
use graftspindle_checks::sample;
use graftspindle_cli::audit;

/// What a command leaves of a folder.
type Left = Vec<(String, Option<Vec<u8>>)>;

fn plainly(line: &str) -> String {
    line.replacen("import ", "import --plain ", 1)
}

/// What a line leaves of these files, and what it says, without the folder's name.
fn left(files: &[(&str, &[u8])], line: &str) -> (i32, String, String, Left) {
    let folder = Folder::new();
    files.iter().for_each(|(name, bytes)| folder.write(name, bytes));
    let done = graftspindle(&folder, line);
    let named = |text: String| text.replace(&folder.text("."), ".").replace(&folder.text(""), "");
    (done.status, named(done.said), named(done.fault), folder.all())
}

/// Both ways, on fresh files: the status.
fn alike(register: &[u8], rows: &[u8], hgv: &[u8], line: &str) -> i32 {
    let files = [("register", register), ("rows", rows), ("hgv", hgv)];
    let (by_index, plain) = (left(&files, line), left(&files, &plainly(line)));
    assert!(by_index == plain, "{line}: {:?}, {:?}", by_index.1, plain.1);
    by_index.0
}

#[test]
fn both_ways() {
    let folder = ready();
    let plain = graftspindle(&folder, &plainly(IMPORT));
    assert_eq!((plain.status, plain.fault.as_str()), (0, ""));
    assert!(both(&folder) == imported());
    let other = ready();
    let by_index = graftspindle(&other, IMPORT);
    let named = |said: &str, folder: &Folder| said.replace(&folder.text("hgc"), "hgc");
    assert_eq!(named(&by_index.said, &other), named(&plain.said, &folder));
}

/// What is refused is refused alike, with the same hint, and nothing is changed.
#[test]
fn refusals() {
    let (rows, full) = (sample::row(), IMPORT.replace("incremental", "full"));
    let held = sample::slots((0..4).map(sample::line));
    let free = [0; SLOT];
    assert_eq!(alike(b"1", &rows, &sample::hgv(2), IMPORT), 23);
    assert_eq!(alike(&free, b"1", &sample::hgv(2), IMPORT), 24);
    assert_eq!(alike(&free, &rows, b"", IMPORT), 25);
    assert_eq!(alike(&free, &rows, &sample::hgv(2), IMPORT), 33);
    assert_eq!(alike(&held, &rows, &sample::hgv(1), &full), 35);
    assert_eq!(alike(&held, &rows, &sample::hgv(4), &full), 0);
}

/// Inputs of the generator, accepted and refused ones.
#[test]
fn generated() {
    let (mut done, mut refused) = (0, 0);
    for seed in 0..200 {
        let c = case(seed);
        let mode = if c.mode == 2 { "full" } else { "incremental" };
        let status = alike(&c.register, &c.rows, &c.hgv, &IMPORT.replace("incremental", mode));
        assert_ne!(status, 36, "seed {seed}");
        *(if status == 0 { &mut done } else { &mut refused }) += 1;
    }
    assert!(done >= 50 && refused >= 50, "{done} and {refused}");
}

/// The largest files, into free registers and into full ones.
#[test]
fn large_files() {
    for kind in kinds(8192) {
        for mode in ["incremental", "full"] {
            let line = IMPORT.replace("incremental", mode);
            assert_eq!(alike(&kind.register, &sample::row(), &kind.hgv, &line), 0, "{}, {mode}", kind.name);
        }
    }
}

/// The journal's line says what came of a list and not how: the digests of one way are the other's.
#[test]
fn journal() {
    let line = |way: &dyn Fn(&str) -> String| {
        let folder = ready();
        let done = graftspindle(&folder, &way(&IMPORT.replacen("import ", "import --journal @journal ", 1)));
        assert_eq!(done.status, 0, "{}", done.fault);
        let journal = String::from_utf8(folder.read("journal")).expect("UTF-8").replace(&folder.text("register"), "");
        let at = audit::text(&journal, "at").expect("a time").to_string();
        journal.replace(&at, "")
    };
    let by_index = line(&str::to_string);
    assert_eq!(by_index, line(&plainly));
    for field in ["before", "after", "hgv", "hgc"] {
        assert!(audit::text(&by_index, field).is_some_and(|digest| digest.len() == 64), "{field}: {by_index}");
    }
}
