//! Faults of the file system: a clear line, status 1, nothing changed.

use crate::common::*;
use std::fs;
use std::process::Command;

/// Status 1, a line that has these words, and all files as they were.
fn assert_fault(folder: &Folder, line: &str, words: &[&str]) {
    assert_status(1, folder, line, words)
}

fn assert_status(status: i32, folder: &Folder, line: &str, words: &[&str]) {
    let before = folder.all();
    let done = graftspindle(folder, line);
    assert_eq!((done.status, done.said.as_str()), (status, ""), "{line}");
    let head = format!("graftspindle: {status}: ");
    assert!(done.fault.starts_with(&head) && done.fault.lines().count() == 1, "{}", done.fault);
    assert!(words.iter().all(|word| done.fault.contains(word)), "{line}: {}", done.fault);
    assert!(folder.all() == before, "{line}");
}

const MISSING: &str = "No such file or directory";

#[test]
fn missing_file() {
    let folder = ready();
    for name in ["@register", "@rows", "@hgv"] {
        assert_fault(&folder, &IMPORT.replace(name, "@gone"), &["gone", MISSING]);
    }
    assert_fault(&folder, &IMPORT.replace("@hgc", "@gone/hgc"), &["gone", MISSING]);
    for line in [
        "lookup pan --register @gone 1",
        "register show @gone",
        "update --copy @gone --mode full @hgv @hgc",
        "update --copy @register --mode full @gone @hgc",
        "read-back @hgv @gone",
        "issuers from-ait --issuers @fresh @gone",
        "register new --slots 1 @gone/fresh",
        "sweep @gone",
        "sweep --dry-run @gone",
    ] {
        assert_fault(&folder, line, &["gone", MISSING]);
    }
}

#[test]
fn folder_in_place_of_a_file() {
    let folder = ready();
    fs::create_dir(folder.path("folder")).expect("a folder");
    for name in ["@register", "@hgc"] {
        assert_fault(&folder, &IMPORT.replace(name, "@folder"), &["folder is not a file"]);
    }
    for name in ["@rows", "@hgv"] {
        assert_fault(&folder, &IMPORT.replace(name, "@folder"), &["folder: Is a directory"]);
    }
    assert_fault(&folder, "register new --slots 1 @folder", &["folder is not a file"]);
    assert_fault(&folder, "register show @folder", &["folder is not a file"]);
    assert_fault(&folder, "sweep @folder", &["folder is not a file"]);
}

/// No file can be made in /proc, whoever asks.
#[test]
fn folder_that_takes_no_file() {
    let folder = ready();
    assert_fault(&folder, &IMPORT.replace("@hgc", "/proc/hgc"), &["cannot write /proc/hgc"]);
    assert_fault(&folder, &IMPORT.replace("@register", "/proc/version"), &["cannot make the lock /proc/version"]);
    assert_fault(&folder, "register new --slots 1 /proc/fresh", &["cannot make the lock /proc/fresh"]);
    assert_fault(&folder, "sweep /proc/version", &["cannot make the lock /proc/version"]);
    assert_fault(
        &folder,
        &format!("issuers from-ait --issuers /proc/rows {AIT}"),
        &["cannot make the lock /proc/rows"],
    );
}

/// Where permissions count, for another than root.
#[test]
fn read_only_folder() {
    let folder = ready();
    fs::create_dir(folder.path("shut")).expect("a folder");
    fs::copy(folder.path("register"), folder.path("shut/register")).expect("a copy");
    let mode = |mode| {
        use std::os::unix::fs::PermissionsExt;
        fs::set_permissions(folder.path("shut"), fs::Permissions::from_mode(mode)).expect("it is ours");
    };
    mode(0o555);
    let is_root = fs::write(folder.path("shut/probe"), b"").is_ok();
    let before = folder.read("shut/register");
    if !is_root {
        assert_fault(&folder, &IMPORT.replace("@register", "@shut/register"), &["cannot make the lock", "denied"]);
        assert_fault(&folder, &IMPORT.replace("@hgc", "@shut/hgc"), &["cannot write", "denied"]);
    }
    assert_eq!(folder.read("shut/register"), before);
    assert_eq!(graftspindle(&folder, "register show @shut/register").status, 0);
    mode(0o755);
}

/// Files may not grow beyond 512 bytes: with the signal ignored a write fails as on a full disk, else it kills.
pub fn limited(folder: &Folder, line: &str, ignored: bool) -> Ran {
    let ignore = if ignored { "trap '' XFSZ;" } else { "" };
    let script = format!("{ignore} ulimit -f 1; exec \"$0\" \"$@\"");
    let mut command = Command::new("sh");
    command.args(["-c", &script, program()]).args(words(folder, line));
    ran(command.output().expect("a shell"))
}

#[test]
fn file_that_cannot_grow() {
    let folder = ready();
    let before = folder.all();
    let done = limited(&folder, IMPORT, true);
    assert_eq!(done.status, 1);
    assert!(done.fault.contains("cannot write") && done.fault.contains("File too large"), "{}", done.fault);
    assert!(folder.all() == before);
    assert_eq!(limited(&folder, IMPORT, false).status, -1);
    assert!(folder.all() != before, "killed in the middle of a write");
    assert_eq!(graftspindle(&folder, "register show @register").status, 0);
    assert!(folder.all() == before);
}

#[test]
fn hgc_on_top_of_what_it_is_made_from() {
    let folder = ready();
    std::os::unix::fs::symlink(folder.path("register"), folder.path("link")).expect("a link");
    for name in ["@register", "@rows", "@hgv", "@link", "@./register"] {
        assert_fault(&folder, &IMPORT.replace("@hgc", name), &["--hgc would replace"]);
    }
    assert_fault(&folder, &IMPORT.replace("@hgc", "@register.graftspindle-new"), &["kept for files on their way"]);
}

#[test]
fn register_that_is_already_there() {
    let folder = ready();
    assert_fault(&folder, "register new --slots 4 @register", &["register is already there"]);
}

/// A register that is reached through a link is replaced where it stands, with its permissions.
#[test]
fn link_to_a_register() {
    use std::os::unix::fs::{symlink, PermissionsExt};
    let folder = ready();
    symlink(folder.path("register"), folder.path("link")).expect("a link");
    fs::set_permissions(folder.path("register"), fs::Permissions::from_mode(0o640)).expect("it is ours");
    assert_eq!(graftspindle(&folder, &IMPORT.replace("@register", "@link")).status, 0);
    assert!(both(&folder) == imported());
    assert!(fs::symlink_metadata(folder.path("link")).expect("it is there").is_symlink());
    let kept = fs::metadata(folder.path("register")).expect("it is there").permissions();
    assert_eq!(kept.mode() & 0o777, 0o640);
}

/// What a stop left and nobody can finish now: the register is read all the same, and the line says so.
#[test]
fn left_over_that_cannot_be_finished() {
    let folder = ready();
    folder.write("register.graftspindle-note", b"not a whole note");
    let done = graftspindle(&folder, "register show @register");
    assert_eq!(done.status, 0);
    assert!(done.fault.contains("what a stopped import left is still there"), "{}", done.fault);
    assert_status(3, &folder, IMPORT, &["graftspindle-note is damaged", "register recover --discard"]);
    assert_eq!(graftspindle(&folder, "register recover --discard @register").status, 0);
    assert_eq!(graftspindle(&folder, IMPORT).status, 0);
}
