//! The journal for the audit: a line for each import, update and refusal, and what an import tells from it.

use crate::common::*;
use graftspindle_checks::sample;
use graftspindle_cli::audit::{number, text, Journal};
use graftspindle_cli::digest;
use std::process::Stdio;
use std::sync::Barrier;
use std::thread;

fn with_journal(line: &str) -> String {
    line.replacen(" --mode", " --journal @journal --mode", 1)
}

fn lines(folder: &Folder) -> Vec<String> {
    let text = String::from_utf8(folder.read("journal")).expect("UTF-8");
    assert!(text.ends_with('\n'));
    text.lines().map(str::to_string).collect()
}

/// The sample's file with another list and the list before it.
fn hgv_of(list: &str, previous: &str) -> Vec<u8> {
    let mut hgv = sample::hgv(2);
    hgv[13..32].copy_from_slice(format!("HGV900123{list}").as_bytes());
    hgv[32..51].copy_from_slice(format!("HGV{previous}").as_bytes());
    hgv
}

#[test]
fn line_of_an_import() {
    let folder = ready();
    let before = folder.read("register");
    assert_eq!(graftspindle(&folder, &with_journal(IMPORT)).status, 0);
    let lines = lines(&folder);
    let line = &lines[0];
    assert_eq!(lines.len(), 1);
    let digest_of = |name: &str| digest::of(&folder.read(name)).to_string();
    let known = [
        ("command", "import".to_string()),
        ("sender", "900123".to_string()),
        ("list", "HGV9001232025031001".to_string()),
        ("previous", "HGV0000000000000000".to_string()),
        ("mode", "incremental".to_string()),
        ("reception", "20250310050000".to_string()),
        ("register", folder.text("register")),
        ("hgv", digest_of("hgv")),
        ("hgc", digest_of("hgc")),
        ("before", digest::of(&before).to_string()),
        ("after", digest_of("register")),
    ];
    for (name, value) in known {
        assert_eq!(text(line, name), Some(value.as_str()), "{line}");
    }
    let numbers = ["status", "taken", "rejected"].map(|name| number(line, name));
    assert_eq!(numbers, [Some(0), Some(3), Some(1)]);
}

#[test]
fn line_of_a_refusal() {
    let folder = ready();
    folder.write("short", b"0");
    assert_eq!(graftspindle(&folder, &with_journal(&IMPORT.replace("@hgv", "@short"))).status, 25);
    assert_eq!(graftspindle(&folder, &with_journal(&IMPORT.replace("@register", "@gone"))).status, 1);
    let lines = lines(&folder);
    assert_eq!([0, 1].map(|i: usize| number(&lines[i], "status")), [Some(25), Some(1)]);
    assert_eq!(text(&lines[0], "before"), text(&lines[0], "after"));
    assert!(text(&lines[0], "words").is_some_and(|words| words.contains("has 1 bytes")), "{}", lines[0]);
    assert_eq!(number(&lines[0], "taken"), None);
}

#[test]
fn line_of_an_update() {
    let folder = ready();
    assert_eq!(graftspindle(&folder, IMPORT).status, 0);
    let line = "update --copy @register --mode incremental @hgv @hgc";
    assert_eq!(graftspindle(&folder, &with_journal(line)).status, 0);
    let told = &lines(&folder)[0];
    assert_eq!((text(told, "command"), number(told, "taken")), (Some("update"), Some(3)));
    assert_eq!(text(told, "after"), Some(digest::of(&folder.read("register")).to_string().as_str()));
}

/// A journal that cannot be opened: nothing is done without its line.
#[test]
fn journal_that_takes_no_line() {
    let folder = ready();
    std::os::unix::fs::symlink(folder.path("rows"), folder.path("journal")).expect("a link");
    let before = folder.all();
    let done = graftspindle(&folder, &with_journal(IMPORT));
    assert!(done.status == 1 && done.fault.contains("journal"), "{}", done.fault);
    assert!(folder.all() == before);
    let done = graftspindle(&folder, &IMPORT.replace(" --mode", " --journal /dev/full --mode"));
    assert_eq!(done.status, 1, "{}", done.fault);
    assert!(folder.all() == before);
}

/// What a stop left of a line stays a line of its own.
#[test]
fn line_without_its_end() {
    let folder = ready();
    folder.write("journal", b"{\"at\":\"2025");
    assert_eq!(graftspindle(&folder, &with_journal(IMPORT)).status, 0);
    let lines = lines(&folder);
    assert_eq!((lines.len(), lines[0].as_str()), (2, "{\"at\":\"2025"));
}

#[test]
fn list_that_was_imported_before_or_follows_another() {
    let folder = ready();
    let import = |list: &str, previous: &str| {
        folder.write("hgv", &hgv_of(list, previous));
        let done = graftspindle(&folder, &with_journal(IMPORT));
        assert_eq!(done.status, 0, "{}", done.fault);
        done.fault
    };
    assert_eq!(import("2025031001", "0000000000000000"), "");
    assert_eq!(import("2025031101", "9001232025031001"), "");
    let again = import("2025031101", "9001232025031001");
    assert!(again.contains("was imported before, at 2"), "{again}");
    assert!(again.contains("the last one of 900123 was HGV9001232025031101"), "{again}");
    let gap = import("2025031301", "9001232025031201");
    assert!(!gap.contains("imported before") && gap.contains("follows HGV9001232025031201"), "{gap}");
    assert_eq!(import("2025031401", "9001232025031301"), "");
    assert!(lines(&folder)[3].contains("\"warnings\":[\"the list HGV9001232025031301 follows"));
}

/// The register was changed by one who wrote no line, as an import that was stopped, or from a backup.
#[test]
fn register_that_the_journal_does_not_know() {
    let folder = ready();
    assert_eq!(graftspindle(&folder, &with_journal(IMPORT)).fault, "");
    folder.write("register", &ready().read("register"));
    folder.write("hgv", &hgv_of("2025031101", "9001232025031001"));
    let done = graftspindle(&folder, &with_journal(IMPORT));
    assert!(done.status == 0 && done.fault.contains("not the one that the journal"), "{}", done.fault);
}

/// Several at once: each line begins where the one before it ended, and nothing is doubtful.
#[test]
fn lines_are_in_the_order_of_the_imports() {
    let folder = ready();
    let mut running = Vec::new();
    for i in 0..6 {
        let line = sample::line(i + 1).replacen("900123", &format!("90020{i}"), 1);
        let mut hgv = sample::hgv_of(&[line]);
        hgv[1..7].copy_from_slice(format!("90020{i}").as_bytes());
        hgv[16..22].copy_from_slice(format!("90020{i}").as_bytes());
        folder.write(&format!("hgv{i}"), &hgv);
        folder.write(&format!("rows{i}"), format!("{:<14}061690020{i}", "979900").as_bytes());
        let line = IMPORT.replace("@hgv", &format!("@hgv{i}")).replace("@hgc", &format!("@hgc{i}"));
        let line = with_journal(&line.replace("@rows", &format!("@rows{i}")));
        let mut command = std::process::Command::new(program());
        command.args(words(&folder, &line)).stdout(Stdio::piped()).stderr(Stdio::piped());
        running.push(command.spawn().expect("it starts"));
    }
    for done in running {
        let done = ran(done.wait_with_output().expect("it ends"));
        assert!(done.status == 0 && !done.fault.contains("journal"), "{}", done.fault);
    }
    let lines = lines(&folder);
    assert_eq!(lines.len(), 6);
    for pair in lines.windows(2) {
        assert_eq!(text(&pair[0], "after"), text(&pair[1], "before"));
        assert_ne!(text(&pair[0], "before"), text(&pair[0], "after"));
    }
    let last = digest::of(&folder.read("register")).to_string();
    assert_eq!(text(&lines[5], "after"), Some(last.as_str()));
}

/// A register that grew has its line too, so that the next import knows it.
#[test]
fn line_of_a_larger_register() {
    let folder = ready();
    assert_eq!(graftspindle(&folder, &with_journal(IMPORT)).status, 0);
    assert_eq!(graftspindle(&folder, "register grow --journal @journal --slots 12 @register").status, 0);
    folder.write("hgv", &hgv_of("2025031101", "9001232025031001"));
    assert_eq!(graftspindle(&folder, &with_journal(IMPORT)).fault, "");
}

/// Those who find no journal in the same moment all get it.
#[test]
fn begun_together() {
    for _ in 0..100 {
        let folder = Folder::new();
        let (path, together) = (folder.path("journal"), Barrier::new(8));
        let open = || {
            together.wait();
            Journal::open(&path).map(|_| ())
        };
        let opened: Vec<_> = thread::scope(|scope| {
            let all: Vec<_> = (0..8).map(|_| scope.spawn(open)).collect();
            all.into_iter().map(|one| one.join().expect("it ends")).collect()
        });
        assert!(opened.iter().all(Result::is_ok), "{opened:?}");
    }
}
