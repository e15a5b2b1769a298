//! What the operator asks for beside the work itself: help, versions, checks, lists, other forms of answers.

use crate::common::*;
use crate::steps::{faulty, run, Fate};
use graftspindle::sizes::SLOT;
use graftspindle_checks::sample;
use graftspindle_cli::files::{lock, Place};
use std::process::Command;

fn said(folder: &Folder, line: &str) -> String {
    let done = graftspindle(folder, line);
    assert_eq!((done.status, done.fault.as_str()), (0, ""), "{line}");
    done.said
}

#[test]
fn versions_and_help() {
    let folder = ready();
    assert_eq!(said(&folder, "--version"), format!("graftspindle {}\n", env!("CARGO_PKG_VERSION")));
    let help = said(&folder, "import --help");
    for line in ["import -h", "help import", "-h import", "import @hgv -h --hgc"] {
        assert_eq!(said(&folder, line), help, "{line}");
    }
    assert_eq!(said(&folder, "help register show"), said(&folder, "register show -h"));
    assert_eq!(said(&folder, "help"), said(&folder, "lookup --help"));
    assert_eq!(graftspindle(&folder, "help export").status, 1);
    assert!(
        help.contains("--wait SECONDS") && help.contains("How long another command that holds the file is waited for")
    );
}

#[test]
fn options_with_a_sign() {
    let folder = ready();
    let line = IMPORT.replace("--mode incremental", "--mode=incremental").replace("--received ", "--received=");
    assert_eq!(graftspindle(&folder, &line.replace("--hgc @hgc", "--hgc= @hgc")).status, 1);
    assert_eq!(graftspindle(&folder, &line.replace("--hgc @hgc", "--force=yes --hgc @hgc")).status, 1);
    let hgc = format!("--hgc={}", folder.text("hgc"));
    assert_eq!(graftspindle(&folder, &line.replace("--hgc @hgc", &hgc)).status, 0);
    assert!(both(&folder) == imported());
}

/// Four lines, of which one is faulty.
#[test]
fn totals_by_reason() {
    let folder = ready();
    let told = said(&folder, IMPORT);
    assert_eq!(told.lines().last(), Some("rejected 12: miscellaneous: 1"));
    let read = said(&folder, "read-back --rejected @hgv @hgc");
    assert_eq!(read.lines().count(), 2);
    assert!(read.starts_with("    4  ") && read.ends_with("\ntaken 3, rejected 1\n"));
}

#[test]
fn answers_as_json() {
    let folder = ready();
    let out = folder.text("hgc");
    let told = said(&folder, &format!("{IMPORT} --json"));
    let reasons = "\"reasons\":[{\"reason\":12,\"lines\":1}]";
    let clocks = "\"reception\":\"20250310050000\",\"offset\":\"+00:00\",\"shown\":\"20250310050000\"";
    assert_eq!(told, format!("{{\"status\":0,\"taken\":3,\"rejected\":1,{reasons},{clocks},\"hgc\":\"{out}\"}}\n"));
    let pan = sample::pan(3);
    let told = said(&folder, "read-back --rejected --json @hgv @hgc");
    let line = format!("{{\"line\":4,\"pan\":\"{pan}\",\"plate\":\"GS0003\",\"reason\":12}}");
    assert_eq!(told, format!("{{\"status\":0,\"taken\":3,\"rejected\":1,\"lines\":[{line}]}}\n"));
    for line in [
        "register show --json @register",
        "register list --json @register",
        "register check --json @register",
        "register recover --json @register",
        "register grow --json --slots 8 @register",
        "sweep --json --dry-run @register",
        "sweep --json @register",
        "register new --json --slots 1 @fresh",
        "lookup plate --json --register @register GS0001 DE",
        "--version --json",
        "help import --json",
    ] {
        let told = said(&folder, line);
        assert!(told.starts_with("{\"status\":0,\"") && told.ends_with("}\n"), "{line}: {told}");
        assert_eq!(told.lines().count(), 1, "{line}");
    }
    let done = graftspindle(&folder, "lookup pan --json --register @register 1");
    assert_eq!(done.status, 41);
    assert!(done.said.starts_with("{\"status\":41,\"words\":\"no record fits: PAN 1 in "), "{}", done.said);
    assert_eq!(done.fault.lines().count(), 1);
}

/// Quotes, backslashes and control characters of a name.
#[test]
fn json_of_any_name() {
    let folder = Folder::new();
    let mut command = Command::new(program());
    let name = folder.path("a\"b\\c\nd");
    let done = ran(command.args(["register", "show", "--json"]).arg(name).output().expect("it runs"));
    assert!(done.said.contains("a\\\"b\\\\c\\u000ad"), "{}", done.said);
    assert_eq!((done.status, done.said.lines().count()), (1, 1));
}

#[test]
fn standard_input_and_output() {
    let folder = ready();
    let hgv = folder.read("hgv");
    assert_eq!(fed(&folder, &IMPORT.replace("@hgv", "-"), &hgv).status, 0);
    assert!(both(&folder) == imported());
    assert_eq!(fed(&folder, "read-back - @hgc", &hgv).said, said(&folder, "read-back @hgv @hgc"));
    assert_eq!(fed(&folder, "read-back - -", &hgv).status, 1);
    let refused = fed(&folder, &IMPORT.replace("@hgv", "-"), b"short");
    assert!(refused.status == 25 && refused.fault.contains("standard input has 5 bytes"), "{}", refused.fault);
    let ait = std::fs::read(AIT).expect("the demo has it");
    let rows = fed(&folder, "issuers from-ait --issuers - -", &ait);
    assert_eq!((rows.status, rows.said.len()), (0, 3 * 24));
    let before = folder.all();
    let refused = graftspindle(&folder, &IMPORT.replace("@hgc", "-"));
    assert!(refused.status == 1 && refused.fault.contains("stand or fall together"), "{}", refused.fault);
    assert!(folder.all() == before && !exists(&folder, "-"));
}

#[test]
fn check() {
    let folder = ready();
    let line = "register check @register";
    assert!(said(&folder, line).contains("in order") && said(&folder, line).contains("nobody holds it"));
    assert_eq!(folder.all().len(), 4, "nothing is made");
    let held = lock::take(&Place::at(folder.path("register")), None).expect("it is free");
    folder.write("register.graftspindle-new", b"on its way");
    assert!(said(&folder, line).contains(&format!("process {}", std::process::id())));
    drop(held);
    let done = graftspindle(&folder, line);
    assert!(done.status == 3 && done.fault.contains("before it counts"), "{}", done.fault);
    folder.write("register", b"1");
    assert_eq!(graftspindle(&folder, line).status, 23);
    assert!(exists(&folder, "register.graftspindle-new"), "nothing is changed");
}

/// An import that was stopped after it counts: check says what is owed and leaves it.
#[test]
fn check_of_what_is_owed() {
    let (new, mut owed) = (imported().0, 0);
    for step in 0..40 {
        let folder = ready();
        let done = run(&faulty(step, Fate::Stop), &folder, IMPORT);
        if folder.read("register") != new || !exists(&folder, "register.graftspindle-note") {
            continue;
        }
        let before = folder.all();
        let told = graftspindle(&folder, "register check @register");
        assert!(told.status == 3 && told.fault.contains("is still owed") && done.is_err(), "{}", told.fault);
        assert!(folder.all() == before);
        owed += 1;
    }
    assert!(owed > 1);
}

#[test]
fn grow() {
    let folder = ready();
    let before = folder.read("register");
    let status = |line: &str| graftspindle(&folder, line).status;
    assert_eq!(status("register grow --slots 7 @register"), 1);
    assert_eq!(status("register grow --slots 8193 @register"), 1);
    assert_eq!(folder.read("register"), before);
    assert!(said(&folder, "register grow --slots 20 @register").starts_with("20 slots in "));
    assert_eq!(folder.read("register"), [before, vec![0; 12 * SLOT]].concat());
    folder.write("register", b"1");
    assert_eq!(status("register grow --slots 20 @register"), 23);
}

#[test]
fn list() {
    let folder = ready();
    assert_eq!(graftspindle(&folder, IMPORT).status, 0);
    let mut register = folder.read("register");
    register[SLOT + 100..SLOT + 114].copy_from_slice(b"20250310050000");
    folder.write("register", &register);
    let told = said(&folder, "register list --at 20250310050000 @register");
    let lines: Vec<&str> = told.lines().collect();
    assert_eq!((lines.len(), lines[0]), (4, "slot,actor,pan,plate,nationality,context_mark,obe,end,active"));
    let (pan, zeros) = (sample::pan(0), "0".repeat(14));
    assert_eq!(lines[1], format!("0,900123,{pan},GS0000,DE,000000000000,000000000000000000,{zeros},true"));
    assert!(lines[2].ends_with(",20250310050000,false"));
    assert_eq!(graftspindle(&folder, "register list --at 2025 @register").status, 22);
}
