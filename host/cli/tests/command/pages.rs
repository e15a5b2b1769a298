//! The manual page, the completions and the README name every command and option that there is.

use crate::common::*;
use graftspindle_checks::sample;
use std::path::Path;
use std::process::Command;

fn said(line: &str) -> String {
    let done = graftspindle(&Folder::new(), line);
    assert_eq!((done.status, done.fault.as_str()), (0, ""), "{line}");
    done.said
}

/// The usages, each without the program's name.
fn usages() -> Vec<String> {
    let help = said("--help");
    let usages = help.lines().filter_map(|line| line.strip_prefix("  graftspindle "));
    usages.map(str::to_string).collect()
}

/// `--wait` of `[--wait SECONDS]`.
fn options(usage: &str) -> Vec<&str> {
    usage.split([' ', '[', ']']).filter(|word| word.starts_with("--")).collect()
}

#[test]
fn manual_page() {
    let page = said("manual");
    let unescaped = page.replace("\\-", "-");
    for usage in usages() {
        assert!(unescaped.contains(&format!(".TP\n.B {usage}\n")), "{usage}");
        options(&usage).iter().for_each(|option| assert!(unescaped.contains(&format!("\n.B {option}")), "{option}"));
    }
    for status in (0..=4).chain(21..=36).chain(40..=42).chain(51..=53).chain(61..=63) {
        assert!(page.contains(&format!("\n.B {status}\n")), "{status}");
    }
    assert!(page.lines().all(|line| !line.starts_with('\'')));
}

fn page(name: &str) -> String {
    let path = Path::new(env!("CARGO_MANIFEST_DIR")).join("../..").join(name);
    std::fs::read_to_string(path).expect("it is there")
}

fn readme() -> String {
    page("README.md")
}

#[test]
fn readme_has_the_usages() {
    for usage in usages() {
        assert!(readme().contains(&format!("    graftspindle {usage}\n")), "{usage}");
    }
}

/// The first block of a page that begins with these words, without its indent.
fn block(page: &str, begin: &str) -> String {
    let lines = page.lines().skip_while(|line| !line.starts_with(&format!("    {begin}")));
    lines.map_while(|line| line.strip_prefix("    ")).map(|line| format!("{line}\n")).collect()
}

#[test]
fn sample_of_the_readme() {
    let folder = Folder::new();
    folder.write("hgv", block(&readme(), "0900123").as_bytes());
    for line in [
        &format!("issuers from-ait --issuers @rows {AIT}"),
        "register new --slots 4 @register",
        "import --register @register --issuers @rows --mode incremental --hgc @hgc @hgv",
    ] {
        assert_eq!(graftspindle(&folder, line).status, 0, "{line}");
    }
    assert_eq!(graftspindle(&folder, "read-back @hgv @hgc").said, block(&readme(), "    1  9799"));
}

/// What bash offers behind these words, the last of which is not whole.
fn offered(words: &[&str]) -> Vec<String> {
    let script = said("completions bash");
    let line: Vec<String> = ["graftspindle"].iter().chain(words).map(|word| format!("'{word}'")).collect();
    let ask = format!("COMP_WORDS=({}); COMP_CWORD={}; _graftspindle", line.join(" "), words.len());
    let script = format!("{script}{ask}; printf '%s\\n' \"${{COMPREPLY[@]}}\"");
    let done = ran(Command::new("bash").args(["-c", &script]).output().expect("bash runs"));
    assert_eq!((done.status, done.fault.as_str()), (0, ""));
    done.said.lines().map(str::to_string).collect()
}

#[test]
fn completions_of_bash() {
    if Command::new("bash").arg("--version").output().is_err() {
        println!("no bash on this machine");
        return;
    }
    assert_eq!(offered(&["imp"]), ["import"]);
    assert_eq!(offered(&["lookup", ""]), ["pan", "plate"]);
    assert_eq!(offered(&["import", "--mode", ""]), ["incremental", "full"]);
    assert_eq!(offered(&["import", "--re"]), ["--register", "--received"]);
    assert_eq!(offered(&["register", "check", "--w"]), [""]);
    for usage in usages() {
        let name: Vec<&str> =
            usage.split(' ').take_while(|word| word.chars().all(|c| c.is_ascii_lowercase() || c == '-')).collect();
        let name: Vec<&str> = name.into_iter().filter(|word| !word.starts_with("--")).collect();
        let all = offered(&[&name[..], &["--"]].concat());
        for option in options(&usage).into_iter().chain(["--json", "--help"]) {
            assert!(all.iter().any(|offered| offered == option), "{usage}: {option}");
        }
    }
}

#[test]
fn completions_of_the_others() {
    let (zsh, fish) = (said("completions zsh"), said("completions fish"));
    assert!(zsh.starts_with("autoload") && zsh.ends_with(&said("completions bash")));
    for usage in usages() {
        for option in options(&usage) {
            assert!(fish.contains(&format!(" -l {} ", &option[2..])), "{option}");
        }
    }
    assert!(fish.contains("-l mode -x -a 'incremental full'"));
    assert_eq!(graftspindle(&Folder::new(), "completions tcsh").status, 1);
}

/// The page for the operator says of each status what to do.
#[test]
fn operating_has_each_status() {
    let page = page("docs/OPERATING.md");
    let cells = page.lines().filter_map(|line| line.strip_prefix("| ")?.split_once(" |"));
    let told: Vec<u64> =
        cells.flat_map(|(cell, _)| cell.split(", ")).filter_map(|number| number.parse().ok()).collect();
    let all: Vec<u64> = (0..=4).chain(21..=36).chain(40..=42).chain(51..=53).chain(61..=63).collect();
    for status in &all {
        assert_eq!(told.iter().filter(|known| *known == status).count(), 1, "{status}");
    }
    assert_eq!(told.len(), all.len());
}

/// The page's script: what is taken, refused and stopped goes where it says.
#[test]
fn script_of_operating() {
    let folder = ready();
    let script = block(&page("docs/OPERATING.md"), "#!/bin/sh").replace("/var/lib/graftspindle", &folder.text("."));
    for name in ["inbox", "outbox", "done", "refused"] {
        std::fs::create_dir(folder.path(name)).expect("a folder");
    }
    folder.write("inbox/a.hgv", &sample::hgv(2));
    folder.write("inbox/b-full.hgv", &sample::hgv(3));
    folder.write("inbox/c.hgv", b"short");
    let path = Path::new(program()).parent().expect("a folder").display().to_string();
    let run = || {
        let path = format!("{path}:{}", std::env::var("PATH").unwrap_or_default());
        ran(Command::new("sh").args(["-c", &script]).env("PATH", path).output().expect("a shell"))
    };
    assert_eq!(run().status, 0);
    for name in ["done/a.hgv", "done/b-full.hgv", "outbox/a.hgc", "outbox/b-full.hgc", "refused/c.hgv"] {
        assert!(exists(&folder, name), "{name}");
    }
    assert_eq!(String::from_utf8(folder.read("journal")).expect("UTF-8").lines().count(), 3);
    folder.write("inbox/d.hgv", &sample::hgv(1));
    folder.write("register.graftspindle-note", b"not a whole note");
    assert_eq!(run().status, 3);
    assert!(exists(&folder, "inbox/d.hgv"));
}
