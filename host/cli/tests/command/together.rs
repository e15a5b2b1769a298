//! Several imports of one register at once.

use crate::common::*;
use graftspindle::sizes::SLOT;
use graftspindle_checks::sample;
use std::process::{Child, Command, Stdio};

const IMPORTS: usize = 8;

/// An HGV with one line of the sample, a PAN of its own.
fn hgv_of(line: usize) -> Vec<u8> {
    let mut hgv = sample::hgv(1);
    hgv[128..256].copy_from_slice(sample::line(line).as_bytes());
    hgv
}

fn start(folder: &Folder, i: usize) -> Child {
    let line = format!(
        "import --register @register --issuers @rows --mode incremental --received 20250310050000 --hgc @hgc{i} @hgv{i}"
    );
    let mut command = Command::new(program());
    command.args(words(folder, &line)).stdout(Stdio::null()).stderr(Stdio::piped());
    command.spawn().expect("it starts")
}

#[test]
fn all_succeed_one_after_the_other() {
    let folder = Folder::new();
    folder.write("register", &[0; SLOT * IMPORTS]);
    folder.write("rows", &sample::row());
    (0..IMPORTS).for_each(|i| folder.write(&format!("hgv{i}"), &hgv_of(i)));
    let running: Vec<Child> = (0..IMPORTS).map(|i| start(&folder, i)).collect();
    for child in running {
        let done = ran(child.wait_with_output().expect("it ends"));
        let waited = |line: &str| line.starts_with("graftspindle: waiting for ");
        assert!(done.status == 0 && done.fault.lines().all(waited), "{}", done.fault);
    }
    let register = folder.read("register");
    let mut held: Vec<&[u8]> = register.chunks(SLOT).collect();
    held.sort();
    assert_eq!(held, (0..IMPORTS).map(|i| sample::slot(sample::line(i))).collect::<Vec<_>>());
    (0..IMPORTS).for_each(|i| assert_eq!(folder.read(&format!("hgc{i}")).len(), 174));
}

/// Each keeps the HGC on its way under a name of its own.
#[test]
fn one_hgc_for_two_registers() {
    let folder = ready();
    folder.write("other", &folder.read("register"));
    let line = IMPORT.replace("@register", "@other");
    let start = |line: &str| Command::new(program()).args(words(&folder, line)).stdout(Stdio::null()).spawn();
    let running = [start(IMPORT), start(&line)].map(|child| child.expect("it starts"));
    running.into_iter().for_each(|mut child| assert!(child.wait().expect("it ends").success()));
    let new = imported();
    assert_eq!((folder.read("register"), folder.read("other")), (new.0.clone(), new.0));
    assert_eq!(folder.read_if_there("hgc"), new.1);
}
