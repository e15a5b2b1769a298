//! The accepted issuer table of the demo, made by the tables of AP-3.5, as issuer rows.

use crate::common::*;
use crate::hooked::Hooked;
use graftspindle_checks::plain;
use std::cell::{Cell, RefCell};
use std::ffi::OsString;
use std::process::Stdio;
use std::time::Duration;

pub const ROWS: &[u8] = b"97990012      081690012397990024      081690012495780007      0819900125";

fn ait() -> Vec<u8> {
    std::fs::read(AIT).expect("the demo has it")
}

fn from(ait: &[u8]) -> (Folder, Ran) {
    let folder = Folder::new();
    folder.write("ait", ait);
    let done = graftspindle(&folder, "issuers from-ait --issuers @rows @ait");
    (folder, done)
}

/// Two lines of the table differ in the context version alone: one row.
#[test]
fn rows_of_the_table() {
    let (folder, done) = from(&ait());
    assert_eq!((done.status, done.said.as_str(), done.fault.as_str()), (0, "3 rows\n", ""));
    assert_eq!(folder.read("rows"), ROWS);
    assert!(plain::rows::rows_right(ROWS));
}

fn with(from: usize, field: &[u8]) -> Vec<u8> {
    let mut changed = ait();
    changed[from - 1..from - 1 + field.len()].copy_from_slice(field);
    changed
}

#[test]
fn versions() {
    let (_, done) = from(&with(95, b"502401"));
    assert_eq!(done.status, 0);
    let (_, done) = from(&with(95, b"130001"));
    assert!(done.status == 1 && done.fault.contains("neither 500001 nor 502401"), "{}", done.fault);
}

#[test]
fn what_is_no_table() {
    let footer = 128 + 4 * 106 + 1;
    let wrong: [(Vec<u8>, &str); 9] = [
        (Vec::new(), "length"),
        (ait()[1..].to_vec(), "length"),
        (with(1, b"1"), "header lacks"),
        (with(128, b"\r"), "header lacks"),
        (with(14, b"HGV"), "does not begin with AIT"),
        (with(66, b"000000000000003"), "number of records"),
        (with(129 + 106, b"2"), "line 2 lacks"),
        (with(129 + 3 * 106 - 1, b"\r"), "line 3 lacks"),
        (with(footer, b"20001"), "footer"),
    ];
    for (ait, words) in wrong {
        let (folder, done) = from(&ait);
        assert_eq!((done.status, folder.all().len()), (1, 1), "{words}");
        assert!(done.fault.contains(words), "{}", done.fault);
    }
}

/// What the rows must be is judged by the proved import alone.
#[test]
fn rows_that_break_their_form() {
    for wrong in [with(129 + 15, b"05"), with(129 + 17, b"20"), with(129 + 22, b"90012X"), with(129 + 1, b"97 900")] {
        let (folder, done) = from(&wrong);
        assert_eq!((done.status, folder.all().len()), (24, 1));
        assert!(done.fault.contains("24: the issuer rows break their form"), "{}", done.fault);
    }
    let none = [&with(66, b"000000000000000")[..128], &ait()[128 + 4 * 106..]].concat();
    let (folder, done) = from(&none);
    assert_eq!((done.status, folder.read("rows").len()), (0, 0));
}

/// One run is about to rename what it wrote when another begins: both end well, and no reader sees less than a table.
#[test]
fn two_at_once() {
    let folder = Folder::new();
    let line = format!("issuers from-ait --issuers @rows {AIT}");
    let mut command = std::process::Command::new(program());
    command.args(words(&folder, &line)).stdout(Stdio::null());
    let (started, command) = (RefCell::new(None), RefCell::new(command));
    let steps = Cell::new(0);
    let disk = Hooked(|| {
        steps.set(steps.get() + 1);
        // A write has two steps, and the sync of its folder is the third.
        if steps.get() == 4 {
            *started.borrow_mut() = Some(command.borrow_mut().spawn()?);
            std::thread::sleep(Duration::from_millis(300));
        }
        Ok(())
    });
    let given: Vec<OsString> = words(&folder, &line).into_iter().map(OsString::from).collect();
    let first = graftspindle_cli::command::run(&disk, &given);
    assert!(first.is_ok(), "{:?}", first.err());
    assert_eq!(folder.read("rows"), ROWS);
    let mut second = started.take().expect("it was started");
    assert!(second.wait().expect("it ends").success());
    assert_eq!((folder.read("rows"), folder.all().len()), (ROWS.to_vec(), 1));
}
