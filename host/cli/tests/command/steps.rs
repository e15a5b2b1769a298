//! A disk that stops or fails at one of its steps; the command on it; and the next start on a sound one.

use crate::common::*;
use crate::hooked::Hooked;
use graftspindle::sizes::SLOT;
use graftspindle_cli::command;
use graftspindle_cli::files::Disk;
use std::cell::Cell;
use std::ffi::OsString;
use std::io;

/// What happens at the step.
#[derive(Clone, Copy, PartialEq)]
pub enum Fate {
    /// The process ends: neither this step nor any later one is done, a file being written is there in part.
    Stop,
    /// The disk is full for this one step.
    Full,
}

/// A disk on which so many steps go well.
pub fn faulty(steps: usize, fate: Fate) -> impl Disk {
    let left = Cell::new(steps);
    Hooked(move || {
        if left.get() > 0 {
            left.set(left.get() - 1);
            return Ok(());
        }
        if fate == Fate::Full {
            left.set(usize::MAX);
        }
        Err(io::Error::from(io::ErrorKind::StorageFull))
    })
}

pub fn run(disk: &dyn Disk, folder: &Folder, line: &str) -> Result<String, String> {
    let given: Vec<OsString> = words(folder, line).into_iter().map(OsString::from).collect();
    command::run(disk, &given).map(|told| told.text).map_err(|refusal| refusal.line())
}

/// The command stopped or failing at each step; `after` looks at the folder. How many steps there are.
pub fn at_each_step(fate: Fate, line: &str, after: impl Fn(&Folder, Result<String, String>)) -> usize {
    at_each_step_of(fate, line, |_| (), after)
}

/// The same in a folder that has more.
pub fn at_each_step_of(
    fate: Fate,
    line: &str,
    prepare: impl Fn(&Folder),
    after: impl Fn(&Folder, Result<String, String>),
) -> usize {
    for step in 0..60 {
        let (folder, disk) = (ready(), faulty(step, fate));
        prepare(&folder);
        let answer = run(&disk, &folder, line);
        let done = answer.is_ok();
        after(&folder, answer);
        if done {
            return step;
        }
    }
    panic!("{line} has no end")
}

/// What the next start is: any command on the register.
const STARTS: [&str; 2] = ["register show @register", "lookup plate --register @register GS0000 DE"];

#[test]
fn stopped_import() {
    let new = imported();
    for start in STARTS {
        let (old_seen, new_seen) = (Cell::new(0), Cell::new(0));
        let steps = at_each_step(Fate::Stop, IMPORT, |folder, answer| {
            assert_eq!(graftspindle(folder, start).status, 0);
            let found = both(folder);
            assert!(found == both(&ready()) || found == new, "{answer:?}");
            assert_eq!(folder.all().len(), 4, "left over: {:?}", folder.all());
            let seen = if found == new { &new_seen } else { &old_seen };
            seen.set(seen.get() + 1);
        });
        println!("{steps} steps: {} stops old, {} new", old_seen.get(), new_seen.get());
        assert!(old_seen.get() > 5 && new_seen.get() > 2);
    }
}

/// A start that is refused finishes or undoes all the same, as soon as it holds the register.
#[test]
fn next_import_refused() {
    let new = imported();
    at_each_step(Fate::Stop, IMPORT, |folder, _| {
        folder.write("short", b"0");
        let line = "import --register @register --issuers @rows --mode full --hgc @other @short";
        assert_eq!(graftspindle(folder, line).status, 25);
        let found = both(folder);
        assert!(found == both(&ready()) || found == new);
        assert_eq!(folder.all().len(), 5);
    });
}

#[test]
fn full_disk() {
    let new = imported();
    let before = ready().all();
    at_each_step(Fate::Full, IMPORT, |folder, answer| match answer {
        Ok(_) => assert!(both(folder) == new),
        Err(fault) if fault.starts_with("2: ") => {
            assert_eq!(folder.read("register"), new.0);
            assert_eq!(graftspindle(folder, STARTS[0]).status, 0);
            assert!(both(folder) == new);
        }
        Err(fault) => {
            assert!(fault.starts_with("1: "), "{fault}");
            assert!(folder.all() == before, "{fault}");
        }
    });
}

#[test]
fn update_of_a_copy() {
    let prepared = || {
        let folder = ready();
        assert_eq!(graftspindle(&folder, IMPORT).status, 0);
        folder
    };
    let line = "update --copy @register --mode incremental @hgv @hgc";
    let (before, folder) = (prepared().all(), prepared());
    assert_eq!(graftspindle(&folder, line).status, 0);
    let after = folder.all();
    for fate in [Fate::Stop, Fate::Full] {
        for step in 0..8 {
            let (folder, disk) = (prepared(), faulty(step, fate));
            let done = run(&disk, &folder, line).is_ok();
            assert_eq!(graftspindle(&folder, STARTS[0]).status, 0);
            let found = folder.all();
            assert!(found == after || found == before && !done, "step {step}");
        }
    }
}

#[test]
fn new_register_and_rows() {
    let from_ait = format!("issuers from-ait --issuers @fresh {AIT}");
    for line in ["register new --slots 3 @fresh", &from_ait] {
        at_each_step(Fate::Full, line, |folder, answer| {
            assert_eq!(exists(folder, "fresh"), answer.is_ok() || answer.is_err_and(|f| f.contains("counts as")));
            assert!(!exists(folder, "fresh.graftspindle-new"));
        });
    }
}

/// A register that grows, and rows that are replaced: as before or as after, and the next run leaves nothing over.
#[test]
fn grown_register_and_replaced_rows() {
    let grow = "register grow --slots 12 @register";
    let old = ready().read("register");
    at_each_step(Fate::Stop, grow, |folder, answer| {
        assert_eq!(graftspindle(folder, STARTS[0]).status, 0);
        let found = folder.read("register");
        assert!(found == [old.clone(), vec![0; 4 * SLOT]].concat() || found == old && answer.is_err());
        assert_eq!(folder.all().len(), 4, "left over: {:?}", folder.all());
    });
    let from_ait = format!("issuers from-ait --issuers @rows {AIT}");
    let before = ready().read("rows");
    at_each_step(Fate::Stop, &from_ait, |folder, answer| {
        let found = folder.read("rows");
        assert!(found.len() == 3 * 24 || found == before && answer.is_err());
        assert_eq!(graftspindle(folder, &from_ait).status, 0);
        assert_eq!((folder.read("rows").len(), folder.all().len()), (3 * 24, 4));
    });
}
