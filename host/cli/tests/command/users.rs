//! Several users of one register. Without the right to become another user these tests see less, and say so.

use crate::common::*;
use graftspindle_cli::files::{lock, Place};
use std::fs::{self, Permissions};
use std::io::{BufRead, BufReader};
use std::os::unix::fs::{chown, MetadataExt, PermissionsExt};
use std::os::unix::process::CommandExt;
use std::process::{Command, Stdio};
use std::time::{Duration, Instant};

/// A user that nobody is.
const NOBODY: u32 = 65533;

fn as_nobody(folder: &Folder, line: &str) -> Ran {
    let mut command = Command::new(program());
    ran(command.args(words(folder, line)).uid(NOBODY).gid(NOBODY).output().expect("the command runs"))
}

/// The folder and its register for a group; none where this is not root.
fn shared(mode: u32) -> Option<Folder> {
    let folder = ready();
    for name in [".", "register", "hgc", "rows", "hgv"] {
        if chown(folder.path(name), None, Some(NOBODY)).is_err() {
            println!("not root: there is no second user");
            return None;
        }
        fs::set_permissions(folder.path(name), Permissions::from_mode(0o664)).expect("we are root");
    }
    fs::set_permissions(folder.path("."), Permissions::from_mode(mode)).expect("we are root");
    Some(folder)
}

/// Files of an import at work, and its lock: one who may only read sees the register, and no alarm.
#[test]
fn reader_during_an_import() {
    let Some(folder) = shared(0o755) else { return };
    let show = "register show @register";
    let held = lock::take(&Place::at(folder.path("register")), None).expect("it is free");
    folder.write("register.graftspindle-new", b"on its way");
    let done = as_nobody(&folder, show);
    assert_eq!((done.status, done.fault.as_str()), (0, ""));
    drop(held);
    let done = as_nobody(&folder, show);
    assert!(done.status == 0 && done.fault.contains("left is still there"), "{}", done.fault);
}

/// One user made the lock; another of the group imports too.
#[test]
fn two_users_import() {
    let Some(folder) = shared(0o2775) else { return };
    assert_eq!(graftspindle(&folder, IMPORT).status, 0);
    let done = as_nobody(&folder, IMPORT);
    assert_eq!((done.status, done.fault.as_str()), (0, ""));
    assert_eq!(graftspindle(&folder, IMPORT).status, 0);
}

#[test]
fn owner_and_group_are_kept() {
    let folder = ready();
    for name in ["register", "hgc"] {
        if chown(folder.path(name), Some(1234), Some(2345)).is_err() {
            println!("not root: nothing can be given to another user");
            return;
        }
        fs::set_permissions(folder.path(name), Permissions::from_mode(0o640)).expect("we are root");
    }
    assert_eq!(graftspindle(&folder, IMPORT).status, 0);
    for name in ["register", "hgc"] {
        let known = fs::metadata(folder.path(name)).expect("it is there");
        assert_eq!((known.uid(), known.gid(), known.mode() & 0o777), (1234, 2345, 0o640), "{name}");
    }
}

/// What holds PANs is made for the owner and the group.
#[test]
fn new_files_are_not_for_all() {
    let folder = ready();
    fs::remove_file(folder.path("hgc")).expect("it is there");
    assert_eq!(graftspindle(&folder, IMPORT).status, 0);
    assert_eq!(graftspindle(&folder, "register new --slots 1 @fresh").status, 0);
    for name in ["hgc", "fresh"] {
        let mode = fs::metadata(folder.path(name)).expect("it is there").mode();
        assert_eq!(mode & 0o027, 0, "{name}: {mode:o}");
    }
}

#[test]
fn import_that_may_not_wait() {
    let folder = ready();
    let _held = lock::take(&Place::at(folder.path("register")), None).expect("it is free");
    for (seconds, least) in [("0", 0), ("1", 1)] {
        let began = Instant::now();
        let done = graftspindle(&folder, &IMPORT.replace("--hgc", &format!("--wait {seconds} --hgc")));
        assert_eq!(done.status, 4, "{}", done.fault);
        assert!(done.fault.contains("is in use by") && began.elapsed() >= Duration::from_secs(least));
        let us = format!("process {}", std::process::id());
        assert!(done.fault.contains(&us), "{}", done.fault);
    }
    assert!(both(&folder) == both(&ready()));
}

#[test]
fn import_that_waits_says_so() {
    let folder = ready();
    let held = lock::take(&Place::at(folder.path("register")), None).expect("it is free");
    let mut command = Command::new(program());
    command.args(words(&folder, IMPORT)).stdout(Stdio::null()).stderr(Stdio::piped());
    let mut child = command.spawn().expect("it starts");
    let mut lines = BufReader::new(child.stderr.take().expect("piped")).lines();
    let line = lines.next().expect("a line").expect("UTF-8");
    assert!(line.contains(&format!("waiting for process {}", std::process::id())), "{line}");
    drop(held);
    assert!(child.wait().expect("it ends").success() && lines.next().is_none());
    assert!(both(&folder) == imported());
}
