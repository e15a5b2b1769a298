//! Streams that take nothing, or end early: never a panic, and the status stays what it is.

use crate::common::*;
use graftspindle::sizes::SLOT;
use graftspindle_checks::sample;
use std::process::{Command, Stdio};

/// The command with its streams as the shell's words say.
fn redirected(folder: &Folder, streams: &str, line: &str) -> Ran {
    let mut command = Command::new("sh");
    command.args(["-c", &format!("\"$0\" \"$@\" {streams}"), program()]).args(words(folder, line));
    ran(command.output().expect("a shell"))
}

#[test]
fn error_stream_that_takes_nothing() {
    let folder = ready();
    folder.write("short", b"0");
    let refused = IMPORT.replace("@hgv", "@short");
    for streams in ["2>/dev/full", "2>&-"] {
        assert_eq!(redirected(&folder, streams, &refused).status, 25, "{streams}");
        assert_eq!(redirected(&folder, streams, "register show @gone").status, 1, "{streams}");
        folder.write("register.graftspindle-note", b"not a whole note");
        assert_eq!(redirected(&folder, streams, "register show @register").status, 0, "{streams}");
        std::fs::remove_file(folder.path("register.graftspindle-note")).expect("it is there");
    }
}

/// A reader that has seen enough.
#[test]
fn pipe_that_closes_early() {
    let folder = ready();
    folder.write("register", &[0; SLOT * 8192]);
    folder.write("hgv", &sample::hgv(8192));
    assert_eq!(graftspindle(&folder, IMPORT).status, 0);
    let mut command = Command::new(program());
    command.args(words(&folder, "read-back @hgv @hgc")).stdout(Stdio::piped()).stderr(Stdio::piped());
    let mut child = command.spawn().expect("it starts");
    drop(child.stdout.take());
    let done = ran(child.wait_with_output().expect("it ends"));
    assert_eq!((done.status, done.fault.as_str()), (0, ""));
}

/// What counts although nobody heard of it.
#[test]
fn output_that_takes_nothing() {
    let folder = ready();
    let done = redirected(&folder, ">/dev/full", IMPORT);
    assert_eq!(done.status, 2);
    assert!(done.fault.contains("done, but standard output took no answer"), "{}", done.fault);
    assert!(both(&folder) == imported());
}
