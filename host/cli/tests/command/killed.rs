//! A real process that imports, killed before each of its steps on files.

use crate::common::*;
use crate::hooked::Hooked;
use graftspindle_cli::command;
use graftspindle_cli::files::Disk;
use std::cell::Cell;
use std::ffi::OsString;
use std::io::{BufRead, BufReader};
use std::process::{Child, Command, Stdio};
use std::time::Duration;

const STEP: &str = "GRAFTSPINDLE_TEST_STEP";
const LINE: &str = "GRAFTSPINDLE_TEST_LINE";
const WAITING: &str = "waiting to be killed";

/// A disk that says so before one of its steps and then waits.
fn waiting(step: usize) -> impl Disk {
    let left = Cell::new(step);
    Hooked(move || {
        if left.get() == 0 {
            println!("\n{WAITING}");
            std::thread::sleep(Duration::from_secs(60));
        }
        left.set(left.get().wrapping_sub(1));
        Ok(())
    })
}

/// Not a test by itself: the process that is killed. Without its step it has nothing to do.
#[test]
fn child() {
    let (Ok(step), Ok(line)) = (std::env::var(STEP), std::env::var(LINE)) else {
        return;
    };
    let given: Vec<OsString> = line.split(' ').map(OsString::from).collect();
    command::run(&waiting(step.parse().expect("a number")), &given).expect("an import that is not killed is done");
}

fn start(folder: &Folder, step: usize) -> Child {
    let mut child = Command::new(std::env::current_exe().expect("this program"));
    child.args(["--exact", "killed::child", "--nocapture"]);
    child.env(STEP, step.to_string()).env(LINE, words(folder, IMPORT).join(" "));
    child.stdout(Stdio::piped()).stderr(Stdio::null()).spawn().expect("it starts")
}

/// Whether the process came as far as the step, at which it was killed.
fn killed_at(folder: &Folder, step: usize) -> bool {
    let mut child = start(folder, step);
    let lines = BufReader::new(child.stdout.take().expect("piped")).lines();
    let reached = lines.map_while(Result::ok).any(|line| line == WAITING);
    if reached {
        child.kill().expect("it can be killed");
    }
    assert_eq!(child.wait().expect("it ends").success(), !reached);
    reached
}

#[test]
fn import_killed_at_each_step() {
    let (new, mut seen) = (imported(), [0, 0]);
    for step in 0..50 {
        let folder = ready();
        let reached = killed_at(&folder, step);
        assert_eq!(graftspindle(&folder, "register show @register").status, 0);
        let found = both(&folder);
        assert!(found == both(&ready()) || found == new, "killed at step {step}");
        assert_eq!(folder.all().len(), 4, "left over: {:?}", folder.all());
        seen[usize::from(found == new)] += 1;
        if !reached {
            break;
        }
        assert!(step < 49, "the import has no end");
    }
    println!("killed with both old {} times, with both new {} times", seen[0], seen[1]);
    assert!(seen[0] > 5 && seen[1] > 2);
}
