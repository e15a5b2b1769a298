//! The real command, killed or failed at each of its system calls by strace: `host/kills`. Without strace they say so.

use crate::common::*;
use std::process::Command;

/// The calls of an import that touch files.
const CALLS: [&str; 16] = [
    "openat",
    "read",
    "write",
    "close",
    "fsync",
    "rename",
    "unlink",
    "fchmod",
    "fchown",
    "flock",
    "statx",
    "newfstatat",
    "lseek",
    "readlink",
    "munmap",
    "exit_group",
];

/// Those before and after which something is different.
const CHANGING: [&str; 4] = ["write", "fsync", "rename", "unlink"];

/// Those at which a next start is killed.
const NEXT: [&str; 7] = ["openat", "close", "flock", "write", "fsync", "rename", "unlink"];

const SHOW: &str = "register show @register";

/// More than any of them is called.
const OFTEN: u32 = 400;

/// The command with one call of it changed, and whether it came to that call.
fn traced(folder: &Folder, change: &str, line: &str) -> (Ran, bool) {
    let trace = folder.path("trace");
    let mut command = Command::new("strace");
    command.args(["-f", "-e", "trace=all", "-e", &format!("inject={change}"), "-o"]).arg(&trace).arg(program());
    let done = ran(command.args(words(folder, line)).output().expect("strace runs"));
    let told = String::from_utf8_lossy(&folder.read("trace")).into_owned();
    std::fs::remove_file(trace).expect("it is there");
    (done, told.contains("INJECTED") || told.contains("killed by SIGKILL"))
}

fn is_there() -> bool {
    let there =
        Command::new("strace").args(["-o", "/dev/null", "true"]).output().is_ok_and(|done| done.status.success());
    if !there {
        println!("no strace that may trace on this machine");
    }
    there
}

/// Whether both are new after the next start; never one alone, and nothing is left over.
fn is_new(folder: &Folder, new: &Both, what: &str) -> bool {
    let done = graftspindle(folder, SHOW);
    assert!(done.status == 0 && !done.fault.contains("still"), "{what}: {}", done.fault);
    let found = both(folder);
    assert!(found == both(&ready()) || found == *new, "{what}: one is old and one is new");
    assert_eq!(folder.all().len(), 4, "{what}: left over {:?}", folder.all());
    found == *new
}

#[test]
#[ignore = "host/kills runs it"]
fn killed_at_each_call() {
    if !is_there() {
        return;
    }
    let (new, mut seen) = (imported(), [0, 0]);
    for call in CALLS {
        for when in 1..OFTEN {
            let (folder, change) = (ready(), format!("{call}:signal=SIGKILL:when={when}"));
            let (_, reached) = traced(&folder, &change, IMPORT);
            seen[usize::from(is_new(&folder, &new, &change))] += u32::from(reached);
            if !reached {
                break;
            }
        }
    }
    println!("{} kills at system calls; both old {} times, both new {} times", seen[0] + seen[1], seen[0], seen[1]);
    assert!(seen[0] > 20 && seen[1] > 10);
}

/// The import killed at this call, and the next start at each of its own; false where the import does not come to the call.
fn kill_next_starts(change: &str, new: &Both, seen: &mut [u32; 2]) -> bool {
    for next in NEXT {
        for when in 1..OFTEN {
            let (folder, then) = (ready(), format!("{next}:signal=SIGKILL:when={when}"));
            if !traced(&folder, change, IMPORT).1 {
                return false;
            }
            if !traced(&folder, &then, SHOW).1 {
                break;
            }
            seen[usize::from(is_new(&folder, new, &format!("{change}, {then}")))] += 1;
        }
    }
    true
}

#[test]
#[ignore = "host/kills runs it"]
fn next_start_killed_at_each_call() {
    if !is_there() {
        return;
    }
    let (new, mut seen) = (imported(), [0, 0]);
    for call in CHANGING {
        let change = |when: u32| format!("{call}:signal=SIGKILL:when={when}");
        let _ = (1..OFTEN).take_while(|&when| kill_next_starts(&change(when), &new, &mut seen)).count();
    }
    println!("{} second kills; both old {} times, both new {} times", seen[0] + seen[1], seen[0], seen[1]);
    assert!(seen[0] > 20 && seen[1] > 20);
}

/// Each call that touches files fails once: the status tells what counts.
#[test]
#[ignore = "host/kills runs it"]
fn failed_at_each_call() {
    if !is_there() {
        return;
    }
    let (new, mut seen) = (imported(), [0, 0, 0]);
    for (call, fault) in CALLS.into_iter().flat_map(|call| ["EIO", "ENOSPC", "EACCES"].map(|fault| (call, fault))) {
        for when in 1..OFTEN {
            let (folder, change) = (ready(), format!("{call}:error={fault}:when={when}"));
            let (done, reached) = traced(&folder, &change, IMPORT);
            if !reached || call == "exit_group" {
                break;
            }
            let counts = is_new(&folder, &new, &change);
            // 127 is the loader's, before the command begins.
            assert!(matches!(done.status, 0 | 1 | 2 | 127), "{change}: {}, {}", done.status, done.fault);
            assert_eq!(counts, matches!(done.status, 0 | 2), "{change}: {}, {}", done.status, done.fault);
            seen[(done.status as usize).min(2)] += u32::from(done.status < 3);
        }
    }
    println!(
        "{} calls failed: status 0 {} times, 1 {} times, 2 {} times",
        seen.iter().sum::<u32>(),
        seen[0],
        seen[1],
        seen[2]
    );
    assert!(seen.iter().all(|&count| count > 5));
}
