//! `sweep`: ended records go, from a register and from a copy, as before or as after whatever stops it.

use crate::common::*;
use crate::faults::limited;
use crate::steps::{at_each_step, at_each_step_of, Fate};
use graftspindle::sizes::{RECORD, SLOT};
use graftspindle_checks::sample::{self, line_until, slots};
use graftspindle_cli::audit::{number, text};
use graftspindle_cli::command::clock;
use graftspindle_cli::digest;
use graftspindle_cli::files::{lock, Place};
use std::process::{Command, Stdio};
use std::thread::sleep;
use std::time::Duration;

const SWEEP: &str = "sweep --at 20250401000000 @register";

/// The second before the time of `SWEEP`, the time, and the second after it.
const BEFORE: &str = "20250331235959";
const AT: &str = "20250401000000";
const AFTER: &str = "20250401000001";
const NO_END: &str = "00000000000000";

/// The same line as a record of another provider.
fn foreign(i: usize, end: &str) -> String {
    line_until(i, end).replacen("900123", "900124", 1)
}

/// Three records have ended by the time, and two have not.
fn records() -> [String; 5] {
    [line_until(0, BEFORE), line_until(1, NO_END), foreign(2, AT), foreign(3, AFTER), line_until(4, AT)]
}

fn register() -> Vec<u8> {
    [slots(records()), vec![0; SLOT]].concat()
}

fn swept() -> Vec<u8> {
    let [_, active, _, later, _] = records();
    [slots([active, later]), vec![0; 4 * SLOT]].concat()
}

fn put_register(folder: &Folder) {
    folder.write("register", &register());
}

fn holding() -> Folder {
    let folder = ready();
    put_register(&folder);
    folder
}

fn said(folder: &Folder, line: &str) -> String {
    let done = graftspindle(folder, line);
    assert_eq!((done.status, done.fault.as_str()), (0, ""), "{line}");
    done.said
}

const TOLD: &str = "swept at 20250401000000: removed 3, left 2\n\
                    where this is the road's register, every provider has to sweep his copy at 20250401000000 too, before he \
                    applies what comes after it\n";

#[test]
fn of_a_register() {
    let folder = holding();
    assert_eq!(said(&folder, SWEEP), TOLD);
    assert!(folder.read("register") == swept());
    assert_eq!(folder.all().len(), 4, "left over: {:?}", folder.all());
    assert_eq!(said(&folder, SWEEP), "swept at 20250401000000: removed 0, left 2\n");
    assert!(folder.read("register") == swept());
    let last = said(&folder, &SWEEP.replace(AT, AFTER));
    assert!(last.starts_with("swept at 20250401000001: removed 1, left 1\nwhere"), "{last}");
}

/// Both sides of an import, a sweep and another import: the copy is the provider's part of the register.
#[test]
fn of_a_copy() {
    let folder = ready();
    folder.write("register", &[0; 8 * SLOT]);
    folder.write("copy", &[0; 8 * SLOT]);
    let both_sides = |lines: &[String], received: &str| {
        folder.write("hgv", &sample::hgv_of(lines));
        said(&folder, &IMPORT.replace("20250310050000", received));
        said(&folder, "update --copy @copy --mode incremental @hgv @hgc");
    };
    both_sides(&[line_until(0, BEFORE), line_until(1, NO_END), line_until(2, AFTER)], "20250310050000");
    for name in ["@register", "@copy"] {
        assert!(said(&folder, &SWEEP.replace("@register", name)).contains(": removed 1, left 2\n"));
    }
    both_sides(&[line_until(0, NO_END), line_until(2, NO_END)], "20250402000000");
    assert!(folder.read("copy") == folder.read("register"));
    let told = said(&folder, "register list --at 20250402000000 @register");
    let pans: Vec<&str> = told.lines().skip(1).filter_map(|line| line.split(',').nth(2)).collect();
    assert_eq!(pans, [1, 2, 0].map(sample::pan), "the account that was swept comes behind the others");
}

/// It only reads: no lock, no file, and another may hold the register.
#[test]
fn dry_run() {
    let folder = holding();
    let line = SWEEP.replace("sweep", "sweep --dry-run");
    let before = folder.all();
    let told = "at 20250401000000: 3 would go and 2 be left; nothing is changed\n";
    assert_eq!(said(&folder, &line), told);
    assert!(folder.all() == before && !exists(&folder, "register.graftspindle-lock"));
    let _held = lock::take(&Place::at(folder.path("register")), None).expect("it is free");
    assert_eq!(said(&folder, &line), told);
    let json = said(&folder, &line.replace("--dry-run", "--dry-run --json"));
    let fields = "\"at\":\"20250401000000\",\"removed\":3,\"left\":2,\"active\":0,\"dry_run\":true";
    assert_eq!(json, format!("{{\"status\":0,{fields}}}\n"));
    for beside in ["--wait 1", "--journal @journal", "--force", "--wait 1 --journal @journal"] {
        let done = graftspindle(&folder, &format!("sweep --dry-run {beside} @register"));
        assert_eq!((done.status, done.said.as_str()), (1, ""), "{beside}");
        assert!(
            done.fault.contains("beside --dry-run neither --wait nor --journal nor --force is taken"),
            "{}",
            done.fault
        );
    }
    assert!(folder.all() == before);
}

/// A time to come: what is active now stays unless it is forced; what has ended goes by any time.
#[test]
fn time_that_lies_ahead() {
    let folder = ready();
    let records = [line_until(0, BEFORE), line_until(1, NO_END), line_until(2, "99991231235959")];
    let before = [slots(records.clone()), vec![0; SLOT]].concat();
    folder.write("register", &before);
    let line = "sweep --at 99991231235959 @register";
    let dry = said(&folder, &line.replace("sweep", "sweep --dry-run"));
    assert_eq!(dry, "at 99991231235959: 2 would go, 1 of them active now, and 1 be left; nothing is changed\n");
    assert!(said(&folder, &line.replace("sweep", "sweep --dry-run --json")).contains("\"active\":1,"));
    let done = graftspindle(&folder, line);
    assert_eq!((done.status, done.said.as_str()), (1, ""));
    assert!(done.fault.contains("1 record active now would go: the time lies ahead"), "{}", done.fault);
    assert!(folder.read("register") == before);
    let ended = said(&folder, &line.replace("99991231235959", "99991231235958"));
    assert!(ended.starts_with("swept at 99991231235958: removed 1, left 2\n"), "{ended}");
    let forced = said(&folder, &line.replace("sweep", "sweep --force"));
    assert!(forced.starts_with("swept at 99991231235959: removed 1, left 1\n"), "{forced}");
    assert!(folder.read("register") == [slots([records[1].clone()]), vec![0; 3 * SLOT]].concat());
}

#[test]
fn as_json() {
    let folder = holding();
    let told = said(&folder, &SWEEP.replace("sweep", "sweep --json"));
    assert_eq!(told, "{\"status\":0,\"at\":\"20250401000000\",\"removed\":3,\"left\":2,\"dry_run\":false}\n");
}

/// Refused with the number and these words in one line, and nothing is changed; by a dry run with the same words.
fn assert_refused(folder: &Folder, line: &str, status: i32, words: &str) {
    let before = folder.all();
    for line in [line.to_string(), line.replace("sweep", "sweep --dry-run")] {
        let done = graftspindle(folder, &line);
        assert_eq!((done.status, done.said.as_str()), (status, ""), "{line}: {}", done.fault);
        assert_eq!(done.fault, format!("graftspindle: {status}: {words}\n"));
        assert!(folder.all() == before, "{line}");
    }
}

#[test]
fn times_that_are_none() {
    let folder = holding();
    for time in ["20250230000000", "2025", "now", "00000000000000", "202504010000000"] {
        let words = format!("the time is not a real time YYYYMMDDhhmmss, or cannot have its offset: {time}");
        assert_refused(&folder, &SWEEP.replace(AT, time), 22, &words);
    }
    folder.write("register", b"1");
    assert_refused(
        &folder,
        "sweep --at 2025 @register",
        22,
        "the time is not a real time YYYYMMDDhhmmss, or cannot have its offset: 2025",
    );
}

#[test]
fn registers_that_are_not_in_order() {
    let folder = ready();
    let words = format!("the register or copy is not in order: {}", folder.text("register"));
    let [first, ..] = records();
    for register in [b"1".to_vec(), vec![b'0'; SLOT], slots([first.clone(), first.clone()]), register()[1..].to_vec()] {
        folder.write("register", &register);
        assert_refused(&folder, SWEEP, 23, &words);
    }
    let mut before = first.into_bytes();
    before.resize(8 * RECORD, 0);
    folder.write("register", &before);
    let stamp = "its length is that of 8 slots of 128 bytes, from before the stamp, which nobody can make up for them: begin a \
                 new register or copy (graftspindle register new --slots 8) with full lists";
    assert_refused(&folder, SWEEP, 23, &format!("{words}; {stamp}"));
}

/// Another holds the register: nothing is begun, and the line says who does.
#[test]
fn held_by_another() {
    let folder = holding();
    let before = folder.all();
    let held = lock::take(&Place::at(folder.path("register")), None).expect("it is free");
    let done = graftspindle(&folder, &SWEEP.replace("sweep", "sweep --wait 0"));
    assert_eq!((done.status, done.said.as_str()), (4, ""));
    assert!(done.fault.contains(&format!("is in use by process {}", std::process::id())), "{}", done.fault);
    assert!(folder.all() == before);
    drop(held);
    assert_eq!(said(&folder, &SWEEP.replace("sweep", "sweep --wait 0")), TOLD);
}

/// The present moment, unless another is given, and only once the register is held.
#[test]
fn present_moment() {
    let folder = holding();
    let held = lock::take(&Place::at(folder.path("register")), None).expect("it is free");
    let mut command = Command::new(program());
    command.args(words(&folder, "sweep --json @register")).stdout(Stdio::piped()).stderr(Stdio::piped());
    let waiting = command.spawn().expect("it starts");
    sleep(Duration::from_millis(1500));
    let released = clock::now();
    drop(held);
    let done = ran(waiting.wait_with_output().expect("it ends"));
    assert_eq!(done.status, 0, "{}", done.fault);
    let at = text(&done.said, "at").expect("a time").as_bytes().to_vec();
    assert!((released..=clock::now()).contains(&at), "{}", done.said);
    assert_eq!(number(&done.said, "removed"), Some(4), "{}", done.said);
}

/// Stopped or failing at each step: as before or as after, and the next command leaves nothing over.
#[test]
fn at_each_step_of_a_sweep() {
    for fate in [Fate::Stop, Fate::Full] {
        let steps = at_each_step_of(fate, SWEEP, put_register, |folder, answer| {
            assert_eq!(graftspindle(folder, "register show @register").status, 0);
            let found = folder.read("register");
            assert!(found == swept() || found == register() && answer.is_err());
            assert_eq!(folder.all().len(), 4, "left over: {:?}", folder.all());
        });
        assert!(steps >= 4, "{steps} steps");
    }
}

/// A full disk says what counts: where the status is 1 nothing is changed, where it is 2 the sweep counts.
#[test]
fn full_disk() {
    at_each_step_of(Fate::Full, SWEEP, put_register, |folder, answer| {
        let is_swept = folder.read("register") == swept();
        match answer {
            Ok(told) => assert!(is_swept && told == TOLD),
            Err(fault) if fault.starts_with("2: swept at 20250401000000: ") => assert!(is_swept, "{fault}"),
            Err(fault) => assert!(fault.starts_with("1: ") && folder.read("register") == register(), "{fault}"),
        }
    });
}

/// What a stopped import left is finished or undone before the sweep, and the sweep is of what then counts.
#[test]
fn behind_a_stopped_import() {
    let new = imported();
    at_each_step(Fate::Stop, IMPORT, |folder, _| {
        assert_eq!(graftspindle(folder, SWEEP).status, 0);
        let found = both(folder);
        assert!(found == both(&ready()) || found == new, "nothing has ended");
        assert_eq!(folder.all().len(), 4, "left over: {:?}", folder.all());
    });
    let folder = holding();
    folder.write("register.graftspindle-note", b"not a whole note");
    let done = graftspindle(&folder, SWEEP);
    assert!(done.status == 3 && done.fault.contains("graftspindle-note is damaged"), "{}", done.fault);
    assert!(folder.read("register") == register());
}

fn journal(folder: &Folder) -> Vec<String> {
    let text = String::from_utf8(folder.read("journal")).expect("UTF-8");
    text.lines().map(str::to_string).collect()
}

#[test]
fn line_of_the_journal() {
    let folder = holding();
    said(&folder, &SWEEP.replace("sweep", "sweep --journal @journal"));
    let refused = graftspindle(&folder, "sweep --journal @journal --at 2025 @register");
    assert_eq!(refused.status, 22);
    let lines = journal(&folder);
    assert_eq!(lines.len(), 2);
    let [before, after] = [register(), swept()].map(|bytes| digest::of(&bytes).to_string());
    let name = folder.text("register");
    let known = [("command", "sweep"), ("time", AT), ("register", &name), ("before", &before), ("after", &after)];
    for (field, value) in known {
        assert_eq!(text(&lines[0], field), Some(value), "{}", lines[0]);
    }
    assert_eq!((number(&lines[0], "status"), number(&lines[0], "removed")), (Some(0), Some(3)));
    assert!(text(&lines[0], "at").is_some_and(|at| at > AT), "when the line was written");
    assert_eq!((number(&lines[1], "status"), number(&lines[1], "removed")), (Some(22), None));
    assert_eq!((text(&lines[1], "before"), text(&lines[1], "after")), (Some(&after[..]), Some(&after[..])));
}

/// A sweep whose line the journal does not take counts, and its time is said.
#[test]
fn journal_that_takes_no_line() {
    let folder = holding();
    let [ended, active, ..] = records();
    folder.write("register", &slots([ended, active.clone()]));
    folder.write("journal", format!("{{{}}}\n", " ".repeat(2000)).as_bytes());
    let done = limited(&folder, &SWEEP.replace("sweep", "sweep --journal @journal"), true);
    assert_eq!((done.status, done.said.as_str()), (2, ""), "{}", done.fault);
    let words = "graftspindle: 2: swept at 20250401000000: removed 1, left 1; but the journal has no line of it: ";
    assert!(done.fault.starts_with(words), "{}", done.fault);
    assert!(folder.read("register") == [slots([active]), vec![0; SLOT]].concat());
}

/// An import knows the register that a sweep left, and says so where the sweep left no line.
#[test]
fn import_behind_a_sweep() {
    let import = IMPORT.replace(" --mode", " --journal @journal --mode");
    for (sweep, doubtful) in [(SWEEP.replace("sweep", "sweep --journal @journal"), false), (SWEEP.to_string(), true)] {
        let folder = holding();
        folder.write("hgv", &sample::hgv_of(&[line_until(5, NO_END)]));
        said(&folder, &import);
        said(&folder, &sweep);
        let mut next = sample::hgv_of(&[line_until(6, NO_END)]);
        next[30..51].copy_from_slice(b"02HGV9001232025031001");
        folder.write("hgv", &next);
        let done = graftspindle(&folder, &import);
        assert_eq!(done.status, 0, "{}", done.fault);
        assert_eq!(done.fault.contains("not the one that the journal's last line left"), doubtful, "{}", done.fault);
    }
}

/// The refusal of an import for which there is no room, beside its sentence.
fn without_room(folder: &Folder, lines: &[String]) -> String {
    folder.write("hgv", &sample::hgv_of(lines));
    let done = graftspindle(folder, &IMPORT.replace("20250310050000", AT));
    assert_eq!((done.status, done.said.as_str()), (33, ""), "{}", done.fault);
    done.fault
}

/// "A register of mostly ended tags answers 33": the way that the refusal names, to its end.
#[test]
fn register_without_room() {
    let folder = holding();
    folder.write("register", &slots(records()));
    let name = folder.text("register");
    let lines: Vec<String> = (10..14).map(|i| line_until(i, NO_END)).collect();
    let way_on =
        |room: &str| format!("; 3 records had ended by {AT}: graftspindle sweep --at {AT} {name} makes {room}\n");
    let fault = without_room(&folder, &lines);
    let grow = format!("has 5 slots; 4 more are needed: graftspindle register grow --slots 9 {name}");
    assert!(fault.ends_with(&format!("{grow}{}", way_on("too little room"))), "{fault}");
    let fault = without_room(&folder, &lines[..3]);
    assert!(fault.ends_with(&way_on("room enough")), "{fault}");
    said(&folder, SWEEP);
    said(&folder, &IMPORT.replace("20250310050000", AT));
    let fault = without_room(&folder, &lines[3..]);
    assert!(fault.ends_with(&format!("register grow --slots 6 {name}\n")), "nothing has ended: {fault}");
}

/// The largest register cannot grow: only a sweep makes room.
#[test]
fn largest_register_without_room() {
    let folder = holding();
    folder.write("register", &slots((0..8192).map(|i| line_until(i, if i == 7 { NO_END } else { AT }))));
    let fault = without_room(&folder, &[line_until(9000, NO_END)]);
    let way_on = format!("too few too; 8191 records had ended by {AT}: graftspindle sweep --at {AT} ");
    assert!(fault.contains(&way_on) && fault.ends_with(" makes room enough\n"), "{fault}");
}

/// A copy without room may lack a sweep of the register.
#[test]
fn copy_without_room() {
    let folder = holding();
    folder.write("register", &slots([line_until(0, AT), line_until(1, NO_END)]));
    folder.write("copy", &folder.read("register"));
    said(&folder, SWEEP);
    folder.write("hgv", &sample::hgv_of(&[line_until(2, NO_END)]));
    said(&folder, IMPORT);
    let update = "update --copy @copy --mode incremental @hgv @hgc";
    let refused = graftspindle(&folder, update);
    assert_eq!(refused.status, 33);
    let way_on = "; where the register was swept before this list, sweep the copy at the same time first\n";
    assert!(refused.fault.ends_with(way_on), "{}", refused.fault);
    said(&folder, &SWEEP.replace("@register", "@copy"));
    said(&folder, update);
    assert!(folder.read("copy") == folder.read("register"));
}

const USAGE: &str = "graftspindle sweep [--at YYYYMMDDhhmmss] [--dry-run] [--wait SECONDS] [--journal J] [--force] R\n";

#[test]
fn help() {
    let told = said(&Folder::new(), "help sweep");
    assert!(told.starts_with(USAGE));
    for words in
        ["every provider has to sweep his copy", "one who sent nothing too", "swept at, UTC", "changes nothing."]
    {
        assert!(told.contains(words), "{words}: {told}");
    }
}
