//! What a stop leaves, and what became of the HGC's place before the next start.

use crate::common::*;
use crate::hooked::Shut;
use crate::steps::*;
use std::fs;

/// The import goes well afterwards, with nothing left over.
fn assert_goes_on(folder: &Folder, line: &str) {
    let done = graftspindle(folder, line);
    assert_eq!((done.status, done.fault.as_str()), (0, ""), "{line}");
    let left: Vec<String> = folder.all().into_iter().map(|(name, _)| name).filter(|n| n.contains(".graft")).collect();
    assert_eq!(left, Vec::<String>::new());
}

/// The name of the HGC on its way is longer than that of the HGC, and may be too long where the HGC's is not.
#[test]
fn name_that_is_too_long() {
    for length in [225, 226, 240, 255] {
        let folder = ready();
        let before = folder.all();
        let done = graftspindle(&folder, &IMPORT.replace("@hgc", &format!("@{}", "n".repeat(length))));
        if done.status != 0 {
            assert_eq!(done.status, 1);
            assert!(done.fault.contains("File name too long"), "{}", done.fault);
            assert!(folder.all() == before, "{length}: something was left");
            assert_goes_on(&folder, IMPORT);
        }
        assert_eq!(done.status == 0, length <= 225, "{length}");
    }
}

/// Stopped before the import counts, and the HGC's folder is a file by then: nothing can be there, so nothing is to undo.
#[test]
fn folder_that_became_a_file() {
    let (line, new) = (IMPORT.replace("@hgc", "@out/hgc"), imported().0);
    let prepare = |folder: &Folder| fs::create_dir(folder.path("out")).expect("a folder");
    at_each_step_of(Fate::Stop, &line, prepare, |folder, _| {
        if folder.read("register") == new {
            return;
        }
        fs::remove_dir_all(folder.path("out")).expect("it is there");
        folder.write("out", b"");
        assert_goes_on(folder, IMPORT);
    });
}

/// The import into `out/hgc`, stopped at each step after which it counts and is not ended.
fn at_each_stop_that_counts(after: impl Fn(&Folder)) {
    let (line, new, seen) = (IMPORT.replace("@hgc", "@out/hgc"), imported().0, std::cell::Cell::new(0));
    let prepare = |folder: &Folder| fs::create_dir(folder.path("out")).expect("a folder");
    at_each_step_of(Fate::Stop, &line, prepare, |folder, answer| {
        if folder.read("register") == new && answer.is_err() && exists(folder, "register.graftspindle-note") {
            after(folder);
            seen.set(seen.get() + 1);
        }
    });
    assert!(seen.get() > 2, "{} stops", seen.get());
}

const SHOW: &str = "register show @register";

/// A missing file is no proof of delivery: while the folder is away the HGC is owed, and once it is back it is there.
#[test]
fn folder_that_is_away() {
    let hgc = imported().1;
    at_each_stop_that_counts(|folder| {
        fs::rename(folder.path("out"), folder.path("away")).expect("it can be moved");
        let done = graftspindle(folder, SHOW);
        assert_eq!(done.status, 0, "the register itself can be read");
        assert!(done.fault.contains("out/hgc") && done.fault.contains("is still owed"), "{}", done.fault);
        fs::rename(folder.path("away"), folder.path("out")).expect("it can be moved");
        let done = graftspindle(folder, SHOW);
        assert!(done.fault.contains("it counts, and its HGC is ") && done.fault.lines().count() == 1, "{}", done.fault);
        assert_eq!(graftspindle(folder, SHOW).fault, "");
        assert_eq!(folder.read_if_there("out/hgc"), hgc);
        assert_goes_on(folder, IMPORT);
    });
}

/// Another folder stands there, as where a disk was unmounted: it is not written to until one says so.
#[test]
fn folder_that_is_another() {
    let hgc = imported().1;
    at_each_stop_that_counts(|folder| {
        fs::rename(folder.path("out"), folder.path("away")).expect("it can be moved");
        fs::create_dir(folder.path("out")).expect("a folder");
        let done = graftspindle(folder, SHOW);
        assert!(done.status == 0 && done.fault.contains("is still owed"), "{}", done.fault);
        assert!(!exists(folder, "out/hgc"));
        assert_eq!(graftspindle(folder, "register recover @register").status, 0);
        assert_eq!(folder.read_if_there("out/hgc"), hgc);
        assert_goes_on(folder, IMPORT);
    });
}

/// The register of before, from a backup, beside the note of an import that it does not have.
#[test]
fn register_from_a_backup() {
    at_each_stop_that_counts(|folder| {
        let old = ready().read("register");
        fs::remove_file(folder.path("register")).expect("it is there");
        folder.write("register", &old);
        let told = folder.read_if_there("out/hgc");
        let done = graftspindle(folder, SHOW);
        assert!(done.status == 0 && done.fault.contains("of another register"), "{}", done.fault);
        let done = graftspindle(folder, IMPORT);
        assert!(done.status == 3 && done.fault.contains("register recover"), "{}", done.fault);
        assert!(folder.read("register") == old && folder.read_if_there("out/hgc") == told);
        assert_eq!(graftspindle(folder, "register recover @register").status, 3);
        assert_eq!(graftspindle(folder, "register recover @register --discard").status, 0);
        assert_goes_on(folder, IMPORT);
    });
}

/// The HGC cannot be written to its place any more: the next import says of which list it speaks and how to go on.
#[test]
fn place_that_is_shut_for_good() {
    let hgc = imported().1;
    at_each_stop_that_counts(|folder| {
        fs::remove_dir_all(folder.path("out")).expect("it is there");
        fs::create_dir_all(folder.path("out/hgc/within")).expect("a folder where the HGC should be");
        let before = folder.read("register");
        let done = graftspindle(folder, IMPORT);
        assert_eq!(done.status, 3, "{}", done.fault);
        for words in ["out/hgc", "is new", "not begun", "graftspindle register recover"] {
            assert!(done.fault.contains(words), "{words}: {}", done.fault);
        }
        assert_eq!(folder.read("register"), before);
        assert_eq!(graftspindle(folder, "register recover @register").status, 3);
        let done = graftspindle(folder, "register recover --hgc @elsewhere @register");
        assert_eq!((done.status, done.fault.as_str()), (0, ""));
        assert_eq!(folder.read_if_there("elsewhere"), hgc);
        assert_goes_on(folder, IMPORT);
    });
}

/// The same found by the import itself: a status of its own, since the register is new.
#[test]
fn place_that_shuts_after_the_register_counts() {
    let (folder, new) = (ready(), imported());
    let disk = Shut(folder.path("hgc"));
    let given: Vec<_> = words(&folder, IMPORT).into_iter().map(Into::into).collect();
    let refusal = graftspindle_cli::command::run(&disk, &given).expect_err("its HGC cannot be written");
    assert_eq!(refusal.status(), 2);
    for words in ["is new", "counts", "graftspindle register recover"] {
        assert!(refusal.line().contains(words), "{}", refusal.line());
    }
    assert_eq!(folder.read("register"), new.0);
    assert_eq!(graftspindle(&folder, SHOW).status, 0);
    assert!(both(&folder) == new);
}

/// Written elsewhere by hand, nothing is left at the first place either.
#[test]
fn nothing_is_left_at_the_first_place() {
    let folder = ready();
    let given: Vec<_> = words(&folder, IMPORT).into_iter().map(Into::into).collect();
    let refusal = graftspindle_cli::command::run(&Shut(folder.path("hgc")), &given).expect_err("shut");
    assert_eq!(refusal.status(), 2);
    assert_eq!(graftspindle(&folder, "register recover --hgc @elsewhere @register").status, 0);
    assert_eq!(folder.read_if_there("elsewhere"), imported().1);
    assert_eq!(folder.all().len(), 5, "left over: {:?}", folder.all());
}

/// The HGC of a stopped import was written just now, to the very place that the next import names: nobody can have fetched
/// it yet, so it is not replaced at once.
#[test]
fn hgc_that_nobody_has_fetched() {
    let (new, seen) = (imported(), std::cell::Cell::new(0));
    at_each_step(Fate::Stop, IMPORT, |folder, _| {
        if folder.read("register") != new.0 || !exists(folder, "register.graftspindle-note") {
            return;
        }
        let next = IMPORT.replace("20250310050000", "20250310060000");
        let done = graftspindle(folder, &next);
        assert!(done.status == 3 && done.fault.contains("was written to"), "{}", done.fault);
        assert!(both(folder) == new);
        assert_goes_on(folder, &next);
        assert_ne!(folder.read_if_there("hgc"), new.1);
        seen.set(seen.get() + 1);
    });
    assert!(seen.get() > 1);
}
