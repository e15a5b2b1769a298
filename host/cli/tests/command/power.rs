//! A register and its HGC replaced, stopped before each step, by a kill and by a loss of power; then the next start, stopped
//! before each of its steps too; then one that runs to its end. Both are old or both are new, and nothing else is left.

use crate::altered::{Altered, Becomes, Step};
use crate::model::Model;
use graftspindle_cli::files::{left, replacing, Disk, Fault, Place};
use std::cell::Cell;
use std::path::Path;

const REGISTER: &str = "/roads/register";
const OLD: (&[u8], &[u8]) = (b"old register", b"old HGC");
const NEW: (&[u8], &[u8]) = (b"new register", b"new HGC");
const ENOUGH: usize = 1000;

/// What is replaced: where the HGC belongs, what stands there before, and the register of after. The register of an import
/// whose lines were all rejected is the one of before.
#[derive(Clone, Copy)]
struct Case {
    hgc: &'static str,
    before: Option<&'static [u8]>,
    after: &'static [u8],
}

fn replace(disk: &dyn Disk, case: Case) -> Result<(), Fault> {
    replacing::replace(disk, &Place::at(REGISTER), case.after, Some((&Place::at(case.hgc), NEW.1)))
}

fn recover(disk: &dyn Disk) -> Result<left::Done, Fault> {
    left::recover(disk, &Place::at(REGISTER))
}

/// Whether both are new.
fn is_new(disk: &Model, case: Case) -> bool {
    let (register, told) = (disk.bytes(Path::new(REGISTER)), disk.bytes(Path::new(case.hgc)));
    let both = (register.as_deref().expect("the register is never gone"), told.as_deref());
    assert!(both == (OLD.0, case.before) || both == (case.after, Some(NEW.1)), "{both:?}");
    let known = 1 + usize::from(told.is_some());
    assert_eq!(disk.names().len(), known, "left over: {:?}", disk.names());
    both.1 == Some(NEW.1)
}

/// Whether both are new after the next start. It is itself stopped before each step; once it has ended, no loss of power
/// changes what it found.
fn after_next_starts(disk: &Model, case: Case, tried: &mut u64) -> bool {
    let whole = disk.for_steps(ENOUGH);
    recover(&whole).expect("the next start ends");
    let new = is_new(&whole, case);
    for steps in 0.. {
        let stopped = disk.for_steps(steps);
        let ended = recover(&stopped).is_ok();
        for left in stopped.after_a_stop() {
            let last = left.for_steps(ENOUGH);
            recover(&last).expect("the start after it ends");
            assert!(is_new(&last, case) == new || !ended, "changed after the next start ended");
            *tried += 1;
        }
        if ended {
            return new;
        }
    }
    unreachable!()
}

fn explore(case: Case) {
    let told = case.before.map(|bytes| (Path::new(case.hgc), bytes));
    let files: Vec<(&Path, &[u8])> = [(Path::new(REGISTER), OLD.0)].into_iter().chain(told).collect();
    let (start, mut tried, mut seen) = (Model::with(&files), 0, [0, 0]);
    for steps in 0.. {
        let disk = start.for_steps(steps);
        let done = replace(&disk, case);
        for left in disk.after_a_stop() {
            let new = after_next_starts(&left, case, &mut tried);
            assert!(new || done.is_err(), "what was answered as done stays done");
            seen[usize::from(new)] += 1;
        }
        if done.is_ok() {
            break;
        }
    }
    println!("{}: {} stops old, {} new, {tried} next starts stopped too", case.hgc, seen[0], seen[1]);
    assert!(seen[0] > 0 && seen[1] > 0);
}

#[test]
fn hgc_in_the_same_folder_and_in_another() {
    for hgc in ["/roads/hgc", "/providers/hgc"] {
        for after in [NEW.0, OLD.0] {
            explore(Case { hgc, before: None, after });
            explore(Case { hgc, before: Some(OLD.1), after });
        }
    }
}

/// A disk on which one sync of a folder, by its number, does nothing.
fn without(disk: &Model, sync: usize) -> impl Disk + '_ {
    let left = Cell::new(sync);
    Altered(disk, move |step, _: &Path| match step {
        Step::Sync if left.replace(left.get().wrapping_sub(1)) == 0 => Becomes::LeftOut,
        _ => Becomes::Done,
    })
}

/// A disk on which the folder of the providers is missing.
fn without_providers(disk: &Model) -> impl Disk + '_ {
    Altered(disk, |_, path: &Path| if path.starts_with("/providers") { Becomes::Missing } else { Becomes::Done })
}

/// Stopped at each step, and the HGC's folder is away at the next start: as soon as it is back, both are old or both new,
/// and an HGC that was owed is there.
#[test]
fn folder_away_at_the_next_start() {
    let (start, mut owed) = (Model::with(&[(Path::new(REGISTER), OLD.0)]), 0);
    for after in [NEW.0, OLD.0] {
        let case = Case { hgc: "/providers/hgc", before: None, after };
        for steps in 0..40 {
            let disk = start.for_steps(steps);
            let done = replace(&disk, case).is_ok();
            for left in disk.after_a_stop() {
                let whole = left.for_steps(ENOUGH);
                recover(&whole).expect("the next start ends");
                let new = is_new(&whole, case);
                let later = left.for_steps(ENOUGH);
                let away = recover(&without_providers(&later));
                assert!(away.is_ok() || new, "only an import that counts owes an HGC");
                owed += u32::from(away.is_err());
                recover(&later).expect("the folder is back");
                let names = later.names().into_iter().filter(|name| !name.starts_with("/providers")).count();
                assert_eq!((later.bytes(Path::new(case.hgc)).is_some(), names), (new, 1), "{:?}", later.names());
                assert!(new || !done);
            }
        }
    }
    assert!(owed > 10, "{owed} owed");
}

/// Whether some loss of power leaves one old and one new, or the next start without an end, if that sync is left out.
fn breaks_without(sync: usize) -> bool {
    let start = Model::with(&[(Path::new(REGISTER), OLD.0)]);
    let (hgc, mut broken) = ("/providers/hgc", false);
    for steps in 0..40 {
        let disk = start.for_steps(steps);
        let _ = replace(&without(&disk, sync), Case { hgc, before: None, after: NEW.0 });
        for left in disk.after_a_stop() {
            let last = left.for_steps(ENOUGH);
            let ended = recover(&last).is_ok();
            let both = (last.bytes(Path::new(REGISTER)), last.bytes(Path::new(hgc)));
            let old = both == (Some(OLD.0.to_vec()), None);
            let new = both == (Some(NEW.0.to_vec()), Some(NEW.1.to_vec()));
            broken |= !ended || !(old || new) || last.names().len() != 1 + usize::from(new);
        }
    }
    broken
}

/// The model finds what a missing sync does: the last one is only for what is left over by a later loss of power.
#[test]
fn each_sync_is_needed() {
    let broken: Vec<bool> = (0..5).map(breaks_without).collect();
    println!("broken without sync 0 to 4: {broken:?}");
    assert_eq!(broken, [true, true, true, true, false]);
}
