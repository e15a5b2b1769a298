//! `sweep`: a register or copy without its ended records.

use std::path::Path;

use super::arguments::Arguments;
use super::entry::{self, Entry};
use super::options::Use::Optional;
use super::options::{AT, DRY_RUN, FORCE, JOURNAL, WAIT};
use super::{clock, hints, look, texts, Answer, Command, Refusal, Told};
use crate::files::{Disk, Fault, Held, Place};
use graftspindle::{Number, Register};

pub static SWEEP: Command = Command {
    name: "sweep",
    options: &[Optional(&AT), Optional(&DRY_RUN), Optional(&WAIT), Optional(&JOURNAL), Optional(&FORCE)],
    words: &["R"],
    help: "\
Removes from the register or copy R each record that has ended by the time: whose end is not zeros and not later. The others
close up in their order, and the freed slots are the next import's. The time is UTC, and the present one unless it is given.
Where a register was swept every provider has to sweep his copy at the same time, one who sent nothing too, behind the lists
that were imported before the sweep and in front of those that were imported after it. A sweep that removes nothing need not
be told. With --dry-run it says how many records would go, and nothing is changed. A time that lies ahead, by which records
would go that are active now, is refused (1) without --force. Killed at any moment, R is as before or as after.
",
    run,
};

fn run(disk: &dyn Disk, given: &Arguments) -> Answer {
    match given.is_given(&DRY_RUN) {
        true => dry_run(disk, given),
        false => entry::kept(given, "sweep", |entry| sweep(disk, given, entry)),
    }
}

fn time(given: &Arguments) -> Vec<u8> {
    given.text_if_given(&AT).map_or_else(clock::now, String::into_bytes)
}

/// How many went.
fn removed(register: &mut Register, time: &[u8], name: &str) -> Result<u64, Refusal> {
    register.sweep(time).map_err(|number| match number {
        Number::Order => hints::of_either(name, register.bytes()),
        other => Refusal::Number(other, texts::shown(time)),
    })
}

/// How many of those that went are active now, as where the time lies ahead: a sweep of today would have left them.
fn too_early(before: &[u8], removed: u64) -> u64 {
    let today = Register::from_bytes(before.to_vec()).sweep(&clock::now());
    removed.saturating_sub(today.unwrap_or(removed))
}

/// What goes is gone, and a digit too many in the time is soon written.
fn must_have_ended(given: &Arguments, before: &[u8], removed: u64) -> Result<(), Refusal> {
    let early = too_early(before, removed);
    if early == 0 || given.is_given(&FORCE) {
        return Ok(());
    }
    let active = hints::parts(early as usize, "record");
    let words = "active now would go: the time lies ahead. Nothing is changed; --force sweeps at it all the same";
    Err(Refusal::Fault(format!("{active} {words}")))
}

/// It only reads: there is nothing to wait for, and nothing to keep a line of.
fn dry_run(disk: &dyn Disk, given: &Arguments) -> Answer {
    if [&WAIT, &JOURNAL, &FORCE].into_iter().any(|option| given.is_given(option)) {
        let words = "beside --dry-run neither --wait nor --journal nor --force is taken";
        return Err(Refusal::Fault(words.to_string()));
    }
    let [path] = given.rest()?;
    let (mut register, time) = (look(disk, Path::new(path))?, time(given));
    let before = register.bytes().to_vec();
    let removed = removed(&mut register, &time, &Path::new(path).display().to_string())?;
    let (left, at, active) = (register.records().count(), texts::shown(&time), too_early(&before, removed));
    let early = if active == 0 { String::new() } else { format!(", {active} of them active now,") };
    let text = format!("at {at}: {removed} would go{early} and {left} be left; nothing is changed\n");
    Ok(in_json(Told::new(text), &at, removed, left).with("active", active).with("dry_run", true))
}

fn sweep<'a>(disk: &'a dyn Disk, given: &Arguments, entry: &mut Entry<'a>) -> Answer {
    let [path] = given.rest()?;
    let place = Place::of_known(Path::new(path))?;
    let held = Held::take(disk, place.clone(), given.wait()?)?;
    // Only now: a sweep that waited for an import stands behind it, by its time too.
    let time = time(given);
    entry.say("time", texts::shown(&time));
    let (before, name) = (held.read()?, place.path().display().to_string());
    entry.begin(&name, &before);
    let mut register = Register::from_bytes(before.clone());
    let removed = removed(&mut register, &time, &name)?;
    must_have_ended(given, &before, removed)?;
    let replaced = entry.replace(held, register.bytes(), &[("removed", removed)]);
    replaced.map_err(|fault| with_time(fault, &time))?;
    Ok(told(&register, &time, removed))
}

/// A sweep that counts is told with its time, whatever could not be done after it: every provider needs it.
fn with_time(fault: Fault, time: &[u8]) -> Refusal {
    match fault {
        Fault::Counts(words) => Refusal::Counts(format!("swept at {}: {words}", texts::shown(time))),
        other => other.into(),
    }
}

/// The register is the swept one.
fn told(register: &Register, time: &[u8], removed: u64) -> Told {
    let (left, at) = (register.records().count(), texts::shown(time));
    let mut text = format!("swept at {at}: removed {removed}, left {left}\n");
    if removed > 0 {
        text += &format!(
            "where this is the road's register, every provider has to sweep his copy at {at} too, before he applies what \
             comes after it\n"
        );
    }
    in_json(Told::new(text), &at, removed, left).with("dry_run", false)
}

fn in_json(told: Told, at: &str, removed: u64, left: usize) -> Told {
    told.with("at", at.to_string()).with("removed", removed).with("left", left)
}
