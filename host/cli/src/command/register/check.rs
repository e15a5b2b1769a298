//! `register check`: whether all is well with a register, without touching anything.

use std::path::Path;

use crate::command::arguments::Arguments;
use crate::command::json::Json;
use crate::command::{hints, Answer, Command, Refusal, Told};
use crate::files::{left, lock, Disk, Place};
use graftspindle::sizes::REGISTER_MOST;
use graftspindle::Register;

pub static CHECK: Command = Command {
    name: "register check",
    options: &[],
    words: &["R"],
    help: "\
Says whether the register R is in order (else 23), whether an import was stopped, with an HGC that is still owed (else 3),
and who holds its lock. Nothing is changed.
",
    run,
};

/// What was left; where someone is at work, his files are no left-over.
fn left(disk: &dyn Disk, place: &Place, holder: &Option<String>) -> Option<String> {
    match holder {
        Some(_) => None,
        None => left::state(disk, place).unwrap_or_else(|fault| Some(fault.to_string())),
    }
}

fn run(disk: &dyn Disk, given: &Arguments) -> Answer {
    let [path] = given.rest()?;
    let place = Place::of_known(Path::new(path))?;
    let holder = lock::held_by(&place)?;
    let left = left(disk, &place, &holder);
    let register = Register::from_bytes(disk.read(place.path(), REGISTER_MOST + 1)?);
    let lock = holder.as_ref().map_or("nobody holds it".to_string(), |holder| format!("{holder} holds it"));
    let state = left.clone().unwrap_or("nothing is left of a stopped import".to_string());
    let words = format!("{}; {state}; {lock}", place.path().display());
    if register.in_order().is_err() {
        return Err(hints::of_order(words, register.bytes()));
    }
    if left.is_some() {
        return Err(Refusal::Left(words));
    }
    let (slots, used) = (register.slots().count(), register.records().count());
    let told = Told::new(format!("in order: {words}; {slots} slots, {} free\n", slots - used));
    let told = told.with("order", true).with("slots", slots).with("used", used).with("free", slots - used);
    Ok(told.with("holder", holder.map_or(Json::Nothing, Json::Text)))
}
