//! `register new`.

use std::path::Path;

use crate::command::arguments::Arguments;
use crate::command::options::Use::{Needed, Optional};
use crate::command::options::{SLOTS, WAIT};
use crate::command::{Answer, Command, Refusal, Told};
use crate::files::{Disk, Held, Place};
use graftspindle::sizes::SLOTS_MOST;
use graftspindle::Register;

pub static NEW: Command = Command {
    name: "register new",
    options: &[Needed(&SLOTS), Optional(&WAIT)],
    words: &["R"],
    help: "Makes a register, or a provider's copy, of N free slots at R, where no file may be.\n",
    run,
};

/// Whether there can be so many is asked of the proved functions; the number is only shown.
pub fn free(given: &Arguments) -> Result<Register, Refusal> {
    let text = given.text(&SLOTS)?;
    let register = text.parse().ok().and_then(|slots| Register::free(slots).ok());
    register.ok_or_else(|| Refusal::Fault(format!("--slots {text}: a register has 0 to {SLOTS_MOST} slots")))
}

fn run(disk: &dyn Disk, given: &Arguments) -> Answer {
    let [path] = given.rest()?;
    let register = free(given)?;
    let slots = register.slots().count();
    let place = Place::of_file(Path::new(path))?;
    let there = || Refusal::Fault(format!("{} is already there", place.path().display()));
    if place.path().exists() {
        return Err(there());
    }
    let held = Held::take(disk, place.clone(), given.wait()?)?;
    if held.is_there()? {
        return Err(there());
    }
    held.replace(register.bytes(), None)?;
    let text = format!("{slots} free slots in {}\n", place.path().display());
    Ok(Told::new(text).with("slots", slots))
}
