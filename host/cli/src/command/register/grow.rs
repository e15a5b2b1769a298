//! `register grow`: the same register with more slots.

use std::path::Path;

use super::new::free;
use crate::command::arguments::Arguments;
use crate::command::entry::{self, Entry};
use crate::command::options::Use::{Needed, Optional};
use crate::command::options::{JOURNAL, SLOTS, WAIT};
use crate::command::{hints, Answer, Command, Refusal, Told};
use crate::files::{Disk, Held, Place};
use graftspindle::Register;

pub static GROW: Command = Command {
    name: "register grow",
    options: &[Needed(&SLOTS), Optional(&WAIT), Optional(&JOURNAL)],
    words: &["R"],
    help: "\
Gives the register or copy R free slots at its end, N slots in all. The records stay where they are. Killed at any moment, R
is as before or as after.
",
    run,
};

fn run(disk: &dyn Disk, given: &Arguments) -> Answer {
    entry::kept(given, "grow", |entry| grow(disk, given, entry))
}

fn grow<'a>(disk: &'a dyn Disk, given: &Arguments, entry: &mut Entry<'a>) -> Answer {
    let [path] = given.rest()?;
    let free = free(given)?;
    let place = Place::of_known(Path::new(path))?;
    let held = Held::take(disk, place.clone(), given.wait()?)?;
    let (mut bytes, name) = (held.read()?, place.path().display().to_string());
    entry.begin(&name, &bytes);
    let before = Register::from_bytes(bytes.clone());
    before.in_order().map_err(|_| hints::of_order(&name, before.bytes()))?;
    let (had, slots) = (before.slots().count(), free.slots().count());
    if slots < had {
        return Err(Refusal::Fault(format!("{name} has {had} slots, and none is taken from a register")));
    }
    bytes.resize(free.bytes().len(), 0);
    entry.replace(held, &bytes, &[])?;
    let text = format!("{slots} slots in {name}, {had} before\n");
    Ok(Told::new(text).with("slots", slots).with("before", had))
}
