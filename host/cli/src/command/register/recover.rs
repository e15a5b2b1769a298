//! `register recover`: what a stopped import left, by hand.

use std::path::Path;

use crate::command::arguments::Arguments;
use crate::command::kinds::{may_replace, Kind};
use crate::command::options::Use::Optional;
use crate::command::options::{DISCARD, FORCE, HGC, WAIT};
use crate::command::{Answer, Command, Refusal, Told};
use crate::files::left::Done;
use crate::files::{self, Disk, Fault, Place};

pub static RECOVER: Command = Command {
    name: "register recover",
    options: &[Optional(&HGC), Optional(&DISCARD), Optional(&WAIT), Optional(&FORCE)],
    words: &["R"],
    help: "\
Undoes what a stopped import of the register R left where it does not count, and finishes it where it does: its HGC is
written to the place that the import named, or to OUT. Every command on R does so by itself as long as the HGC's place can
be written and is the one it was; this one says what there was to do, and goes on where they do not.
",
    run,
};

fn words(done: &Done, place: &Place) -> String {
    let name = place.path().display();
    match done {
        Done::Nothing => format!("nothing was left beside {name}\n"),
        Done::Undone => {
            format!("what was left beside {name} did not count and is removed; the register is as it was\n")
        }
        Done::Discarded => format!("what was left beside {name} is removed, with an HGC that it may have kept\n"),
        Done::Written(out) => format!("the register {name} counts; the HGC is {}\n", out.display()),
    }
}

fn out(disk: &dyn Disk, given: &Arguments, register: &Place) -> Result<Option<Place>, Refusal> {
    let Some(path) = given.path_if_given(&HGC) else {
        return Ok(None);
    };
    let out = Place::of_file(path)?;
    may_replace(disk, given, &out, Kind::Hgc)?;
    match &out == register {
        true => Err(Refusal::Fault("--hgc would replace the register".to_string())),
        false => Ok(Some(out)),
    }
}

fn run(disk: &dyn Disk, given: &Arguments) -> Answer {
    let [path] = given.rest()?;
    let place = Place::of_known(Path::new(path))?;
    let out = out(disk, given, &place)?;
    let done = match given.is_given(&DISCARD) {
        true => files::discard(disk, &place, given.wait()?),
        false => files::recover(disk, &place, out.as_ref(), given.wait()?),
    };
    let done = done.map_err(|fault| match fault {
        Fault::Left(words) => Refusal::Left(words),
        other => other.into(),
    })?;
    let state = match &done {
        Done::Nothing => "nothing",
        Done::Undone => "undone",
        Done::Discarded => "discarded",
        Done::Written(_) => "written",
    };
    Ok(Told::new(words(&done, &place)).with("left", state))
}
