//! `update`: a provider's copy after an HGV of his and its HGC.

use super::arguments::Arguments;
use super::entry::{self, Entry};
use super::options::Use::{Needed, Optional};
use super::options::{COPY, JOURNAL, MODE, OFFSET, WAIT};
use super::totals::Totals;
use super::{hints, input, mode, offset, Answer, Command, Refusal, Told};
use crate::files::{Disk, Held, Place};
use graftspindle::{Counts, Number, Register};

pub static UPDATE: Command = Command {
    name: "update",
    options: &[Needed(&COPY), Needed(&MODE), Optional(&OFFSET), Optional(&WAIT), Optional(&JOURNAL)],
    words: &["HGV", "HGC"],
    help: "\
Applies the lines of the HGV that its confirmation HGC says were taken to the provider's copy C. Mode and offset are those that
the list was imported with; with another offset the copy would have other ends and stamps than the register. Killed at any
moment, C is as before or as after.
",
    run,
};

fn run(disk: &dyn Disk, given: &Arguments) -> Answer {
    entry::kept(given, "update", |entry| update(disk, given, entry))
}

fn update<'a>(disk: &'a dyn Disk, given: &Arguments, entry: &mut Entry<'a>) -> Answer {
    let [hgv, hgc] = given.rest()?;
    let (mode, offset) = (mode(given)?, offset(given)?);
    entry.say("mode", given.text(&MODE)?);
    entry.say("offset", offset.to_string());
    let (hgv, hgc) = input::pair(disk, hgv, hgc)?;
    entry.hgv(&hgv.bytes);
    entry.digest("hgc", &hgc.bytes);
    let place = Place::of_known(given.path(&COPY)?)?;
    let held = Held::take(disk, place.clone(), given.wait()?)?;
    let (before, name) = (held.read()?, place.path().display().to_string());
    entry.begin(&name, &before);
    let mut copy = Register::from_bytes(before.clone());
    let update = |copy: &mut Register| copy.update(mode, offset, &hgv.bytes, &hgc.bytes);
    let counts = update(&mut copy).map_err(|number| match number {
        Number::Order => hints::of_copy(&name, &before),
        Number::OtherActor => Refusal::Number(number, name.clone()),
        Number::Slots => hints::of_slots(&name, &before, None, |copy| update(copy).map(|_| ())),
        other => hints::of_applied(other, &hgv, &hgc, offset),
    })?;
    entry.replace(held, copy.bytes(), &[("taken", counts.taken), ("rejected", counts.rejected)])?;
    Ok(told(counts, &Totals::of(&hgv.bytes, &hgc.bytes)))
}

fn told(counts: Counts, totals: &Totals) -> Told {
    let (taken, rejected) = (counts.taken, counts.rejected);
    let told = Told::new(format!("taken {taken}, rejected {rejected}\n{}", totals.text()));
    told.with("taken", taken).with("rejected", rejected).with("reasons", totals.json())
}
