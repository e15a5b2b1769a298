//! `import`: an HGV into a register, and its HGC.

use std::path::Path;

use super::arguments::Arguments;
use super::entry::{self, Entry};
use super::input::Input;
use super::kinds::{may_replace, must_be_apart, Kind};
use super::options::Use::{Needed, Optional};
use super::options::{FORCE, HGC, ISSUERS, JOURNAL, MODE, OFFSET, PLAIN, RECEIVED, REGISTER, WAIT};
use super::totals::Totals;
use super::{clock, hints, input, mode, offset, texts, Answer, Command, Refusal, Told};
use crate::files::{Disk, Fault, Held, Place};
use graftspindle::sizes::{HGV_MOST, ROW, ROWS_MOST};
use graftspindle::{Counts, Import, Number, Offset, Register};

pub static IMPORT: Command = Command {
    name: "import",
    options: &[
        Needed(&REGISTER),
        Needed(&ISSUERS),
        Needed(&MODE),
        Optional(&RECEIVED),
        Optional(&OFFSET),
        Needed(&HGC),
        Optional(&WAIT),
        Optional(&JOURNAL),
        Optional(&FORCE),
        Optional(&PLAIN),
    ],
    words: &["HGV"],
    help: "\
Imports the whitelist HGV into the register R and writes the confirmation for its sender to OUT. A full list with fewer taken
lines than half of the records held for its sender is refused (35). The moment of reception is UTC, and the present one
unless it is given; ends and stamps go by it. The HGC shows it in local time, by the offset, which the provider has to be told
with the HGC and the mode. R and OUT stand or fall together: killed at any moment, after the next command on R both are new or
both are as they were. An HGC that is at OUT is replaced; a file of another kind is not. An import waits while another one of R
runs, or a sweep. HGV or ROWS may be -, standard input. With a journal the import says where the list was imported before, or
follows another list than the last one of its sender. Equal PANs are found by an index, or, with --plain, by a search over
everything for every line; what comes of it is the same.
",
    run,
};

/// The HGC must not fall on what it is made from.
fn place_of_hgc(disk: &dyn Disk, given: &Arguments, hgv: &Path) -> Result<Place, Refusal> {
    if input::is_standard(given.path(&HGC)?.as_os_str()) {
        let words = "--hgc - cannot be: register and HGC stand or fall together, and standard output can do neither";
        return Err(Refusal::Fault(words.to_string()));
    }
    let hgc = Place::of_file(given.path(&HGC)?)?;
    let others = [given.path(&REGISTER)?, given.path(&ISSUERS)?, hgv];
    must_be_apart(&HGC, &hgc, others.into_iter().chain(given.path_if_given(&JOURNAL)))?;
    may_replace(disk, given, &hgc, Kind::Hgc)?;
    Ok(hgc)
}

/// Nobody can have fetched it yet.
fn not_fetched(out: &Place) -> Refusal {
    let name = out.path().display();
    Refusal::Left(format!(
        "not begun: the HGC of an earlier import was written to {name} only now; fetch it, then go on"
    ))
}

/// How equal PANs are found. It is proved that both ways answer alike and leave the same register and the same HGC.
type Way = fn(&mut Register, &Import) -> Result<(Counts, Vec<u8>), Number>;

fn way(given: &Arguments) -> Way {
    if given.is_given(&PLAIN) {
        Register::import_plain
    } else {
        Register::import
    }
}

/// What can be said of a refusal.
fn explained(number: Number, import: &Import, way: Way, names: &Names, register: &[u8]) -> Refusal {
    let (hgv, rows) = (names.hgv, names.rows);
    match number {
        Number::Time => hints::of_time(import.reception, import.offset),
        Number::Order => hints::of_order(names.register, register),
        Number::Rows => Refusal::Number(number, rows.name.clone()),
        Number::Parties => hints::of_parties(hgv, rows),
        Number::Slots => {
            let again = |register: &mut Register| way(register, import).map(|_| ());
            hints::of_slots(names.register, register, Some(import.reception), again)
        }
        Number::ThinList => {
            hints::of_thin(names.register, register, hgv, |without| way(without, import).map(|(counts, _)| counts))
        }
        other => hints::of_hgv(other, hgv),
    }
}

/// What the files are called.
struct Names<'a> {
    register: &'a str,
    rows: &'a Input,
    hgv: &'a Input,
}

fn run(disk: &dyn Disk, given: &Arguments) -> Answer {
    entry::kept(given, "import", |entry| import(disk, given, entry))
}

fn import<'a>(disk: &'a dyn Disk, given: &Arguments, entry: &mut Entry<'a>) -> Answer {
    let [hgv] = given.rest()?;
    let (mode, offset) = (mode(given)?, offset(given)?);
    entry.say("mode", given.text(&MODE)?);
    entry.say("offset", offset.to_string());
    let place = Place::of_known(given.path(&REGISTER)?)?;
    let hgc_place = place_of_hgc(disk, given, Path::new(hgv))?;
    let rows = given.path(&ISSUERS)?.as_os_str();
    input::at_most_one(&[rows, hgv])?;
    let (rows, hgv) = (input::read(disk, rows, ROWS_MOST * ROW)?, input::read(disk, hgv, HGV_MOST)?);
    entry.hgv(&hgv.bytes);
    let held = Held::take(disk, place.clone(), given.wait()?)?;
    if held.has_written(&hgc_place) && !given.is_given(&FORCE) {
        return Err(not_fetched(&hgc_place));
    }
    // Only now: imports that waited for each other are received in the order in which they are imported.
    let reception = given.text_if_given(&RECEIVED).map_or_else(clock::now, String::into_bytes);
    entry.say("reception", texts::shown(&reception));
    let import = Import { mode, reception: &reception, offset, rows: &rows.bytes, hgv: &hgv.bytes };
    let names = Names { register: &place.path().display().to_string(), rows: &rows, hgv: &hgv };
    let answer = carry_out(&held, &import, way(given), &names, &hgc_place, entry);
    entry.hold(held);
    answer
}

fn carry_out(held: &Held, import: &Import, way: Way, names: &Names, out: &Place, entry: &mut Entry) -> Answer {
    let before = held.read()?;
    entry.begin(names.register, &before);
    let mut register = Register::from_bytes(before.clone());
    let done = way(&mut register, import);
    let (counts, hgc) = done.map_err(|number| explained(number, import, way, names, &before))?;
    entry.compare()?;
    let replaced = held.replace(register.bytes(), Some((out, &hgc)));
    let (taken, rejected) = (counts.taken, counts.rejected);
    if matches!(replaced, Ok(()) | Err(Fault::Counts(_))) {
        entry.say("taken", taken);
        entry.say("rejected", rejected);
        entry.digest("hgc", &hgc);
        entry.digest("after", register.bytes());
    }
    replaced?;
    let (totals, out) = (Totals::of(&names.hgv.bytes, &hgc), out.path().display());
    let (utc, shown, offset) = (texts::shown(import.reception), texts::reception(&hgc), import.offset);
    let clocks = match offset {
        Offset::UTC => String::new(),
        offset => format!("received {utc} UTC, which the HGC shows as {shown} ({offset})\n"),
    };
    let text = format!("taken {taken}, rejected {rejected}; the HGC is {out}\n{clocks}{}", totals.text());
    let told = Told::new(text).with("taken", taken).with("rejected", rejected).with("reasons", totals.json());
    let told = told.with("reception", utc).with("offset", offset.to_string()).with("shown", shown);
    Ok(told.with("hgc", out.to_string()))
}
