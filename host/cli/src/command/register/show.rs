//! `register show`.

use std::collections::BTreeMap;
use std::path::Path;

use super::{lists, weights};
use crate::command::arguments::Arguments;
use crate::command::json::Json;
use crate::command::options::Use::Optional;
use crate::command::options::{AT, LISTS, WEIGHTS};
use crate::command::{beside, clock, hints, look, texts, Answer, Command, Refusal, Told};
use crate::files::Disk;
use graftspindle::{Number, Register, Slot};

pub static SHOW: Command = Command {
    name: "register show",
    options: &[Optional(&AT), Optional(&WEIGHTS), Optional(&LISTS)],
    words: &["R"],
    help: "\
Counts the records of the register R: for each actor how many are active and how many ended at the time, which is UTC and
the present one unless it is given; and the free slots. With --weights it lists the records whose weight a line of their
tariff cannot have, since they may have been priced in the wrong class: as register list does, with the tariff, the weight
code and the first and the last kilogram that it covers. The last line says how many of how many records these are. The
status is 0 with such records too. With --lists it counts the records by the list that touched each last, whatever the time:
a row for each list, in the order of sender, date and number, with how many records it has and the first and the last
reception that stands in these. The last line says how many lists and how many records there are.
",
    run,
};

/// Whether a record is active is asked of the lookup, in a register that holds it alone.
pub fn is_active(slot: Slot, time: &[u8]) -> Result<bool, Number> {
    let (plate, nationality) = texts::plate_key(slot.record());
    match Register::from_bytes(slot.bytes().to_vec()).by_plate(plate, nationality, time) {
        Ok(_) => Ok(true),
        Err(Number::NoRecord) => Ok(false),
        Err(other) => Err(other),
    }
}

fn run(disk: &dyn Disk, given: &Arguments) -> Answer {
    let [path] = given.rest()?;
    let (of_lists, of_weights) = (given.is_given(&LISTS), given.is_given(&WEIGHTS));
    if of_lists && (of_weights || given.is_given(&AT)) {
        return Err(Refusal::Fault("beside --lists neither --at nor --weights is taken".to_string()));
    }
    let (register, name) = (look(disk, Path::new(path))?, Path::new(path).display());
    register.in_order().map_err(|_| hints::of_order(name, register.bytes()))?;
    let time = given.text_if_given(&AT).map_or_else(clock::now, String::into_bytes);
    match (of_lists, of_weights) {
        (true, _) => Ok(lists::told(&register)),
        (_, true) => weights::told(&register, &time),
        _ => counted(&register, &time),
    }
}

fn counted(register: &Register, time: &[u8]) -> Answer {
    let mut actors: BTreeMap<String, (u64, u64)> = BTreeMap::new();
    for slot in register.records() {
        let (active, ended) = actors.entry(texts::actor(slot.record())).or_default();
        let counted = if is_active(slot, time).map_err(beside(texts::shown(time)))? { active } else { ended };
        *counted += 1;
    }
    let (slots, used) = (register.slots().count(), register.records().count());
    let line =
        |(actor, (active, ended)): (&String, &(u64, u64))| format!("actor {actor}: active {active}, ended {ended}\n");
    let told: String = actors.iter().map(line).collect();
    let text = format!("{told}slots {slots}, used {used}, free {}\n", slots - used);
    let actors = actors.into_iter().map(|(actor, (active, ended))| {
        Json::Object(vec![("actor", actor.into()), ("active", active.into()), ("ended", ended.into())])
    });
    let actors = Json::List(actors.collect());
    let told = Told::new(text).with("slots", slots).with("used", used).with("free", slots - used);
    Ok(told.with("actors", actors))
}
