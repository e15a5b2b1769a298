//! `lookup pan` and `lookup plate`.

use std::path::Path;

use super::arguments::Arguments;
use super::options::Use::{Needed, Optional};
use super::options::{AT, REGISTER};
use super::{clock, hints, look, texts, Answer, Command, Refusal, Told};
use crate::files::Disk;
use graftspindle::{Number, Register, Slot};

pub static PAN: Command = Command {
    name: "lookup pan",
    options: &[Needed(&REGISTER)],
    words: &["PAN"],
    help: "\
Shows the slot of the register R that holds the PAN, active or ended: what people ask for, which list touched the account
last and when it was received, and the record.
",
    run: by_pan,
};

pub static PLATE: Command = Command {
    name: "lookup plate",
    options: &[Needed(&REGISTER), Optional(&AT)],
    words: &["PLATE", "NATIONALITY"],
    help: "\
Shows, as lookup pan does, the slot of the register R whose record has the plate and the nationality and is active at the
time, which is UTC and the present one unless it is given. Letter case counts.
",
    run: by_plate,
};

/// The slot's place, what people ask for, its stamp, and its record's text.
fn shown(register: &Register, slot: Slot) -> Told {
    let place = register.slots().position(|other| std::ptr::eq(other.bytes(), slot.bytes())).unwrap_or_default();
    let record = slot.record();
    let (actor, pan) = (texts::actor(record), texts::pan(record));
    let (plate, nationality, end) = (texts::plate(record), texts::nationality(record), texts::end(record));
    let (list, received) = (texts::shown(slot.list()), texts::shown(slot.received()));
    let text = texts::shown(&record[..record.len() - 1]);
    let asked = format!("slot {place}: actor {actor}, PAN {pan}, plate {plate} {nationality}, end {end}");
    let told = Told::new(format!("{asked}, list {list}, received {received}\n{text}\n"));
    let told = told.with("slot", place).with("actor", actor).with("pan", pan);
    let told = told.with("plate", plate).with("nationality", nationality).with("end", end).with("text", text);
    told.with("list", list).with("received", received)
}

/// Which of the things asked for a number is about.
fn about(number: Number, path: &Path, register: &Register, time: &[u8], key: &str) -> Refusal {
    let name = path.display();
    let words = match number {
        Number::Order => return hints::of_order(name, register.bytes()),
        Number::Time => texts::shown(time),
        Number::Key => key.to_string(),
        _ => format!("{key} in {name}"),
    };
    Refusal::Number(number, words)
}

fn by_pan(disk: &dyn Disk, given: &Arguments) -> Answer {
    let ([pan], path) = (given.rest()?, given.path(&REGISTER)?);
    let (register, pan) = (look(disk, path)?, pan.to_string_lossy());
    let slot = register.by_pan(&texts::field(&pan, 19)?);
    let slot = slot.map_err(|number| about(number, path, &register, b"", &format!("PAN {pan}")))?;
    Ok(shown(&register, slot))
}

fn by_plate(disk: &dyn Disk, given: &Arguments) -> Answer {
    let ([plate, nationality], path) = (given.rest()?, given.path(&REGISTER)?);
    let register = look(disk, path)?;
    let time = given.text_if_given(&AT).map_or_else(clock::now, String::into_bytes);
    let (plate, nationality) = (plate.to_string_lossy(), nationality.to_string_lossy());
    let slot = register.by_plate(&texts::field(&plate, 10)?, &texts::field(&nationality, 3)?, &time);
    let slot = slot.map_err(|number| about(number, path, &register, &time, &format!("plate {plate} {nationality}")))?;
    Ok(shown(&register, slot))
}
