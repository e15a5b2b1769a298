//! What a refusal says beside its sentence: the file, and what can be read from it. Nothing is judged here; where something
//! has to be, the proved functions are asked.

use std::fmt::Display;

use super::input::Input;
use super::{texts, Refusal};
use graftspindle::sizes::{FOOTER, HEADER, HGV_MOST, LINE, RECORD, ROW, SLOT, SLOTS_MOST};
use graftspindle::{Counts, Number, Offset, Register, Slot};

/// Of an HGV alone.
pub fn of_hgv(number: Number, hgv: &Input) -> Refusal {
    let name = &hgv.name;
    let words = match number {
        Number::HgvLength => length(hgv),
        Number::Version | Number::FullVersion => format!("{name} has {}", texts::version(&hgv.bytes)),
        Number::Parties => format!("{name}: its receiver is {}", texts::receiver(&hgv.bytes)),
        Number::Count => {
            let (says, has) = (texts::count(&hgv.bytes), hgv.bytes.len().saturating_sub(HEADER + FOOTER) / LINE);
            format!("{name} says {says} and has {has} lines")
        }
        _ => name.clone(),
    };
    Refusal::Number(number, words)
}

/// Of an HGV and its HGC.
pub fn of_pair(number: Number, hgv: &Input, hgc: &Input) -> Refusal {
    match number {
        Number::Hgc => Refusal::Number(number, format!("{} beside {}", hgc.name, hgv.name)),
        other => of_hgv(other, hgv),
    }
}

/// Of an HGV and its HGC that were to be applied: where they fit each other it is the offset.
pub fn of_applied(number: Number, hgv: &Input, hgc: &Input, offset: Offset) -> Refusal {
    if number != Number::Hgc || graftspindle::read_back(&hgv.bytes, &hgc.bytes).is_err() {
        return of_pair(number, hgv, hgc);
    }
    let told = of_offset(offset, &texts::reception(&hgc.bytes), "UTC");
    Refusal::Number(number, format!("{}: {told}", hgc.name))
}

/// Of a reception and its offset: which of them it is.
pub fn of_time(reception: &[u8], offset: Offset) -> Refusal {
    let shown = texts::shown(reception);
    let is_real = graftspindle::seconds(reception).is_ok();
    Refusal::Number(Number::Time, if is_real { of_offset(offset, &shown, "local") } else { shown })
}

/// An offset that is out of range, or with which the other clock's year of a time is none.
fn of_offset(offset: Offset, time: &str, clock: &str) -> String {
    match graftspindle::offset_in_range(offset) {
        Err(_) => format!("the offset {offset} is not from -12:00 to +14:00"),
        Ok(()) => format!("at {time} with the offset {offset} the {clock} year is none of 0001 to 9999"),
    }
}

/// The lengths below and above, and what line ends of two bytes would explain.
fn length(hgv: &Input) -> String {
    let (name, length) = (&hgv.name, hgv.bytes.len());
    let has = match length {
        0 => format!("{name} is empty"),
        length if length > HGV_MOST => return format!("{name} has more than {HGV_MOST} bytes"),
        length => format!("{name} has {length} bytes"),
    };
    let lines = length.saturating_sub(HEADER + FOOTER) / LINE;
    let below = HEADER + FOOTER + lines * LINE;
    let right = if length < below { format!("{below} or more") } else { format!("{below} or {}", below + LINE) };
    format!("{has}, and would need {right}{}", line_ends(&hgv.bytes))
}

fn line_ends(hgv: &[u8]) -> String {
    let is_cr = |i: usize| hgv[i..].starts_with(b"\r\n");
    let alone: Vec<u8> = (0..hgv.len()).filter(|&i| !is_cr(i)).map(|i| hgv[i]).collect();
    let pairs = hgv.len() - alone.len();
    if pairs == 0 {
        return String::new();
    }
    let fits = graftspindle::read_back(&alone, &[]) != Err(Number::HgvLength);
    let then = if fits { ": with LF alone the length would be right" } else { "" };
    format!("; it has CR LF in {pairs} places{then}")
}

/// The sender's half of 29: the receiver's is asked of reading back, which knows no rows.
pub fn of_parties(hgv: &Input, rows: &Input) -> Refusal {
    if graftspindle::read_back(&hgv.bytes, &[]) == Err(Number::Parties) {
        return of_hgv(Number::Parties, hgv);
    }
    let (sender, known) = (texts::sender(&hgv.bytes), actors(rows));
    let words = format!("{} has no row of {sender}, the sender of {}; its actors: {known}", rows.name, hgv.name);
    Refusal::Number(Number::Parties, words)
}

/// The actors of issuer rows in form.
pub fn actors(rows: &Input) -> String {
    let mut actors: Vec<String> = rows.bytes.chunks(ROW).map(|row| texts::shown(&row[ROW - 6..])).collect();
    actors.dedup();
    actors.join(", ")
}

/// Of a register that is not in order: `name` is what else is said of it.
pub fn of_order(name: impl Display, bytes: &[u8]) -> Refusal {
    of_disorder(name, bytes, "register", "a full list from each provider")
}

/// Of a copy that is not in order.
pub fn of_copy(name: &str, bytes: &[u8]) -> Refusal {
    of_disorder(name, bytes, "copy", "the next full list and its HGC")
}

/// Of one or the other.
pub fn of_either(name: &str, bytes: &[u8]) -> Refusal {
    of_disorder(name, bytes, "register or copy", "full lists")
}

fn of_disorder(name: impl Display, bytes: &[u8], what: &str, with: &str) -> Refusal {
    let way_on = match slots_before_stamps(bytes) {
        None => String::new(),
        Some(slots) => format!(
            "; its length is that of {} of {RECORD} bytes, from before the stamp, which nobody can make up for them: begin a \
             new {what} (graftspindle register new --slots {slots}) with {with}",
            parts(slots, "slot")
        ),
    };
    Refusal::Number(Number::Order, format!("{name}{way_on}"))
}

/// How many slots a register has that can only be from before the stamp, when a slot was its record alone.
fn slots_before_stamps(bytes: &[u8]) -> Option<usize> {
    let whole = |length: usize| bytes.len().is_multiple_of(length);
    let slots = bytes.len() / RECORD;
    (whole(RECORD) && !whole(SLOT) && slots <= SLOTS_MOST).then_some(slots)
}

/// How many slots are short: the same is tried on a register with as many free slots behind it as there can be. Of a register
/// the time of reception is given, and what a sweep then would free is told; a copy is swept where the register was.
pub fn of_slots(
    name: &str,
    bytes: &[u8],
    received: Option<&[u8]>,
    again: impl Fn(&mut Register) -> Result<(), Number>,
) -> Refusal {
    let slots = bytes.len() / SLOT;
    let mut largest = Register::from_bytes([bytes, &vec![0; SLOTS_MOST * SLOT - bytes.len()]].concat());
    let has = format!("{name} has {}", parts(slots, "slot"));
    let words = match again(&mut largest) {
        Err(_) => format!("{has}, and no register has more than {SLOTS_MOST}, which would be too few too"),
        Ok(()) => {
            let used = largest.records().count();
            let short = used.saturating_sub(slots);
            let verb = if short == 1 { "is" } else { "are" };
            format!("{has}; {short} more {verb} needed: graftspindle register grow --slots {used} {name}")
        }
    };
    let sweep = match received {
        Some(time) => of_sweep(name, bytes, time, again),
        None => "; where the register was swept before this list, sweep the copy at the same time first".to_string(),
    };
    Refusal::Number(Number::Slots, format!("{words}{sweep}"))
}

/// How many slots a sweep would free, and whether they suffice: the same is tried on the swept register.
fn of_sweep(name: &str, bytes: &[u8], time: &[u8], again: impl Fn(&mut Register) -> Result<(), Number>) -> String {
    let mut swept = Register::from_bytes(bytes.to_vec());
    let Ok(removed @ 1..) = swept.sweep(time) else { return String::new() };
    let (ended, at) = (parts(removed as usize, "record"), texts::shown(time));
    let room = if again(&mut swept).is_ok() { "room enough" } else { "too little room" };
    format!("; {ended} had ended by {at}: graftspindle sweep --at {at} {name} makes {room}")
}

/// How thin a full list is: the same is tried on a register with free slots in place of the sender's records. Each line is
/// judged there as here, since only the others' records and the file bear on it (`own-unseen`). Nothing is held for the sender
/// that the list could be too thin for, and there is room, since the lines taken are fewer than the records that made way.
pub fn of_thin(
    name: &str,
    bytes: &[u8],
    hgv: &Input,
    again: impl FnOnce(&mut Register) -> Result<Counts, Number>,
) -> Refusal {
    let (register, sender) = (Register::from_bytes(bytes.to_vec()), texts::sender(&hgv.bytes));
    let is_held = |slot: &Slot| texts::actor(slot.record()) == sender;
    let (held, others): (Vec<Slot>, Vec<Slot>) = register.records().partition(is_held);
    let mut without: Vec<u8> = others.into_iter().flat_map(Slot::bytes).copied().collect();
    without.resize(bytes.len(), 0);
    let would = match again(&mut Register::from_bytes(without)) {
        Err(_) => String::new(),
        Ok(Counts { taken, rejected }) => {
            format!(", and {} of {} would be taken and {rejected} rejected", parts(taken as usize, "line"), hgv.name)
        }
    };
    let records = parts(held.len(), "record");
    let words = format!(
        "{name} holds {records} of {sender}{would}; send the whole list or, where so many accounts really went, full lists in \
         steps of at least half"
    );
    Refusal::Number(Number::ThinList, words)
}

/// `1 slot`, `2 slots`.
pub fn parts(count: usize, word: &str) -> String {
    format!("{count} {word}{}", if count == 1 { "" } else { "s" })
}
