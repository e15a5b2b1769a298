//! The register: slots of 168 bytes, used ones first. A used slot has a record, as long as a line, and a stamp.

use super::words::*;
use super::{hgv, line};

pub const SLOT: usize = 168;
const MOST_SLOTS: usize = 8192;

pub fn length_right(register: &[u8]) -> bool {
    register.len().is_multiple_of(SLOT) && register.len() / SLOT <= MOST_SLOTS
}

fn has_used_form(slot: &[u8]) -> bool {
    slot[0] == b'1' && slot[127] == LF
}

/// What the text of a used slot must be.
pub fn holds_as_record(slot: &[u8]) -> bool {
    all_digits(line::actor(slot)) && line::record_rules_hold(slot)
}

/// "The stamp to be a list sequence of the record's actor and a real time"; behind them stand seven zeros.
fn stamp_right(slot: &[u8]) -> bool {
    hgv::sequence_right(positions(slot, 129, 147), line::actor(slot))
        && is_real_time(positions(slot, 148, 161))
        && all_zeros(positions(slot, 162, 168))
}

/// What a used slot must be, the other slots left aside.
fn slot_right(slot: &[u8]) -> bool {
    has_used_form(slot) && holds_as_record(slot) && stamp_right(slot)
}

/// In a register in order these are the used ones: they stand in front.
pub fn used_slots(register: &[u8]) -> Vec<&[u8]> {
    register.chunks(SLOT).take_while(|slot| has_used_form(slot)).collect()
}

/// In order, the difference of the PANs aside.
pub fn in_order_but_pans(register: &[u8]) -> bool {
    if !length_right(register) {
        return false;
    }
    let used = used_slots(register);
    used.iter().all(|slot| slot_right(slot)) && all_zero_bytes(&register[used.len() * SLOT..])
}

pub fn in_order(register: &[u8]) -> bool {
    in_order_but_pans(register) && pans_differ(&used_slots(register))
}

/// The 19 bytes are compared, not the numbers they spell.
pub fn pans_differ(lines: &[&[u8]]) -> bool {
    for (later, line) in lines.iter().enumerate() {
        if lines[..later].iter().any(|earlier| line::pan(earlier) == line::pan(line)) {
            return false;
        }
    }
    true
}

/// The end a Valid to becomes. For real times the order of bytes is that of time.
pub fn end_of<'a>(valid_to: &'a [u8], reception: &'a [u8]) -> &'a [u8] {
    if all_zeros(valid_to) || valid_to > reception {
        valid_to
    } else {
        reception
    }
}

pub fn is_active(slot: &[u8], time: &[u8]) -> bool {
    let end = line::valid_to(slot);
    all_zeros(end) || end > time
}

/// What a file leaves in each slot that a taken line of it fills. Ends go by the same reception; the one that an HGC shows is
/// not read here.
pub struct Stamp<'a> {
    pub list: &'a [u8],
    pub reception: &'a [u8],
}

/// The slot a taken line becomes: its record, and the file's stamp.
pub fn slot_of(line: &[u8], stamp: &Stamp) -> Vec<u8> {
    let mut record = line.to_vec();
    record[100..114].copy_from_slice(end_of(line::valid_to(line), stamp.reception));
    [&record, stamp.list, stamp.reception, b"0000000"].concat()
}

/// Mode 1: a PAN held is replaced in its slot, a new one takes the next free slot.
pub fn after_mode_1(register: &[u8], taken: &[&[u8]], stamp: &Stamp) -> Vec<Vec<u8>> {
    let mut after: Vec<Vec<u8>> = used_slots(register).iter().map(|s| s.to_vec()).collect();
    for line in taken {
        let slot = slot_of(line, stamp);
        match after.iter().position(|held| line::pan(held) == line::pan(line)) {
            Some(place) => after[place] = slot,
            None => after.push(slot),
        }
    }
    after
}

/// Mode 2: the sender's records go, the others close up with their stamps, taken lines follow.
fn after_mode_2(register: &[u8], sender: &[u8], taken: &[&[u8]], stamp: &Stamp) -> Vec<Vec<u8>> {
    let others = used_slots(register).into_iter().filter(|slot| line::actor(slot) != sender);
    let mut after: Vec<Vec<u8>> = others.map(|slot| slot.to_vec()).collect();
    after.extend(taken.iter().map(|line| slot_of(line, stamp)));
    after
}

/// 33: more used slots would follow than there are.
pub fn is_33(register: &[u8], after: &[Vec<u8>]) -> bool {
    after.len() > register.len() / SLOT
}

pub fn write(register: &mut [u8], after: &[Vec<u8>]) {
    let used = after.concat();
    register[..used.len()].copy_from_slice(&used);
    register[used.len()..].fill(0);
}

/// The search that differs from one implementation to the other.
pub type InOrder = fn(&[u8]) -> bool;

/// Mode 1, another search that differs.
pub type AfterMode1 = fn(&[u8], &[&[u8]], &Stamp) -> Vec<Vec<u8>>;

/// What the used slots are after taken lines of a sender.
pub fn after(
    mode: u64,
    register: &[u8],
    sender: &[u8],
    taken: &[&[u8]],
    stamp: &Stamp,
    after_mode_1: AfterMode1,
) -> Vec<Vec<u8>> {
    if mode == 1 {
        after_mode_1(register, taken, stamp)
    } else {
        after_mode_2(register, sender, taken, stamp)
    }
}
