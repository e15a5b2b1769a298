//! The lookups by PAN and by plate.

use std::ops::Range;

use super::line;
use super::register::{self, in_order, InOrder, SLOT};
use super::words::is_real_time;

fn slot_bytes(place: usize) -> Range<usize> {
    place * SLOT..(place + 1) * SLOT
}

pub fn by_pan(register: &[u8], pan: &[u8]) -> (u64, Range<usize>) {
    if !in_order(register) {
        return (23, 0..0);
    }
    if !line::is_pan(pan) {
        return (40, 0..0);
    }
    match register::used_slots(register).iter().position(|slot| line::pan(slot) == pan) {
        Some(place) => (0, slot_bytes(place)),
        None => (41, 0..0),
    }
}

/// The first of 22, 23, 40, or 0.
pub fn plate_stop(register: &[u8], plate: &[u8], nationality: &[u8], time: &[u8], in_order: InOrder) -> u64 {
    if !is_real_time(time) {
        return 22;
    }
    if !in_order(register) {
        return 23;
    }
    if !line::is_plate(plate) || !line::is_nationality(nationality) {
        return 40;
    }
    0
}

pub fn by_plate(register: &[u8], plate: &[u8], nationality: &[u8], time: &[u8]) -> (u64, Range<usize>) {
    let stop = plate_stop(register, plate, nationality, time, in_order);
    if stop != 0 {
        return (stop, 0..0);
    }
    let used = register::used_slots(register);
    let named = |slot: &[u8]| line::plate(slot) == plate && line::nationality(slot) == nationality;
    let found: Vec<usize> =
        (0..used.len()).filter(|&place| named(used[place]) && register::is_active(used[place], time)).collect();
    answer_by_plate(&found)
}

pub fn answer_by_plate(found: &[usize]) -> (u64, Range<usize>) {
    match found {
        [] => (41, 0..0),
        [place] => (0, slot_bytes(*place)),
        _ => (42, 0..0),
    }
}
