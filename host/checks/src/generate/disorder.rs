//! Registers out of order: one thing wrong in the block, in a record, or in a stamp.

use super::damage::{change_length, change_one_byte, wrong_time};
use super::file::{put_actor, used};
use super::line::{break_rule, put};
use super::rng::Rng;
use super::world::World;
use crate::plain::line::LINE;
use crate::plain::register::SLOT;

/// What a slot begins with is as long as a line.
const RECORD: usize = LINE;

/// A slot that an earlier damage has cut is none.
pub fn damage_register(rng: &mut Rng, world: &World, register: &mut Vec<u8>) {
    let used = used(register).count();
    if used == 0 || rng.one_in(4) {
        return damage_block(rng, register);
    }
    let from = rng.below(used) * SLOT;
    match rng.below(15) {
        0 => register.splice(0..0, [0; SLOT]).for_each(drop),
        1 => double_slot(register, from, used),
        2 => register[from] = rng.other_byte(b'1'),
        3 => register[from + RECORD - 1] = b'\r',
        4 => cut_stamps(register),
        5..=9 => break_record(rng, world, &mut register[from..from + SLOT]),
        _ => break_stamp(rng, &mut register[from..from + SLOT]),
    }
}

/// Lengths that are none of a register, and slots that are neither used nor free.
fn damage_block(rng: &mut Rng, register: &mut Vec<u8>) {
    match rng.below(9) {
        0 => change_one_byte(rng, register),
        1 => change_length(rng, register, SLOT),
        2 => register.extend([b'0'; SLOT]),
        3 => register.extend([0; SLOT - 1].iter().chain(&[1])),
        4 => register.extend([0; RECORD]),
        5 => register.truncate(register.len() / RECORD * RECORD),
        6 if rng.one_in(20) => register.resize(SLOT * 8193, 0),
        7 if rng.one_in(20) => register.resize(SLOT * 8192 + RECORD, 0),
        _ => register.push(0),
    }
}

/// The same PAN twice, in different records.
fn double_slot(register: &mut Vec<u8>, from: usize, used: usize) {
    let mut slot = register[from..from + SLOT].to_vec();
    put_actor(&mut slot, b"900777");
    register.splice(used * SLOT..used * SLOT, slot);
}

/// An actor that is none may have a list of the same name, so that the record alone is wrong.
fn break_record(rng: &mut Rng, world: &World, slot: &mut [u8]) {
    let rule = [1, 2, 5, 6, 7, 8, 9].get(rng.below(16)).copied().unwrap_or(10);
    break_rule(rng, world, slot, rule);
    if rng.one_in(2) {
        slot.copy_within(1..7, 131);
    }
}

/// The register as it was when a slot was its record alone.
fn cut_stamps(register: &mut Vec<u8>) {
    *register = register.chunks(SLOT).flat_map(|slot| &slot[..RECORD.min(slot.len())]).copied().collect();
}

const WRONG_DATES: [&[u8]; 6] = [b"20230229", b"19000229", b"00000101", b"20251301", b"20250300", b"2025031A"];
const WRONG_NUMBERS: [&[u8]; 4] = [b"00", b"0A", b" 1", b"1 "];
const WRONG_LISTS: [&[u8]; 4] = [b"HGW", b"hgv", b"HGC", b"   "];
const WRONG_ENDS: [&[u8]; 4] = [b"0000001", b"1000000", b"       ", b"\0\0\0\0\0\0\0"];

fn break_stamp(rng: &mut Rng, slot: &mut [u8]) {
    match rng.below(11) {
        0 => put(slot, 132, rng.pick(&[b"900777", b"90012A", b"      "])),
        1 => put(slot, 138, rng.pick(&WRONG_DATES)),
        2 => put(slot, 146, rng.pick(&WRONG_NUMBERS)),
        3 => put(slot, 129, rng.pick(&WRONG_LISTS)),
        4 => put(slot, 148, &padded_time(rng)),
        5 => put(slot, 162, rng.pick(&WRONG_ENDS)),
        6 => slot[RECORD..RECORD + 33].rotate_left(19),
        7 => slot[RECORD..].fill(0),
        8 => slot[RECORD..].fill([b'0', b' '][rng.below(2)]),
        9 => put(slot, 129, b"HGV0000000000000000"),
        _ => change_one_byte(rng, &mut slot[RECORD..]),
    }
}

/// 14 bytes that are no real time.
fn padded_time(rng: &mut Rng) -> Vec<u8> {
    let wrong = loop {
        let wrong = wrong_time(rng);
        if wrong.len() <= 14 {
            break wrong;
        }
    };
    wrong.into_iter().chain([b' '; 14]).take(14).collect()
}
