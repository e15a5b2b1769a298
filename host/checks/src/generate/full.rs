//! Full lists about as long as they have to be: 35 is given where twice the taken lines are fewer than the sender's records.

use super::case::break_some_rule;
use super::file::{slot, slots, used};
use super::line::{put, right_line};
use super::rng::Rng;
use super::world::World;

/// So many of each row that a sender can have dozens of records.
const ACCOUNTS: usize = 60;

/// Used slots with different PANs, of the sender alone or with other providers' among them. Some have ended.
pub fn held(rng: &mut Rng, world: &World, sender: &[u8], reception: &[u8]) -> Vec<Vec<u8>> {
    let mut all = if rng.one_in(3) { Vec::new() } else { slots(rng, world, 8, None) };
    for _ in 0..rng.below(30) {
        let mut record = right_line(rng, world, sender, reception);
        put(&mut record, 14, &world.pan(rng, sender, ACCOUNTS));
        if all.iter().all(|other| other[13..32] != record[13..32]) {
            let slot = slot(rng, record);
            all.insert(rng.below(all.len() + 1), slot);
        }
    }
    all
}

/// How many of the accounts are sent again: just half of them or one less, all, none, or any number.
fn sent(rng: &mut Rng, held: usize) -> usize {
    match rng.below(8) {
        0 => 0,
        1 | 2 => held,
        3 => rng.below(held + 1),
        _ => (held + rng.below(3)).saturating_sub(1) / 2,
    }
}

/// The PANs of the sender's records.
pub fn pans_of<'a>(register: &'a [u8], sender: &[u8]) -> Vec<&'a [u8]> {
    used(register).filter(|slot| &slot[1..7] == sender).map(|slot| &slot[13..32]).collect()
}

/// A line more: a faulty one with an account of the list, the same account again, or a new one.
fn add(rng: &mut Rng, world: &World, lines: &mut Vec<Vec<u8>>, other: Vec<u8>) {
    let mut line = if lines.is_empty() { other.clone() } else { lines[rng.below(lines.len())].clone() };
    match rng.below(4) {
        0 => line = other,
        1 => (),
        _ => break_some_rule(rng, world, &mut line),
    }
    lines.insert(rng.below(lines.len() + 1), line);
}

/// A full list of a sender who has records in this register.
pub fn full_list(rng: &mut Rng, world: &World, sender: &[u8], reception: &[u8], register: &[u8]) -> Vec<Vec<u8>> {
    let mut pans = pans_of(register, sender);
    let n = sent(rng, pans.len());
    while pans.len() > n {
        pans.swap_remove(rng.below(pans.len()));
    }
    let mut lines: Vec<Vec<u8>> = Vec::new();
    for pan in pans {
        let mut line = right_line(rng, world, sender, reception);
        put(&mut line, 14, pan);
        lines.push(line);
    }
    let more = if rng.one_in(2) { rng.below(4) } else { 0 };
    for _ in 0..more {
        let other = right_line(rng, world, sender, reception);
        add(rng, world, &mut lines, other);
    }
    lines
}
