//! Imports of thousands of lines into thousands of slots, up to the limits of both.

use std::collections::HashSet;

use super::case::{break_some_rule, Case};
use super::file::{header, hgv, register, slot};
use super::line::{put, put_wrong_weight, reception, right_line};
use super::offset::offset;
use super::rng::Rng;
use super::world::World;
use crate::hashed;

const MOST: usize = 8192;

/// Enough accounts for a full register, few enough for PANs to meet again.
const ACCOUNTS: usize = 12_000;

fn line(rng: &mut Rng, world: &World, actor: &[u8], reception: &[u8]) -> Vec<u8> {
    let mut line = right_line(rng, world, actor, reception);
    put(&mut line, 14, &world.pan(rng, actor, ACCOUNTS));
    line
}

fn lines(rng: &mut Rng, world: &World, sender: &[u8], reception: &[u8], n: usize) -> Vec<Vec<u8>> {
    let mut lines: Vec<Vec<u8>> = Vec::new();
    while lines.len() < n {
        let mut next = line(rng, world, sender, reception);
        if rng.one_in(12) {
            break_some_rule(rng, world, &mut next);
        }
        if rng.one_in(20) && !lines.is_empty() {
            next = lines[rng.below(lines.len())].clone();
        }
        lines.push(next);
    }
    lines
}

fn slots(rng: &mut Rng, world: &World, reception: &[u8], n: usize) -> Vec<Vec<u8>> {
    let mut pans = HashSet::new();
    let drawn = (0..n).map(|_| {
        let actor = world.actor(rng);
        let mut record = line(rng, world, &actor, reception);
        if rng.one_in(12) {
            put_wrong_weight(rng, &mut record);
        }
        slot(rng, record)
    });
    drawn.filter(|slot| pans.insert(slot[13..32].to_vec())).collect()
}

/// Slots for all lines, for a quarter of them, or as many as there can be.
fn free_slots(rng: &mut Rng, used: usize, n: usize) -> usize {
    let wanted = if rng.one_in(3) { n / 4 } else { n };
    wanted.min(MOST - used)
}

fn size(rng: &mut Rng) -> usize {
    if rng.one_in(3) {
        MOST
    } else {
        rng.between(500, MOST)
    }
}

/// The buffer is exact; where 33 is given, its length plays no part.
pub fn large(seed: u64) -> Case {
    let mut rng = Rng::new(seed);
    let world = World::new(&mut rng);
    let (sender, reception) = (world.actor(&mut rng), reception(&mut rng));
    let (n, held) = (size(&mut rng), size(&mut rng) / 2);
    let mut header = header(&mut rng, &sender);
    header.version = b"120001".to_vec();
    let hgv = hgv(&header, &lines(&mut rng, &world, &sender, &reception, n));
    let used = slots(&mut rng, &world, &reception, held);
    let register = register(&used, free_slots(&mut rng, used.len(), n));
    let (mode, offset) = (rng.between(1, 2) as u64, offset(&mut rng));
    let rows = world.bytes();
    let mut buffer = vec![0; 174 + 130 * n];
    let answer = hashed::import(mode, &reception, offset, &mut register.clone(), &rows, &hgv, &mut buffer);
    let hgc_len = answer.length as usize;
    Case { mode, reception, offset, register, rows, hgv, hgc_len }
}
