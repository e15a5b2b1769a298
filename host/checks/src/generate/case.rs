//! One import: everything handed over.

use super::damage::*;
use super::disorder::damage_register;
use super::file::{header, hgv, register, slots, used, Header};
use super::full::{full_list, held};
use super::line::{break_rule, reception, right_line};
use super::offset::{edge, either, offset, wrong_offset};
use super::rng::Rng;
use super::world::World;
use crate::plain::line::LINE;
use crate::plain::{self, register::SLOT};

#[derive(Debug, Clone, PartialEq, Eq)]
pub struct Case {
    pub mode: u64,
    pub reception: Vec<u8>,
    pub offset: i64,
    pub register: Vec<u8>,
    pub rows: Vec<u8>,
    pub hgv: Vec<u8>,
    pub hgc_len: usize,
}

/// L10 has as many parts as there are other rules, and comes as often.
pub fn break_some_rule(rng: &mut Rng, world: &World, line: &mut [u8]) {
    let rule = rng.between(1, 18).min(10);
    break_rule(rng, world, line, rule);
}

fn line(rng: &mut Rng, world: &World, sender: &[u8], reception: &[u8]) -> Vec<u8> {
    let mut line = right_line(rng, world, sender, reception);
    if rng.one_in(3) {
        break_some_rule(rng, world, &mut line);
    }
    if rng.one_in(12) {
        break_some_rule(rng, world, &mut line);
    }
    if rng.one_in(30) {
        let at = rng.between(1, 126);
        line[at] = rng.between(32, 255) as u8;
    }
    line
}

/// Lines of a file: right ones, faulty ones, earlier ones again.
pub fn lines(rng: &mut Rng, world: &World, sender: &[u8], reception: &[u8], most: usize) -> Vec<Vec<u8>> {
    let mut lines: Vec<Vec<u8>> = Vec::new();
    for _ in 0..rng.below(most + 1) {
        let again = !lines.is_empty() && rng.one_in(5);
        let line = match again {
            true => lines[rng.below(lines.len())].clone(),
            false => line(rng, world, sender, reception),
        };
        lines.push(line);
    }
    lines
}

/// Now and then a line that says what a record of the sender says already: it touches the record all the same.
pub fn repeat_held(rng: &mut Rng, lines: &mut Vec<Vec<u8>>, register: &[u8], sender: &[u8]) {
    let held: Vec<&[u8]> = used(register).filter(|slot| &slot[1..7] == sender).collect();
    if !held.is_empty() && rng.one_in(3) {
        let record = held[rng.below(held.len())][..LINE].to_vec();
        lines.insert(rng.below(lines.len() + 1), record);
    }
}

/// A case whose blocks are all of the right form; the buffer is long.
fn right_case(rng: &mut Rng, world: &World) -> (Case, Header) {
    let sender = world.actor(rng);
    let reception = if rng.one_in(8) { edge(rng) } else { reception(rng) };
    let offset = offset(rng);
    let around = either(rng, &reception, offset);
    let mut header = header(rng, &sender);
    let mode = rng.between(1, 2) as u64;
    if mode == 2 {
        header.version = b"120001".to_vec();
    }
    let most = if rng.one_in(40) { 60 } else { 9 };
    let about_half = mode == 2 && rng.one_in(3);
    let held = match about_half {
        true => held(rng, world, &sender, &around),
        false => slots(rng, world, 10, None),
    };
    let mut lines = match about_half {
        true => full_list(rng, world, &sender, &around, &held.concat()),
        false => lines(rng, world, &sender, &around, most),
    };
    let register = register(&held, most + 1);
    if !about_half {
        repeat_held(rng, &mut lines, &register, &sender);
    }
    let hgv = hgv(&header, &lines);
    let hgc_len = 174 + 130 * lines.len();
    let rows = world.bytes();
    (Case { mode, reception, offset, register, rows, hgv, hgc_len }, header)
}

/// The length the HGC will have, or that of a file without lines.
fn exact_length(case: &Case) -> usize {
    let mut register = case.register.clone();
    let mut hgc = vec![0; case.hgc_len];
    let Case { mode, reception, offset, rows, hgv, .. } = case;
    let answer = plain::import(*mode, reception, *offset, &mut register, rows, hgv, &mut hgc);
    (answer.length as usize).max(174)
}

/// Free slots for the lines cut down to a few.
fn fewer_slots(rng: &mut Rng, case: &mut Case) {
    let used = used(&case.register).count();
    case.register.truncate(SLOT * (used + rng.below(4)));
}

fn damage_hgv(rng: &mut Rng, case: &mut Case, kind: usize) {
    match kind {
        0 => damage_length(rng, &mut case.hgv),
        1 => damage_header(rng, &mut case.hgv),
        2 => damage_version(rng, &mut case.hgv),
        3 => damage_receiver(rng, &mut case.hgv),
        4 => damage_count(rng, &mut case.hgv),
        5 => damage_footer(rng, &mut case.hgv),
        6 => damage_line(rng, &mut case.hgv),
        _ => change_one_byte(rng, &mut case.hgv),
    }
}

fn forget_sender(case: &mut Case) {
    let sender = &case.hgv[1..7];
    let others = case.rows.chunks(24).filter(|row| row.get(18..) != Some(sender));
    case.rows = others.flatten().copied().collect();
}

fn full_list_of_220001(case: &mut Case) {
    case.mode = 2;
    case.hgv[94..100].copy_from_slice(b"220001");
}

fn damage(rng: &mut Rng, world: &World, case: &mut Case) {
    match rng.below(17) {
        0 => case.mode = wrong_mode(rng),
        1 => case.reception = wrong_time(rng),
        2 | 3 => damage_register(rng, world, &mut case.register),
        4 => damage_rows(rng, &mut case.rows),
        5 if case.hgv.len() >= 192 => forget_sender(case),
        6 if case.hgv.len() >= 192 => full_list_of_220001(case),
        7 => fewer_slots(rng, case),
        16 => case.offset = wrong_offset(rng),
        kind if case.hgv.len() >= 192 => damage_hgv(rng, case, kind % 8),
        _ => case.hgv.clear(),
    }
}

fn set_buffer(rng: &mut Rng, case: &mut Case) {
    let exact = exact_length(case);
    case.hgc_len = match rng.below(12) {
        0 => exact - 1,
        1 => exact,
        2 => rng.below(exact),
        _ => exact + rng.below(200),
    };
}

/// Half of the cases are of the right form, a third has one damage, the rest has two.
pub fn case(seed: u64) -> Case {
    let mut rng = Rng::new(seed);
    let world = World::new(&mut rng);
    let (mut case, _) = right_case(&mut rng, &world);
    if rng.one_in(6) {
        fewer_slots(&mut rng, &mut case);
    }
    set_buffer(&mut rng, &mut case);
    let damages = [0, 0, 0, 1, 1, 2][rng.below(6)];
    for _ in 0..damages {
        damage(&mut rng, &world, &mut case);
    }
    case
}
