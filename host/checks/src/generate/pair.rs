//! An HGV with an HGC, and a provider's copy: inputs of reading back and of the update. The
//! HGC is put together here from rejections chosen freely: the provider cannot judge them.

use super::case::lines;
use super::damage::*;
use super::disorder::damage_register;
use super::file::{footer, header, hgv, register, slots};
use super::line::{break_rule, plate, put, reception, right_line};
use super::offset::{edge, either, offset, shown, wrong_offset};
use super::rng::Rng;
use super::world::{padded, World};
use crate::plain::register::SLOT;

#[derive(Debug, Clone, PartialEq, Eq)]
pub struct Pair {
    pub mode: u64,
    pub offset: i64,
    pub copy: Vec<u8>,
    pub hgv: Vec<u8>,
    pub hgc: Vec<u8>,
    pub verdicts_len: usize,
}

const REASONS: [&[u8]; 9] = [b"01", b"02", b"03", b"04", b"05", b"06", b"08", b"09", b"12"];
const WRONG_REASONS: [&[u8]; 10] = [b"00", b"07", b"10", b"11", b"13", b"99", b"1 ", b" 1", b"0A", b"21"];

/// The copies of the rejected lines, each with a reason.
type Rejected = Vec<Vec<u8>>;

fn rejected_line(rng: &mut Rng, line: &[u8]) -> Vec<u8> {
    let mut copy = line[..127].to_vec();
    copy.extend(rng.pick(&REASONS));
    copy.push(b'\n');
    copy
}

fn hgc(hgv: &[u8], reception: &[u8], taken: usize, rejected: &Rejected) -> Vec<u8> {
    let mut hgc = b"0000002".to_vec();
    hgc.extend(&hgv[1..7]);
    hgc.extend(&hgv[13..32]);
    hgc.extend(reception);
    hgc.extend(format!("{:015}{:015}120001{:025}", taken, rejected.len(), 0).bytes());
    hgc.extend(if rejected.is_empty() { b"00\n" } else { b"01\n" });
    hgc.extend(rejected.concat());
    hgc.extend(footer());
    hgc
}

/// A line is rejected that is faulty, that repeats a PAN, and now and then a right one. One that is over a limit of weight may
/// have been taken before the limits were amended.
fn split(rng: &mut Rng, sender: &[u8], lines: &[Vec<u8>]) -> (usize, Rejected) {
    let (mut pans, mut rejected): (Vec<&[u8]>, Rejected) = (Vec::new(), Vec::new());
    for line in lines {
        let pan = &line[13..32];
        let faulty = &line[1..7] != sender || !crate::plain::line::record_rules_hold(line);
        if faulty || pans.contains(&pan) || rng.one_in(12) {
            rejected.push(rejected_line(rng, line));
        } else {
            pans.push(pan);
        }
    }
    (pans.len(), rejected)
}

/// Lines the HGC calls taken although it must not: a shared PAN, another actor, a fault. A weight over its limit is none.
fn smuggle(rng: &mut Rng, world: &World, lines: &mut Vec<Vec<u8>>, sender: &[u8]) -> usize {
    let time = reception(rng);
    let mut line = right_line(rng, world, sender, &time);
    match rng.below(3) {
        0 => {
            let mut twin = line.clone();
            put(&mut twin, 33, &padded(&plate(rng), 10));
            put(&mut twin, 115, b"00");
            lines.push(twin);
            lines.push(line);
            return 2;
        }
        1 => put(&mut line, 2, b"900888"),
        _ => {
            let rule = [1, 5, 6, 7, 8, 9].get(rng.below(15)).copied().unwrap_or(10);
            break_rule(rng, world, &mut line, rule);
        }
    }
    lines.push(line);
    1
}

fn wrong_counts(rng: &mut Rng, hgc: &mut [u8]) {
    let from = [47, 62][rng.below(2)];
    let wrong = rng.pick(&[b"000000000000100", b"00000000000000A", b"              1", b"999999999999999"]);
    put(hgc, from, wrong);
}

fn swap_lines(rng: &mut Rng, hgc: &mut [u8]) {
    let n = (hgc.len() - 174) / 130;
    if n < 2 {
        return;
    }
    let (a, b) = (110 + 130 * rng.below(n), 110 + 130 * rng.below(n));
    let first = hgc[a..a + 130].to_vec();
    hgc.copy_within(b..b + 130, a);
    hgc[b..b + 130].copy_from_slice(&first);
}

/// One more copy of a rejected line, or one less, the header told or not.
fn wrong_lines(rng: &mut Rng, hgc: &mut Vec<u8>) {
    let n = (hgc.len() - 174) / 130;
    if n == 0 {
        return;
    }
    let from = 110 + 130 * rng.below(n);
    let line = hgc[from..from + 130].to_vec();
    let after = match rng.one_in(2) {
        true => hgc.splice(from..from, line).count() + n + 1,
        false => hgc.drain(from..from + 130).count() - 130 + n - 1,
    };
    if rng.one_in(2) {
        put(hgc, 62, format!("{after:015}").as_bytes());
    }
}

fn damage_one_line(rng: &mut Rng, hgc: &mut [u8]) {
    let n = (hgc.len() - 174) / 130;
    if n == 0 {
        return;
    }
    let from = 110 + 130 * rng.below(n);
    let line = &mut hgc[from..from + 130];
    match rng.below(4) {
        0 => put(line, 128, rng.pick(&WRONG_REASONS)),
        1 => line[0] = rng.other_byte(b'1'),
        2 => line[129] = rng.other_byte(b'\n'),
        _ => change_one_byte(rng, &mut line[1..127]),
    }
}

fn damage_fields(rng: &mut Rng, hgc: &mut [u8]) {
    match rng.below(9) {
        0 => put(hgc, 8, rng.pick(&[b"900124", b"000002", b"90012A", b"900129"])),
        1 => put(hgc, 14, rng.pick(&[b"HGC", b"HGW", b"HG0"])),
        2 => put(hgc, 23, b"20110101"),
        3 => put(hgc, 33, &wrong_time(rng).iter().copied().chain([b'0'; 14]).take(14).collect::<Vec<u8>>()),
        4 => put(hgc, 77, rng.pick(&[b"220001", b"500001", b"120000"])),
        5 => put(hgc, 108, rng.pick(&[b"00", b"01", b"02", b"10", b" 0", b"11"])),
        6 => put(hgc, 83, rng.pick(&[b"1", b" "])),
        7 => put(hgc, 1, rng.pick(&[b"1000002", b"0000001", b"0900123"])),
        _ => wrong_counts(rng, hgc),
    }
}

fn damage_hgc(rng: &mut Rng, hgc: &mut Vec<u8>) {
    match rng.below(6) {
        0 => change_length(rng, hgc, 130),
        1 => change_one_byte(rng, hgc),
        2 => swap_lines(rng, hgc),
        3 => wrong_lines(rng, hgc),
        4 => damage_one_line(rng, hgc),
        _ => damage_fields(rng, hgc),
    }
}

fn damage_rest(rng: &mut Rng, world: &World, pair: &mut Pair) {
    let n = (pair.hgv.len() - 192) / 128;
    match rng.below(13) {
        0 => pair.mode = wrong_mode(rng),
        1 => damage_register(rng, world, &mut pair.copy),
        2 => damage_length(rng, &mut pair.hgv),
        3 => damage_header(rng, &mut pair.hgv),
        4 => damage_receiver(rng, &mut pair.hgv),
        5 => damage_line(rng, &mut pair.hgv),
        6 => pair.verdicts_len = rng.below(n + 1),
        7 => pair.copy.truncate(pair.copy.len() / SLOT / 2 * SLOT),
        8 => damage_version(rng, &mut pair.hgv),
        9 => damage_count(rng, &mut pair.hgv),
        10 => damage_footer(rng, &mut pair.hgv),
        11 => pair.offset = wrong_offset(rng),
        _ => change_one_byte(rng, &mut pair.hgv),
    }
}

fn right_pair(rng: &mut Rng, world: &World) -> Pair {
    let sender = world.actor(rng);
    let (reception, offset) = (reception(rng), offset(rng));
    let shown = if rng.one_in(8) { edge(rng) } else { shown(&reception, offset) };
    let around = either(rng, &reception, offset);
    let mode = rng.between(1, 2) as u64;
    let mut header = header(rng, &sender);
    if mode == 2 && !rng.one_in(10) {
        header.version = b"120001".to_vec();
    }
    let mut lines = lines(rng, world, &sender, &around, 8);
    let (mut taken, rejected) = split(rng, &sender, &lines);
    if rng.one_in(6) {
        taken += smuggle(rng, world, &mut lines, &sender);
    }
    let hgv = hgv(&header, &lines);
    let hgc = hgc(&hgv, &shown, taken, &rejected);
    let only = if rng.one_in(12) { None } else { Some(&sender[..]) };
    let free = rng.below(9);
    let copy = register(&slots(rng, world, 6, only), free);
    let verdicts_len = lines.len() + rng.below(3);
    Pair { mode, offset, copy, hgv, hgc, verdicts_len }
}

pub fn pair(seed: u64) -> Pair {
    let mut rng = Rng::new(seed);
    let world = World::new(&mut rng);
    let mut pair = right_pair(&mut rng, &world);
    if rng.one_in(2) {
        damage_hgc(&mut rng, &mut pair.hgc);
    }
    if rng.one_in(4) {
        damage_rest(&mut rng, &world, &mut pair);
    }
    pair
}
