//! HGV files from lines, and registers from records and their stamps.

use super::line::{put, put_wrong_weight, reception, right_line, valid_to, TIMES};
use super::rng::Rng;
use super::world::World;
use crate::plain::register::SLOT;

/// The header's fields; `hgv` writes them with the number of lines as the count.
#[derive(Clone)]
pub struct Header {
    pub sender: Vec<u8>,
    pub list: Vec<u8>,
    pub previous: Vec<u8>,
    pub creation: Vec<u8>,
    pub version: Vec<u8>,
}

fn sequence_name(sender: &[u8], date: &[u8], within_day: usize) -> Vec<u8> {
    let mut name = b"HGV".to_vec();
    name.extend(sender);
    name.extend(date);
    name.extend(format!("{within_day:02}").bytes());
    name
}

/// The name of a list: few of a sender, so that a file can have the one that stands in a stamp.
fn list(rng: &mut Rng, sender: &[u8]) -> Vec<u8> {
    let within_day = [1, 99, 10][rng.below(3)];
    let dates: [&[u8]; 4] = [b"20250310", b"20240229", b"00010101", b"99991231"];
    sequence_name(sender, rng.pick(&dates), within_day)
}

pub fn header(rng: &mut Rng, sender: &[u8]) -> Header {
    let list = list(rng, sender);
    let previous = match rng.below(3) {
        0 => list.clone(),
        1 => sequence_name(sender, b"20250309", 1),
        _ => b"HGV0000000000000000".to_vec(),
    };
    let version = rng.pick(&[b"120001", b"120001", b"220001"]).to_vec();
    Header { sender: sender.to_vec(), list, previous, creation: reception(rng), version }
}

pub fn hgv(header: &Header, lines: &[Vec<u8>]) -> Vec<u8> {
    let mut hgv = vec![b'0'; 128];
    put(&mut hgv, 2, &header.sender);
    put(&mut hgv, 8, b"000002");
    put(&mut hgv, 14, &header.list);
    put(&mut hgv, 33, &header.previous);
    put(&mut hgv, 66, format!("{:015}", lines.len()).as_bytes());
    put(&mut hgv, 81, &header.creation);
    put(&mut hgv, 95, &header.version);
    put(&mut hgv, 128, b"\n");
    hgv.extend(lines.concat());
    hgv.extend(footer());
    hgv
}

pub fn footer() -> Vec<u8> {
    let mut footer = vec![b'0'; 64];
    footer[0] = b'2';
    footer[63] = b'\n';
    footer
}

/// The slot of a record: a list of its actor's brought it, some time, as it may have been.
pub fn slot(rng: &mut Rng, record: Vec<u8>) -> Vec<u8> {
    let list = list(rng, &record[1..7]);
    let received = if rng.one_in(4) { rng.pick(&TIMES).to_vec() } else { reception(rng) };
    [record, list, received, vec![b'0'; 7]].concat()
}

/// Another actor's record, brought by a list of his.
pub fn put_actor(slot: &mut [u8], actor: &[u8]) {
    put(slot, 2, actor);
    put(slot, 132, actor);
}

/// Used slots with different PANs. Their PANs come from the providers' rows, but a record may
/// stand under another actor: rows are not asked of records. Nor are limits of weight.
pub fn slots(rng: &mut Rng, world: &World, most: usize, only: Option<&[u8]>) -> Vec<Vec<u8>> {
    let mut slots: Vec<Vec<u8>> = Vec::new();
    for _ in 0..rng.below(most + 1) {
        let record = record(rng, world, only);
        if slots.iter().all(|other| other[13..32] != record[13..32]) {
            slots.push(slot(rng, record));
        }
    }
    slots
}

fn record(rng: &mut Rng, world: &World, only: Option<&[u8]>) -> Vec<u8> {
    let time = reception(rng);
    let issuer = world.actor(rng);
    let mut record = right_line(rng, world, &issuer, &time);
    put(&mut record, 101, &valid_to(rng, &time));
    if rng.one_in(6) {
        put_wrong_weight(rng, &mut record);
    }
    match only {
        Some(actor) => put(&mut record, 2, actor),
        None if rng.one_in(3) => put(&mut record, 2, &world.actor(rng)),
        None if rng.one_in(8) => put(&mut record, 2, b"999999"),
        None => (),
    }
    record
}

pub fn register(used: &[Vec<u8>], free: usize) -> Vec<u8> {
    let mut register = used.concat();
    register.resize(register.len() + SLOT * free, 0);
    register
}

/// The used slots of a register; a slot that a damage has cut is none.
pub fn used(register: &[u8]) -> impl Iterator<Item = &[u8]> {
    register.chunks_exact(SLOT).filter(|slot| slot[0] == b'1')
}
