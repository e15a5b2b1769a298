//! A register and the keys of both lookups.

use super::damage::{change_length, change_one_byte, wrong_time};
use super::disorder::damage_register;
use super::file::{register, slots};
use super::line::{plate, put, reception, time_around};
use super::rng::Rng;
use super::world::{padded, World};

#[derive(Debug, Clone, PartialEq, Eq)]
pub struct Question {
    pub register: Vec<u8>,
    pub pan: Vec<u8>,
    pub plate: Vec<u8>,
    pub nationality: Vec<u8>,
    pub time: Vec<u8>,
}

/// The keys of a record, with a time around its end.
fn question_about(rng: &mut Rng, record: &[u8]) -> Question {
    let end = record[100..114].to_vec();
    let asked = if end == [b'0'; 14] { reception(rng) } else { end };
    Question {
        register: Vec::new(),
        pan: record[13..32].to_vec(),
        plate: record[32..42].to_vec(),
        nationality: record[42..45].to_vec(),
        time: time_around(rng, &asked),
    }
}

fn question_at_random(rng: &mut Rng, world: &World) -> Question {
    let actor = world.actor(rng);
    Question {
        register: Vec::new(),
        pan: world.pan(rng, &actor, 4),
        plate: padded(&plate(rng), 10),
        nationality: b"NO ".to_vec(),
        time: reception(rng),
    }
}

fn damage_key(rng: &mut Rng, key: &mut Vec<u8>) {
    match rng.below(3) {
        0 => change_length(rng, key, 2),
        1 => key.fill(b' '),
        _ => change_one_byte(rng, key),
    }
}

fn damage(rng: &mut Rng, world: &World, question: &mut Question) {
    match rng.below(5) {
        0 => damage_register(rng, world, &mut question.register),
        1 => damage_key(rng, &mut question.pan),
        2 => damage_key(rng, &mut question.plate),
        3 => damage_key(rng, &mut question.nationality),
        _ => question.time = wrong_time(rng),
    }
}

/// Records that share plate and nationality, so that more than one can be active.
fn share_plates(rng: &mut Rng, slots: &mut [Vec<u8>]) {
    for slot in slots {
        if rng.one_in(2) {
            put(slot, 33, b"ABC123    NO ");
            put(slot, 115, b"30");
        }
    }
}

pub fn question(seed: u64) -> Question {
    let mut rng = Rng::new(seed);
    let world = World::new(&mut rng);
    let mut used = slots(&mut rng, &world, 8, None);
    share_plates(&mut rng, &mut used);
    let mut question = match used.is_empty() || rng.one_in(4) {
        true => question_at_random(&mut rng, &world),
        false => {
            let asked = rng.below(used.len());
            question_about(&mut rng, &used[asked])
        }
    };
    question.register = register(&used, rng.below(4));
    if rng.one_in(3) {
        damage(&mut rng, &world, &mut question);
    }
    if rng.one_in(10) {
        damage(&mut rng, &world, &mut question);
    }
    question
}
