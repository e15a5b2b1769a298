//! A register of four slots, a letter for each, and what is asked of it.

use super::blocks::{change, field, rest, LETTERS, SLOT};
use super::{Answer, Samples};
use crate::plain;
use std::ops::Range;

/// The number, and where it is 0 the place and the length of the slot.
fn found((number, slot): (u64, Range<usize>)) -> Option<Answer> {
    let place = || format!(" at {} length {}", slot.start / SLOT, slot.len());
    let behind = if number == 0 { place() } else { String::new() };
    Some(Answer { first: number.to_string(), behind: behind.into_bytes() })
}

/// In order or not, with one place changed where one is named. There is room for a slot more than its letters name.
fn ordered(mut register: Vec<u8>, f: &[u8]) -> Option<Answer> {
    let own = register.len();
    register.resize(LETTERS * SLOT, 0);
    change(&mut register, rest(f, 6));
    Answer::truth(plain::in_order(&register[..own]))
}

pub fn answer(samples: &Samples, tag: &[u8], f: &[u8]) -> Option<Answer> {
    let register = samples.slots(field(f, 1, 4));
    match tag {
        b"ordered " => ordered(register, f),
        b"by pan  " => found(plain::by_pan(&register, rest(f, 6))),
        _ => found(plain::by_plate(&register, field(f, 6, 15), field(f, 16, 18), rest(f, 19))),
    }
}
