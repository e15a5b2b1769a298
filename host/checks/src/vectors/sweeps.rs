//! A sweep: a register by its letters, a place of it changed to an end, and the time, of any length.

use graftspindle::raw::Swept;

use super::answer::{kept, slots};
use super::blocks::{change, field, rest};
use super::{Answer, Samples};
use crate::plain;

/// The register before it and after it, and its answer.
fn swept(samples: &Samples, f: &[u8]) -> (Vec<u8>, Vec<u8>, Swept) {
    let mut before = samples.slots(field(f, 1, 4));
    change(&mut before, field(f, 6, 23));
    let mut register = before.clone();
    let done = plain::sweep(&mut register, rest(f, 25));
    (before, register, done)
}

pub fn of_sweep(samples: &Samples, f: &[u8]) -> Option<Answer> {
    let (before, register, done) = swept(samples, f);
    let mut behind = format!(" {}", done.removed).into_bytes();
    if done.number == 0 {
        behind.push(b'\n');
        behind.extend(slots(&register));
    } else {
        behind.push(b' ');
        behind.extend(kept(register == before));
    }
    Some(Answer { first: done.number.to_string(), behind })
}

/// How many went, alone.
pub fn of_gone(samples: &Samples, f: &[u8]) -> Option<Answer> {
    let (_, _, done) = swept(samples, f);
    Answer::number(done.removed)
}
