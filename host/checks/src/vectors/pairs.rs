//! An HGV and its HGC, by their letters: the length of each where it is not its own, and a place of the HGV (V) or of the HGC
//! (C) changed. An HGC is read back into a block of so many bytes, or a copy is updated in a mode.

use super::answer::{kept, slots};
use super::blocks::{change, field, number, rest, sent};
use super::imports::counted;
use super::{Answer, Samples};
use crate::plain;

/// No verdict.
const UNWRITTEN: u8 = 238;

fn change_in(block: &mut [u8], pair: &[u8], file: u8) {
    if field(pair, 23, 23) == [file] {
        change(block, rest(pair, 25));
    }
}

/// What is sent, and what comes back.
fn laid(samples: &Samples, pair: &[u8]) -> (Vec<u8>, Vec<u8>) {
    let hgv = sent(samples.hgv(field(pair, 1, 5)), field(pair, 13, 16), |hgv| change_in(hgv, pair, b'V'));
    let hgc = sent(samples.hgc(field(pair, 7, 11)), field(pair, 18, 21), |hgc| change_in(hgc, pair, b'C'));
    (hgv, hgc)
}

fn verdict(told: u8) -> String {
    if told == UNWRITTEN {
        return " kept".to_string();
    }
    format!(" {told}")
}

pub fn of_read(samples: &Samples, f: &[u8]) -> Option<Answer> {
    let (hgv, hgc) = laid(samples, rest(f, 3));
    let mut block = vec![UNWRITTEN; number(field(f, 1, 1)).min(9)];
    let done = plain::read_back(&hgv, &hgc, &mut block);
    let verdicts: String = block.into_iter().map(verdict).collect();
    let behind = format!("{}, block{verdicts}", counted(done.taken, done.rejected)).into_bytes();
    Some(Answer { first: done.number.to_string(), behind })
}

pub fn of_update(samples: &Samples, offset: i64, f: &[u8]) -> Option<Answer> {
    let (hgv, hgc) = laid(samples, rest(f, 8));
    let before = samples.slots(field(f, 3, 6));
    let mut copy = before.clone();
    let done = plain::update(number(field(f, 1, 1)) as u64, offset, &mut copy, &hgv, &hgc);
    let mut behind = counted(done.taken, done.rejected).into_bytes();
    if done.number == 0 {
        behind.push(b'\n');
        behind.extend(slots(&copy));
    } else {
        behind.push(b' ');
        behind.extend(kept(copy == before));
    }
    Some(Answer { first: done.number.to_string(), behind })
}
