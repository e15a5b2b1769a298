//! The provider's side: reading an HGC back, and the update of his copy.

use super::pairing::{self, Clause};
use super::register::{self, after, in_order, InOrder, Stamp};
use super::{clock, confirmation, hgv, line};
use graftspindle::raw::Counted;

/// A stop returns its number and zero for the rest.
pub fn count_stopped(number: u64) -> Counted {
    Counted { number, taken: 0, rejected: 0 }
}

/// The first of 25 to 27, 29 (receiver only), 30 to 32, or 0.
pub fn read_back_stop_to_32(hgv: &[u8]) -> u64 {
    match hgv::stop_25_to_27(hgv) {
        0 if hgv::is_29_receiver(hgv) => 29,
        0 => hgv::stop_30_to_32(hgv),
        stop => stop,
    }
}

/// The clauses that make 52; none where an earlier stop of read back is given.
pub fn clauses_of_52(hgv: &[u8], hgc: &[u8]) -> Vec<Clause> {
    if read_back_stop_to_32(hgv) != 0 {
        return Vec::new();
    }
    pairing::clauses_of_52(hgv, hgc)
}

pub fn read_back(hgv: &[u8], hgc: &[u8], verdicts: &mut [u8]) -> Counted {
    let stop = read_back_stop_to_32(hgv);
    if stop != 0 {
        return count_stopped(stop);
    }
    if !pairing::clauses_of_52(hgv, hgc).is_empty() {
        return count_stopped(52);
    }
    let marks = pairing::taken_marks(&hgv::lines(hgv), &confirmation::lines(hgc));
    finish_read_back(hgc, &marks, verdicts)
}

pub fn finish_read_back(hgc: &[u8], marks: &[bool], verdicts: &mut [u8]) -> Counted {
    if verdicts.len() < marks.len() {
        return count_stopped(53);
    }
    verdicts[..marks.len()].copy_from_slice(&pairing::verdicts_told(marks, hgc));
    counted(marks)
}

pub fn counted(marks: &[bool]) -> Counted {
    let taken = marks.iter().filter(|&&mark| mark).count() as u64;
    Counted { number: 0, taken, rejected: marks.len() as u64 - taken }
}

/// The first of 21, 23, 25 to 28, 29 (receiver only), 51, 30 to 32, or 0.
pub fn update_stop_to_32(mode: u64, copy: &[u8], hgv: &[u8], in_order: InOrder) -> u64 {
    if mode != 1 && mode != 2 {
        return 21;
    }
    if !in_order(copy) {
        return 23;
    }
    match hgv::stop_25_to_27(hgv) {
        0 if hgv::is_28(mode, hgv) => 28,
        0 if hgv::is_29_receiver(hgv) => 29,
        0 if is_51(copy, hgv) => 51,
        0 => hgv::stop_30_to_32(hgv),
        stop => stop,
    }
}

/// 51: another actor than the sender in the copy.
fn is_51(copy: &[u8], hgv: &[u8]) -> bool {
    register::used_slots(copy).iter().any(|slot| line::actor(slot) != hgv::sender(hgv))
}

/// "It uses the HGC's reception", in UTC. None is 52.
pub fn reception_told(hgc: &[u8], offset: i64) -> Option<Vec<u8>> {
    clock::utc(confirmation::reception(hgc), offset)
}

/// That, and the HGC's list.
pub fn stamp_told<'a>(hgc: &'a [u8], reception: &'a [u8]) -> Stamp<'a> {
    Stamp { list: confirmation::list_sequence(hgc), reception }
}

pub fn update(mode: u64, offset: i64, copy: &mut [u8], hgv: &[u8], hgc: &[u8]) -> Counted {
    let stop = update_stop_to_32(mode, copy, hgv, in_order);
    if stop != 0 {
        return count_stopped(stop);
    }
    if !pairing::clauses_of_52(hgv, hgc).is_empty() {
        return count_stopped(52);
    }
    let Some(reception) = reception_told(hgc, offset) else {
        return count_stopped(52);
    };
    let lines = hgv::lines(hgv);
    let marks = pairing::taken_marks(&lines, &confirmation::lines(hgc));
    let taken = pairing::marked(&lines, &marks, true);
    let stamp = stamp_told(hgc, &reception);
    let after = after(mode, copy, hgv::sender(hgv), &taken, &stamp, register::after_mode_1);
    finish_update(copy, &marks, &after)
}

pub fn finish_update(copy: &mut [u8], marks: &[bool], after: &[Vec<u8>]) -> Counted {
    if register::is_33(copy, after) {
        return count_stopped(33);
    }
    register::write(copy, after);
    counted(marks)
}
