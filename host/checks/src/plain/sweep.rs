//! The sweep of ended records.

use super::line;
use super::register::{in_order, used_slots, InOrder, SLOT};
use super::words::{all_zeros, is_real_time};
use graftspindle::raw::Swept;

/// A refusal returns its number, and none went.
fn refused(number: u64) -> Swept {
    Swept { number, removed: 0 }
}

/// "Every record whose end is not zeros and not later than T". For real times the order of bytes is that of time.
fn goes(slot: &[u8], time: &[u8]) -> bool {
    let end = line::valid_to(slot);
    !all_zeros(end) && end <= time
}

/// "Closes up the rest in order": how many of the used slots stay, which then stand in front.
fn close_up(register: &mut [u8], used: usize, time: &[u8]) -> usize {
    let mut kept = 0;
    for place in 0..used {
        let slot = place * SLOT..(place + 1) * SLOT;
        if !goes(&register[slot.clone()], time) {
            register.copy_within(slot, kept * SLOT);
            kept += 1;
        }
    }
    kept
}

/// Both refusals are known before the first byte is written.
pub fn sweep_by(register: &mut [u8], time: &[u8], in_order: InOrder) -> Swept {
    if !is_real_time(time) {
        return refused(22);
    }
    if !in_order(register) {
        return refused(23);
    }
    let used = used_slots(register).len();
    let kept = close_up(register, used, time);
    register[kept * SLOT..].fill(0);
    Swept { number: 0, removed: (used - kept) as u64 }
}

pub fn sweep(register: &mut [u8], time: &[u8]) -> Swept {
    sweep_by(register, time, in_order)
}
