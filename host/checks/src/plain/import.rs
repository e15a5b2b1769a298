//! The import: its stops, and what it writes; and the same with an index that is lent.

use super::register::{self, after, in_order, InOrder, Stamp};
use super::{clock, confirmation, hgv, line, rows, verdict};
use graftspindle::raw::Imported;

/// A stop returns its number and zero for the rest.
pub fn import_stopped(number: u64) -> Imported {
    Imported { number, taken: 0, rejected: 0, length: 0 }
}

/// The first of 21 to 32, or 0.
pub fn import_stop_to_32(
    mode: u64,
    reception: &[u8],
    offset: i64,
    register: &[u8],
    rows: &[u8],
    hgv: &[u8],
    in_order: InOrder,
) -> u64 {
    if mode != 1 && mode != 2 {
        return 21;
    }
    if clock::local(reception, offset).is_none() {
        return 22;
    }
    if !in_order(register) {
        return 23;
    }
    if !rows::rows_right(rows) {
        return 24;
    }
    import_stop_25_to_32(mode, rows, hgv)
}

fn import_stop_25_to_32(mode: u64, rows: &[u8], hgv: &[u8]) -> u64 {
    match hgv::stop_25_to_27(hgv) {
        0 if hgv::is_28(mode, hgv) => 28,
        0 if hgv::is_29_receiver(hgv) || rows::rows_of(rows, hgv::sender(hgv)).is_empty() => 29,
        0 => hgv::stop_30_to_32(hgv),
        stop => stop,
    }
}

/// The number of the rule each line breaks first, 0 for a taken one; none where one of the
/// stops 21 to 32 is given. Verdicts use neither mode nor reception nor offset.
pub fn rules_broken(register: &[u8], rows: &[u8], hgv: &[u8]) -> Vec<u8> {
    let reception = b"20250310050000";
    if import_stop_to_32(1, reception, 0, register, rows, hgv, in_order) != 0 {
        return Vec::new();
    }
    let used = register::used_slots(register);
    verdict::rules(&hgv::lines(hgv), hgv::sender(hgv), rows, &used)
}

pub fn import(
    mode: u64,
    reception: &[u8],
    offset: i64,
    register: &mut [u8],
    rows: &[u8],
    hgv: &[u8],
    hgc: &mut [u8],
) -> Imported {
    let stop = import_stop_to_32(mode, reception, offset, register, rows, hgv, in_order);
    if stop != 0 {
        return import_stopped(stop);
    }
    let (lines, sender) = (hgv::lines(hgv), hgv::sender(hgv));
    let rules = verdict::rules(&lines, sender, rows, &register::used_slots(register));
    let verdicts = verdict::verdicts(&lines, &rules);
    let taken = verdict::taken_lines(&lines, &verdicts);
    let stamp = Stamp { list: hgv::list_sequence(hgv), reception };
    let after = after(mode, register, sender, &taken, &stamp, register::after_mode_1);
    finish_import(mode, &shown(reception, offset), register, hgv, hgc, &verdicts, &after)
}

/// 36: "index shorter than the slots". All slots count, used and free.
pub fn is_36(register: &[u8], index: &[u16]) -> bool {
    index.len() < register.len() / register::SLOT
}

/// "After 24 and before 25": what an import is stopped with whose index is too short, by its stop without one, or 0.
pub fn stop_with_36(stop: u64) -> u64 {
    match stop {
        21..=24 => stop,
        _ => 36,
    }
}

/// "Let the caller lend an index of 16-bit slot numbers, in any state, and use it. After the call, stops included, its bytes mean
/// nothing." Nothing is found by it here: each of its numbers is turned into another, which nobody may notice.
#[expect(clippy::too_many_arguments, reason = "they are the definition's")]
pub fn import_indexed(
    mode: u64,
    reception: &[u8],
    offset: i64,
    register: &mut [u8],
    rows: &[u8],
    hgv: &[u8],
    hgc: &mut [u8],
    index: &mut [u16],
) -> Imported {
    let is_short = is_36(register, index);
    index.iter_mut().for_each(|number| *number = !*number);
    if is_short {
        let without = import_stop_to_32(mode, reception, offset, register, rows, hgv, in_order);
        return import_stopped(stop_with_36(without));
    }
    import(mode, reception, offset, register, rows, hgv, hgc)
}

/// The reception as the HGC shows it; 22 lets none pass that cannot be shown.
pub fn shown(reception: &[u8], offset: i64) -> Vec<u8> {
    clock::local(reception, offset).unwrap_or_default()
}

/// 35: "In mode 2, if twice the taken lines is less than the records held for the sender, stop." Held is what the register
/// has before the file, ended records too.
fn is_35(mode: u64, register: &[u8], sender: &[u8], taken: usize) -> bool {
    let held = register::used_slots(register).iter().filter(|slot| line::actor(slot) == sender).count();
    mode == 2 && 2 * taken < held
}

/// 35, 33 and 34, in this order, are known before the first byte is written. The time is the one that the HGC shows.
pub fn finish_import(
    mode: u64,
    shown: &[u8],
    register: &mut [u8],
    hgv: &[u8],
    hgc: &mut [u8],
    verdicts: &[u8],
    after: &[Vec<u8>],
) -> Imported {
    let taken = verdicts.iter().filter(|&&v| v == 0).count();
    if is_35(mode, register, hgv::sender(hgv), taken) {
        return import_stopped(35);
    }
    if register::is_33(register, after) {
        return import_stopped(33);
    }
    let confirmation = confirmation::confirmation(hgv, shown, verdicts);
    if hgc.len() < confirmation.len() {
        return import_stopped(34);
    }
    register::write(register, after);
    hgc[..confirmation.len()].copy_from_slice(&confirmation);
    let rejected = verdicts.len() - taken;
    Imported { number: 0, taken: taken as u64, rejected: rejected as u64, length: confirmation.len() as u64 }
}
