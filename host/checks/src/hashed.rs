//! The same answers as `plain`, with every search over PANs, plates and texts hashed.

use std::collections::{HashMap, HashSet};
use std::ops::Range;

use crate::plain::import::{finish_import, import_stop_to_32, import_stopped, is_36, shown, stop_with_36};
use crate::plain::lookup::{answer_by_plate, plate_stop};
use crate::plain::provider::{
    count_stopped, finish_read_back, finish_update, read_back_stop_to_32, reception_told, stamp_told, update_stop_to_32,
};
use crate::plain::register::{self, after, Stamp, SLOT};
use crate::plain::sweep::sweep_by;
use crate::plain::writer::write_by;
use crate::plain::{confirmation, hgv, line, pairing, rows, verdict};
use graftspindle::raw::{Counted, Imported, List, Swept, Written};

/// The place of each PAN among slots whose PANs are all different.
fn places<'a>(slots: &[&'a [u8]]) -> HashMap<&'a [u8], usize> {
    slots.iter().enumerate().map(|(place, slot)| (line::pan(slot), place)).collect()
}

fn pans_differ(lines: &[&[u8]]) -> bool {
    let pans: HashSet<&[u8]> = lines.iter().map(|l| line::pan(l)).collect();
    pans.len() == lines.len()
}

pub fn in_order(register: &[u8]) -> bool {
    register::in_order_but_pans(register) && pans_differ(&register::used_slots(register))
}

fn verdicts(lines: &[&[u8]], sender: &[u8], rows: &[u8], used: &[&[u8]]) -> Vec<u8> {
    let rows = rows::rows_of(rows, sender);
    let actors: HashMap<&[u8], &[u8]> = used.iter().map(|slot| (line::pan(slot), line::actor(slot))).collect();
    let mut taken: HashSet<&[u8]> = HashSet::new();
    let mut rule = |l, pan| match verdict::rule_l1_to_l10(l, sender, &rows) {
        0 if actors.get(&pan).is_some_and(|holder| *holder != sender) => 11,
        0 if !taken.insert(pan) => 12,
        rule => rule,
    };
    lines.iter().map(|l| verdict::reason_of(rule(l, line::pan(l)), l)).collect()
}

fn after_mode_1(register: &[u8], taken: &[&[u8]], stamp: &Stamp) -> Vec<Vec<u8>> {
    let used = register::used_slots(register);
    let places = places(&used);
    let mut after: Vec<Vec<u8>> = used.iter().map(|slot| slot.to_vec()).collect();
    for line in taken {
        let slot = register::slot_of(line, stamp);
        match places.get(line::pan(line)) {
            Some(&place) => after[place] = slot,
            None => after.push(slot),
        }
    }
    after
}

pub fn import(
    mode: u64,
    reception: &[u8],
    offset: i64,
    register: &mut [u8],
    rows: &[u8],
    hgv: &[u8],
    hgc: &mut [u8],
) -> Imported {
    let stop = import_stop_to_32(mode, reception, offset, register, rows, hgv, in_order);
    if stop != 0 {
        return import_stopped(stop);
    }
    let (lines, sender) = (hgv::lines(hgv), hgv::sender(hgv));
    let verdicts = verdicts(&lines, sender, rows, &register::used_slots(register));
    let taken = verdict::taken_lines(&lines, &verdicts);
    let stamp = Stamp { list: hgv::list_sequence(hgv), reception };
    let after = after(mode, register, sender, &taken, &stamp, after_mode_1);
    finish_import(mode, &shown(reception, offset), register, hgv, hgc, &verdicts, &after)
}

/// The maps are its own index, and the one that is lent stays as it was.
#[expect(clippy::too_many_arguments, reason = "they are the definition's")]
pub fn import_indexed(
    mode: u64,
    reception: &[u8],
    offset: i64,
    register: &mut [u8],
    rows: &[u8],
    hgv: &[u8],
    hgc: &mut [u8],
    index: &mut [u16],
) -> Imported {
    if is_36(register, index) {
        let without = import_stop_to_32(mode, reception, offset, register, rows, hgv, in_order);
        return import_stopped(stop_with_36(without));
    }
    import(mode, reception, offset, register, rows, hgv, hgc)
}

pub fn by_pan(register: &[u8], pan: &[u8]) -> (u64, Range<usize>) {
    if !in_order(register) {
        return (23, 0..0);
    }
    if !line::is_pan(pan) {
        return (40, 0..0);
    }
    match places(&register::used_slots(register)).get(pan) {
        Some(place) => (0, place * SLOT..place * SLOT + SLOT),
        None => (41, 0..0),
    }
}

/// The places of the active records under each plate and nationality (33-45).
fn active_places<'a>(register: &'a [u8], time: &[u8]) -> HashMap<&'a [u8], Vec<usize>> {
    let mut places: HashMap<&[u8], Vec<usize>> = HashMap::new();
    for (place, slot) in register::used_slots(register).into_iter().enumerate() {
        if register::is_active(slot, time) {
            places.entry(&slot[32..45]).or_default().push(place);
        }
    }
    places
}

pub fn by_plate(register: &[u8], plate: &[u8], nationality: &[u8], time: &[u8]) -> (u64, Range<usize>) {
    let stop = plate_stop(register, plate, nationality, time, in_order);
    if stop != 0 {
        return (stop, 0..0);
    }
    let key = [plate, nationality].concat();
    let places = active_places(register, time);
    answer_by_plate(places.get(&key[..]).map_or(&[], |found| found))
}

fn text_counts<'a>(lines: &[&'a [u8]]) -> HashMap<&'a [u8], usize> {
    let mut counts = HashMap::new();
    for l in lines {
        *counts.entry(line::text(l)).or_insert(0) += 1;
    }
    counts
}

fn taken_marks(lines: &[&[u8]], copies: &[&[u8]]) -> Vec<bool> {
    let (sent, returned) = (text_counts(lines), text_counts(copies));
    let count = |counts: &HashMap<&[u8], usize>, text| counts.get(text).copied().unwrap_or(0);
    let mut seen: HashSet<&[u8]> = HashSet::new();
    let mut is_taken = |text| seen.insert(text) && count(&sent, text) > count(&returned, text);
    lines.iter().map(|l| is_taken(line::text(l))).collect()
}

/// The marks of the taken lines, or None for 52.
fn paired(hgv: &[u8], hgc: &[u8]) -> Option<Vec<bool>> {
    if !confirmation::length_right(hgc) || !pairing::field_clauses(hgv, hgc).is_empty() {
        return None;
    }
    let marks = taken_marks(&hgv::lines(hgv), &confirmation::lines(hgc));
    let right = pairing::line_clauses(hgv, hgc, &marks, pans_differ).is_empty();
    right.then_some(marks)
}

pub fn read_back(hgv: &[u8], hgc: &[u8], verdicts: &mut [u8]) -> Counted {
    let stop = read_back_stop_to_32(hgv);
    if stop != 0 {
        return count_stopped(stop);
    }
    match paired(hgv, hgc) {
        Some(marks) => finish_read_back(hgc, &marks, verdicts),
        None => count_stopped(52),
    }
}

pub fn update(mode: u64, offset: i64, copy: &mut [u8], hgv: &[u8], hgc: &[u8]) -> Counted {
    let stop = update_stop_to_32(mode, copy, hgv, in_order);
    if stop != 0 {
        return count_stopped(stop);
    }
    let told = paired(hgv, hgc).and_then(|marks| Some((marks, reception_told(hgc, offset)?)));
    let Some((marks, reception)) = told else {
        return count_stopped(52);
    };
    let taken = pairing::marked(&hgv::lines(hgv), &marks, true);
    let after = after(mode, copy, hgv::sender(hgv), &taken, &stamp_told(hgc, &reception), after_mode_1);
    finish_update(copy, &marks, &after)
}

pub fn write(list: &List, out: &mut [u8]) -> Written {
    write_by(list, out, pans_differ)
}

pub fn sweep(register: &mut [u8], time: &[u8]) -> Swept {
    sweep_by(register, time, in_order)
}
