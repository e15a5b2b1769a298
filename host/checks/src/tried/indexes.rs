//! The index that an import is lent: every length from none to two more than there are slots, with some or all of these used, by
//! itself and beside each of the other stops.

use crate::sample;
use graftspindle::raw::Imported;

type Import = fn(u64, &[u8], i64, &mut [u8], &[u8], &[u8], &mut [u8]) -> Imported;
type ImportIndexed = fn(u64, &[u8], i64, &mut [u8], &[u8], &[u8], &mut [u8], &mut [u16]) -> Imported;

const SLOT: usize = 168;
const UNWRITTEN: u8 = 238;

/// No register here has more slots.
const SLOTS: usize = 4;

/// What an index holds, in each of its places.
const STATES: [u16; 4] = [0, 1, SLOTS as u16, u16::MAX];

/// The stops besides 36 in their order, of which the last is none.
const STOPS: [u64; 16] = [21, 22, 23, 24, 25, 26, 27, 28, 29, 30, 31, 32, 35, 33, 34, 0];

/// 36 stands behind these.
const FRONT: [u64; 4] = [21, 22, 23, 24];

/// What is handed over, but for the index.
struct Call {
    mode: u64,
    reception: Vec<u8>,
    register: Vec<u8>,
    rows: Vec<u8>,
    hgv: Vec<u8>,
    room: usize,
}

fn file(from: usize, to: usize) -> Vec<u8> {
    sample::hgv_of(&(from..to).map(sample::line).collect::<Vec<_>>())
}

impl Call {
    /// The list of the records that are held already.
    fn right(used: usize, slots: usize) -> Call {
        let mut register = sample::slots((0..used).map(sample::line));
        register.resize(slots * SLOT, 0);
        let (reception, rows) = (sample::RECEPTION.to_vec(), sample::row());
        Call { mode: 1, reception, register, rows, hgv: file(0, used), room: 174 }
    }

    /// The call that is stopped by this number; none where so many used slots allow none.
    fn stopped(number: u64, used: usize, slots: usize) -> Option<Call> {
        let mut call = Call::right(used, slots);
        let footer = call.hgv.len() - 64;
        match number {
            21 => call.mode = 3,
            22 => call.reception.push(b'0'),
            23 => call.register.push(0),
            24 => call.rows.push(b'0'),
            25 => call.hgv.push(b'0'),
            26 => call.hgv[0] = b'9',
            27 => call.hgv[94] = b'5',
            28 => (call.mode, call.hgv[94]) = (2, b'2'),
            29 => call.hgv[12] = b'3',
            30 => call.hgv[79] = b'9',
            31 => call.hgv[footer] = b'3',
            32 if used > 0 => call.hgv[128] = b'2',
            33 => call.hgv = file(used, slots + 1),
            34 => call.room -= 1,
            35 if used > 0 => (call.mode, call.hgv) = (2, file(0, 0)),
            32 | 35 => return None,
            _ => (),
        }
        Some(call)
    }

    /// The answer, and both blocks after it.
    fn made(&self, import: impl FnOnce(&mut [u8], &mut [u8]) -> Imported) -> (Imported, Vec<u8>, Vec<u8>) {
        let (mut register, mut hgc) = (self.register.clone(), vec![UNWRITTEN; self.room]);
        let done = import(&mut register, &mut hgc);
        (done, register, hgc)
    }

    fn plainly(&self, import: Import) -> (Imported, Vec<u8>, Vec<u8>) {
        let Call { mode, reception, rows, hgv, .. } = self;
        self.made(|register, hgc| import(*mode, reception, 0, register, rows, hgv, hgc))
    }

    fn indexed(&self, import: ImportIndexed, index: &mut [u16]) -> (Imported, Vec<u8>, Vec<u8>) {
        let Call { mode, reception, rows, hgv, .. } = self;
        self.made(|register, hgc| import(*mode, reception, 0, register, rows, hgv, hgc, index))
    }
}

/// What is told of the first call that is answered otherwise than it has to be, with an index or without.
fn other(number: u64, used: usize, slots: usize, import: Import, indexed: ImportIndexed) -> Option<String> {
    let call = Call::stopped(number, used, slots)?;
    let name = format!("{number} with {used} of {slots} slots used");
    let plain = call.plainly(import);
    if plain.0.number != number {
        return Some(format!("index: {name}, none lent: {}", plain.0.number));
    }
    let stopped = (Imported { number: 36, ..Imported::default() }, call.register.clone(), vec![UNWRITTEN; call.room]);
    for (length, state) in (0..=slots + 2).flat_map(|length| STATES.map(|state| (length, state))) {
        let expected = if length < slots && !FRONT.contains(&number) { &stopped } else { &plain };
        let told = call.indexed(indexed, &mut vec![state; length]);
        if told != *expected {
            let (told, expected) = (told.0.number, expected.0.number);
            return Some(format!("index: {name}, {length} lent, each {state}: {told}, not {expected}"));
        }
    }
    None
}

pub fn all(import: Import, indexed: ImportIndexed) -> Option<String> {
    let registers = (0..=SLOTS).flat_map(|slots| (0..=slots).map(move |used| (used, slots)));
    let mut calls = registers.flat_map(|(used, slots)| STOPS.map(|number| (number, used, slots)));
    calls.find_map(|(number, used, slots)| other(number, used, slots, import, indexed))
}
