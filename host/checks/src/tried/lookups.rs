//! Lookups: the answer is the slot itself, all 168 bytes of it.

use std::ops::Range;

use crate::sample;

const RECORDS: usize = 5;

/// A lookup's number, and the part of the register.
type Found = (u64, Range<usize>);

/// The first record that a lookup answers with another part of the register.
pub fn all(by_pan: impl Fn(&[u8], &[u8]) -> Found, by_plate: impl Fn(&[u8], &[u8]) -> Found) -> Option<String> {
    let register = sample::slots((0..RECORDS).map(sample::line));
    (0..RECORDS).find_map(|i| {
        let whole = (0, 168 * i..168 * i + 168);
        let pan = by_pan(&register, format!("{:<19}", sample::pan(i)).as_bytes());
        let plate = by_plate(&register, sample::plate(i).as_bytes());
        (pan != whole || plate != whole).then(|| format!("lookup: slot {i}: {pan:?}, {plate:?}"))
    })
}
