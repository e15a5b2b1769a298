//! Offsets, and receptions that they take into another day or year, or out of the calendar.

use std::collections::BTreeMap;

use super::rng::Rng;
use crate::plain::clock::local;

/// In range: mostly none, else one beside its ends or beside none, or any.
pub fn offset(rng: &mut Rng) -> i64 {
    const KNOWN: [i64; 9] = [-720, -719, -60, -1, 1, 60, 120, 839, 840];
    match rng.below(4) {
        0 | 1 => 0,
        2 => KNOWN[rng.below(KNOWN.len())],
        _ => rng.between(0, 1560) as i64 - 720,
    }
}

/// Out of range: beside its ends, hours in seconds, and what overflows or is in range in fewer bits.
pub fn wrong_offset(rng: &mut Rng) -> i64 {
    const WRONG: [i64; 10] =
        [-721, 841, -1440, 1440, 3600, i64::MIN, i64::MIN + 1, i64::MAX, (1 << 32) + 60, (1 << 16) - 60];
    WRONG[rng.below(WRONG.len())]
}

/// Around both ends of the calendar, and around the ends of years and Februaries.
const EDGES: [&[u8]; 20] = [
    b"00010101000000",
    b"00010101000059",
    b"00010101000100",
    b"00010101115959",
    b"00010101120000",
    b"00010101140000",
    b"00010102000001",
    b"99991231235959",
    b"99991231235900",
    b"99991231235859",
    b"99991231120000",
    b"99991231100000",
    b"99991230235958",
    b"20241231235958",
    b"20250101000001",
    b"20240228233058",
    b"20240229003001",
    b"20240229233058",
    b"20250228233058",
    b"20250301003001",
];

pub fn edge(rng: &mut Rng) -> Vec<u8> {
    rng.pick(&EDGES).to_vec()
}

/// A reception as the HGC shows it; where it cannot be shown, as it is.
pub fn shown(reception: &[u8], offset: i64) -> Vec<u8> {
    local(reception, offset).unwrap_or(reception.to_vec())
}

/// A reception, or as the HGC shows it, to draw times around: ends are reckoned by the first alone.
pub fn either(rng: &mut Rng, reception: &[u8], offset: i64) -> Vec<u8> {
    if rng.one_in(3) {
        shown(reception, offset)
    } else {
        reception.to_vec()
    }
}

/// The offset of each provider in winter, and whether it is summer.
#[derive(Default)]
pub struct Clocks(BTreeMap<Vec<u8>, (i64, bool)>);

impl Clocks {
    /// The offset for the next list of a provider: in summer an hour more.
    pub fn next(&mut self, rng: &mut Rng, provider: &[u8]) -> i64 {
        const WINTER: [i64; 8] = [-720, -210, -60, 0, 0, 60, 60, 780];
        let (winter, summer) = self.0.entry(provider.to_vec()).or_insert_with(|| (WINTER[rng.below(8)], false));
        *summer ^= rng.one_in(4);
        *winter + if *summer { 60 } else { 0 }
    }
}
