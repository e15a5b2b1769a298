//! Plates: all bytes in the first, a middle and the last place, all separators under each length, and all nationalities.

use super::fields::byte;
use super::{digits, Trial};
use crate::lists::*;

const PLATE_10: &[u8] = b"ABCDEFGHIJ";

/// A plate of ten characters with any byte in a place: only the last may be blank.
fn plate_bytes() -> Vec<Trial> {
    let places = [(1, PLATE), (5, PLATE), (9, PLATE), (10, PLATE_OR_BLANK)];
    let of_place = |(place, allowed): (usize, &[u8])| {
        let plate = |b: u8| [&PLATE_10[..place - 1], &[b], &PLATE_10[place..]].concat();
        let values = (0..=255).map(|b| (vec![(33, plate(b))], allowed.contains(&b)));
        Trial::of(format!("plate, place {place}"), 9, values)
    };
    places.into_iter().map(of_place).collect()
}

/// Behind a plate of six characters a blank is right, and another character makes it longer.
fn behind_plate() -> Trial {
    byte("plate of six", 9, 39, PLATE_OR_BLANK)
}

fn separators() -> Vec<Trial> {
    let of_length = |k: usize| {
        let plate = format!("{:<10}", String::from_utf8_lossy(&PLATE_10[..k])).into_bytes();
        let right: Vec<&str> = SEPARATORS[k - 1].split(' ').collect();
        let value = move |pq: String| {
            let allowed = right.contains(&&pq[..]);
            (vec![(33, plate.clone()), (115, pq.into_bytes())], allowed)
        };
        Trial::of(format!("separator, {k} characters"), 12, digits(2).map(value))
    };
    (1..=10).map(of_length).collect()
}

/// Any byte beside a 0, behind a plate of six characters.
fn separator_bytes() -> Vec<Trial> {
    let first = byte("separator", 12, 115, b"023456");
    let second = byte("separator", 12, 116, ZERO);
    vec![first, second]
}

fn nationalities() -> Trial {
    let all = CAPITALS.iter().flat_map(|&a| CAPITALS.iter().map(move |&b| vec![a, b, b' ']));
    Trial::of("nationality".to_string(), 9, all.map(|nationality| (vec![(43, nationality)], true)))
}

/// Three blanks are missing, and not wrong.
fn no_nationality() -> Trial {
    Trial::of("no nationality".to_string(), 6, [(vec![(43, b"   ".to_vec())], false)])
}

pub fn trials() -> Vec<Trial> {
    let all = [plate_bytes(), separators(), separator_bytes(), vec![behind_plate(), nationalities(), no_nationality()]];
    all.into_iter().flatten().collect()
}
