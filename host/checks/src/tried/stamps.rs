//! Stamps: all bytes in each place, every date of 400 years and every number of a day in the list, every day and the parts of
//! a day in the reception.

use super::digits;
use super::times::{dates_of, is_time_of_day};
use crate::lists::*;
use crate::sample;

/// The positions of the sample's slot behind its record, each with the bytes that it may have while the others stay:
/// `HGV9001232025031001`, `20250310050000`, seven zeros.
const PLACES: [(usize, usize, &[u8]); 27] = [
    (129, 129, b"H"),
    (130, 130, b"G"),
    (131, 131, b"V"),
    (132, 132, b"9"),
    (133, 134, ZERO),
    (135, 135, b"1"),
    (136, 136, b"2"),
    (137, 137, b"3"),
    (138, 141, DIGITS),
    (142, 142, ZERO),
    (143, 143, NOT_ZERO),
    (144, 144, b"123"),
    (145, 145, DIGITS),
    (146, 146, DIGITS),
    (147, 147, NOT_ZERO),
    (148, 151, DIGITS),
    (152, 152, ZERO),
    (153, 153, NOT_ZERO),
    (154, 154, b"123"),
    (155, 155, DIGITS),
    (156, 156, b"01"),
    (157, 157, DIGITS),
    (158, 158, b"012345"),
    (159, 159, DIGITS),
    (160, 160, b"012345"),
    (161, 161, DIGITS),
    (162, 168, ZERO),
];

/// What is put into the slot, from a position on, and whether the slot is right then.
type Value = (usize, Vec<u8>, bool);

fn bytes() -> impl Iterator<Item = Value> {
    let of_place =
        |place: usize, allowed: &'static [u8]| (0..=255).map(move |b| (place, vec![b], allowed.contains(&b)));
    let of_part = move |(from, to, allowed)| (from..=to).flat_map(move |place| of_place(place, allowed));
    PLACES.into_iter().flat_map(of_part)
}

/// As the list's date and as the reception's: the calendar repeats itself after 400 years.
fn dates() -> impl Iterator<Item = Value> {
    let all = (1700..2100).flat_map(|year: u32| dates_of(&format!("{year:04}")));
    all.flat_map(|(date, right)| [138, 148].map(|from| (from, date.clone().into_bytes(), right)))
}

fn numbers() -> impl Iterator<Item = Value> {
    digits(2).map(|number| (146, number.clone().into_bytes(), number != "00"))
}

/// Hours, minutes and seconds 00 to 99, each for itself.
fn times() -> impl Iterator<Item = Value> {
    let parts = |n: String| [format!("{n}0000"), format!("00{n}00"), format!("0000{n}"), format!("2359{n}")];
    digits(2).flat_map(parts).map(|time| (156, time.clone().into_bytes(), is_time_of_day(&time)))
}

/// What stands for no list or no time elsewhere, the two parts exchanged, and no stamp at all.
fn others() -> impl Iterator<Item = Value> {
    let wrong: [(usize, &[u8]); 6] = [
        (129, b"HGV0000000000000000"),
        (148, b"00000000000000"),
        (129, b"20250310050000HGV9001232025031001"),
        (129, &[0; 40]),
        (129, &[b' '; 40]),
        (129, &[b'0'; 40]),
    ];
    wrong.into_iter().map(|(from, text)| (from, text.to_vec(), false))
}

/// The first stamp that is taken for another in a register of one record.
pub fn all(in_order: impl Fn(&[u8]) -> bool) -> Option<String> {
    let right = sample::slot(sample::line(0));
    let slot = |from: usize, text: &[u8]| [&right[..from - 1], text, &right[from - 1 + text.len()..]].concat();
    let every = bytes().chain(others()).chain(numbers()).chain(times()).chain(dates());
    let mut slots = every.map(|(from, text, right)| (slot(from, &text), right));
    let (other, right) = slots.find(|(slot, right)| in_order(slot) != *right)?;
    Some(format!("stamp: {}: {}", if right { "refused" } else { "let in" }, other[128..].escape_ascii()))
}
