//! The fields of a vehicle: all values of those that the paper lists, all bytes in each place of the others.

use super::{digits, Trial};
use crate::lists::*;

/// All texts of as many digits as the listed ones have.
fn of_list(name: &str, from: usize, list: &[&str]) -> Trial {
    let value = |text: String| (vec![(from, text.clone().into_bytes())], list.contains(&&text[..]));
    Trial::of(name.to_string(), 12, digits(list[0].len()).map(value))
}

/// Fuel, tariff, engine.
pub fn listed() -> Vec<Trial> {
    vec![of_list("fuel", 86, &FUELS), of_list("tariff", 46, &TARIFFS), of_list("engine", 92, &ENGINES)]
}

/// Every weight under every tariff; a record may have each of them.
pub fn weights() -> Vec<Trial> {
    let of_tariff = |(tariff, from, to): (&'static str, &'static str, &'static str)| {
        digits(4).map(move |weight| {
            let right = weight == NO_WEIGHT || (from..=to).contains(&weight.as_str());
            (vec![(46, tariff.as_bytes().to_vec()), (97, weight.into_bytes())], right)
        })
    };
    vec![Trial::of("weight".to_string(), 12, WEIGHTS.into_iter().flat_map(of_tariff)).of_lines_alone()]
}

/// All bytes in each place of a weight, under a tariff that has no limit.
pub fn bytes_of_weight() -> Vec<Trial> {
    let of_place = |place: usize| {
        let value = |b: u8| (vec![(46, FREE_TARIFF.as_bytes().to_vec()), (place, vec![b])], DIGITS.contains(&b));
        Trial::of(format!("weight, position {place}"), 12, (0..=255).map(value))
    };
    (97..=100).map(of_place).collect()
}

/// All 256 bytes in one place.
pub(super) fn byte(name: &str, reason: u8, place: usize, allowed: &[u8]) -> Trial {
    let value = |b: u8| (vec![(place, vec![b])], allowed.contains(&b));
    Trial::of(format!("{name}, position {place}"), reason, (0..=255).map(value))
}

/// A field's name, its first and last position, the reason where it is wrong, and the bytes that it may have.
type Places = (&'static str, usize, usize, u8, &'static [u8]);

const PLACES: [Places; 11] = [
    ("shadow", 8, 13, 12, BLANK),
    ("class", 48, 48, 12, DIGITS_OR_BLANK),
    ("axles", 49, 49, 12, DIGITS_OR_BLANK),
    ("context mark", 50, 61, 8, HEX_DIGITS),
    ("OBE ID", 62, 79, 5, HEX_DIGITS),
    ("88", 88, 88, 12, YES_OR_NO),
    ("89-91", 89, 91, 12, BLANK),
    ("CO2", 95, 96, 12, DIGITS),
    ("117-127", 117, 127, 12, ZERO),
    ("nationality", 43, 44, 9, CAPITALS),
    ("nationality", 45, 45, 9, BLANK),
];

/// All bytes in each place of each field that is judged byte by byte.
pub fn bytes() -> Vec<Trial> {
    let of_field = |(name, from, to, reason, allowed)| (from..=to).map(move |place| byte(name, reason, place, allowed));
    PLACES.into_iter().flat_map(of_field).collect()
}

/// A word with blanks around it, in all ways that fill the field.
fn padded(word: &str) -> impl Iterator<Item = String> + '_ {
    (0..=6 - word.len()).map(move |front| format!("{:front$}{word:<1$}", "", 6 - front))
}

/// Every padding and case of each word, those around Euro1 and Euro7 too, and a byte more or less.
pub fn emissions() -> Vec<Trial> {
    let numbered = (0..10).map(|n| format!("Euro{n}"));
    let words: Vec<String> =
        numbered.chain(["0", "EEV", "", "Euro", "00", "EEV1", "Euro66", "000000"].map(String::from)).collect();
    let cases = |word: &String| [word.clone(), word.to_uppercase(), word.to_lowercase()];
    let texts = words.iter().flat_map(cases).flat_map(|word| padded(&word).collect::<Vec<String>>());
    let value = |text: String| (vec![(80, text.clone().into_bytes())], EMISSIONS.contains(&&text[..]));
    vec![Trial::of("emission".to_string(), 12, texts.map(value))]
}
