//! What times and list sequences say. Whether there is such a time or day is asked.

use super::asked;
use super::sayings::{number, said, zeros};

/// `2025-03-10` of eight digits.
fn date(digits: &str) -> String {
    format!("{}-{}-{}", &digits[..4], &digits[4..6], &digits[6..8])
}

/// `2025-03-10 04:00:00` and the zone.
fn moment(value: &str, zone: &str) -> Option<String> {
    number(value)?;
    if !asked::is_real(value) {
        return said("no such time");
    }
    Some(format!("{} {}:{}:{}{zone}", date(value), &value[8..10], &value[10..12], &value[12..14]))
}

/// Whose clock it is, AP-3.1 says in two ways.
pub fn creation(value: &str) -> Option<String> {
    moment(value, "")
}

pub fn valid_to(value: &str) -> Option<String> {
    match zeros(value) {
        true => said("no end"),
        false => moment(value, " UTC"),
    }
}

/// A sender's list of a day.
pub fn sequence(value: &str) -> Option<String> {
    let digits = value.strip_prefix("HGV").filter(|digits| number(digits).is_some())?;
    let (sender, day, list) = (&digits[..6], &digits[6..14], &digits[14..]);
    let day = if asked::is_real(&format!("{day}000000")) { date(day) } else { "no such day".to_string() };
    Some(format!("list {list} of {sender}, {day}"))
}

pub fn previous(value: &str) -> Option<String> {
    match value.strip_prefix("HGV").is_some_and(zeros) {
        true => said("none before it"),
        false => sequence(value),
    }
}
