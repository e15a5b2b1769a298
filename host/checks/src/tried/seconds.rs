//! Seconds: every day of all years at its first and its last second, in the order of the calendar, so that each is known by its
//! place; every second of a day; and texts that are no time.

use super::digits;
use super::times::{dates_of, is_time_of_day};
use crate::lists::{HOURS, MINUTES, SECONDS};
use graftspindle::raw::Timed;

const OF_DAY: u64 = (HOURS * MINUTES * SECONDS) as u64;

/// What is told where a text is answered otherwise: none is a text that is no time.
fn other(seconds: &impl Fn(&[u8]) -> Timed, text: &[u8], expected: Option<u64>) -> Option<String> {
    let expected = expected.map_or(Timed { number: 22, seconds: 0 }, |seconds| Timed { number: 0, seconds });
    let told = seconds(text);
    (told != expected).then(|| format!("seconds: {}: {}, {}", text.escape_ascii(), told.number, told.seconds))
}

/// Every day 00 to 32 of every month 00 to 13 of every year.
fn every_day(seconds: &impl Fn(&[u8]) -> Timed) -> Option<String> {
    let mut before = 0;
    for (date, real) in digits(4).flat_map(|year| dates_of(&year)) {
        let of_day = |time: &str, more| {
            other(seconds, format!("{date}{time}").as_bytes(), real.then_some(before * OF_DAY + more))
        };
        let found = of_day("000000", 0).or_else(|| of_day("235959", OF_DAY - 1));
        if found.is_some() {
            return found;
        }
        before += u64::from(real);
    }
    None
}

/// Of the first day, 000000 to 999999.
fn every_second(seconds: &impl Fn(&[u8]) -> Timed) -> Option<String> {
    let mut before = 0;
    digits(6).find_map(|time| {
        let real = is_time_of_day(&time);
        let found = other(seconds, format!("00010101{time}").as_bytes(), real.then_some(before));
        before += u64::from(real);
        found
    })
}

/// Another length, and any byte but a digit in each place.
fn no_times(seconds: &impl Fn(&[u8]) -> Timed) -> Option<String> {
    let time = b"20250310050000";
    let lengths = (0..40).filter(|length| *length != time.len()).map(|length| {
        let digits = time.iter().copied().chain([b'0'; 40]);
        digits.take(length).collect::<Vec<u8>>()
    });
    let bytes = (0..time.len()).flat_map(|place| {
        let others = (0..=u8::MAX).filter(|byte| !byte.is_ascii_digit());
        others.map(move |byte| [&time[..place], &[byte], &time[place + 1..]].concat())
    });
    lengths.chain(bytes).find_map(|text| other(seconds, &text, None))
}

/// The first text that is answered otherwise.
pub fn all(seconds: impl Fn(&[u8]) -> Timed) -> Option<String> {
    no_times(&seconds).or_else(|| every_second(&seconds)).or_else(|| every_day(&seconds))
}
