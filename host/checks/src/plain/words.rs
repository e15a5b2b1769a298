//! The words the definition uses for texts: digits, zeros, blanks, real times and their seconds.

use graftspindle::raw::Timed;

pub const LF: u8 = 10;
pub const BLANK: u8 = b' ';

/// Positions count from 1, both ends belong to the field.
pub fn positions(text: &[u8], from: usize, to: usize) -> &[u8] {
    &text[from - 1..to]
}

pub fn is_digit(byte: u8) -> bool {
    byte.is_ascii_digit()
}

pub fn is_capital(byte: u8) -> bool {
    byte.is_ascii_uppercase()
}

/// "12 digits 0-9A-F": small letters are none.
pub fn is_hex_digit(byte: u8) -> bool {
    is_digit(byte) || (b'A'..=b'F').contains(&byte)
}

pub fn all_digits(text: &[u8]) -> bool {
    text.iter().all(|&b| is_digit(b))
}

/// "zeros" are the character; "zero bytes" are `all_zero_bytes`.
pub fn all_zeros(text: &[u8]) -> bool {
    text.iter().all(|&b| b == b'0')
}

pub fn all_zero_bytes(text: &[u8]) -> bool {
    text.iter().all(|&b| b == 0)
}

pub fn all_blank(text: &[u8]) -> bool {
    text.iter().all(|&b| b == BLANK)
}

/// None where a byte is no digit. At most 15 digits are ever asked for.
pub fn number_of(text: &[u8]) -> Option<u64> {
    if !all_digits(text) {
        return None;
    }
    Some(text.iter().fold(0, |n, &b| n * 10 + u64::from(b - b'0')))
}

/// How many bytes at the front are of the kind.
pub fn leading(text: &[u8], kind: fn(u8) -> bool) -> usize {
    text.iter().take_while(|&&b| kind(b)).count()
}

/// "1-19 digits then blanks", "1-10 allowed characters then blanks".
pub fn some_then_blanks(text: &[u8], kind: fn(u8) -> bool) -> bool {
    let k = leading(text, kind);
    k >= 1 && all_blank(&text[k..])
}

fn is_leap(year: u64) -> bool {
    (year.is_multiple_of(4) && !year.is_multiple_of(100)) || year.is_multiple_of(400)
}

pub fn days_of(year: u64, month: u64) -> u64 {
    match month {
        2 if is_leap(year) => 29,
        2 => 28,
        4 | 6 | 9 | 11 => 30,
        _ => 31,
    }
}

pub fn is_real_time(text: &[u8]) -> bool {
    if text.len() != 14 || !all_digits(text) {
        return false;
    }
    let part = |from, to| number_of(positions(text, from, to)).unwrap_or(0);
    let (year, month, day) = (part(1, 4), part(5, 6), part(7, 8));
    let (hour, minute, second) = (part(9, 10), part(11, 12), part(13, 14));
    year >= 1
        && (1..=12).contains(&month)
        && (1..=days_of(year, month)).contains(&day)
        && hour <= 23
        && minute <= 59
        && second <= 59
}

/// The Julian day number of a Gregorian date, after Fliegel and Van Flandern: the year begins in March, so that the leap day is
/// its last. Every fourth year has one; of four centuries three lack it.
fn julian_day(year: u64, month: u64, day: u64) -> u64 {
    let (years, months) = if month <= 2 { (year + 4799, month + 10) } else { (year + 4800, month - 2) };
    1461 * years / 4 + 367 * months / 12 + day - 3 * ((years + 100) / 100) / 4 - 32_075
}

/// That of 0001-01-01.
const FIRST_DAY: u64 = 1_721_426;

/// "The seconds since 00010101000000 besides yes or no": 22 and none where the time is not real.
pub fn seconds(text: &[u8]) -> Timed {
    if !is_real_time(text) {
        return Timed { number: 22, seconds: 0 };
    }
    let part = |from, to| number_of(positions(text, from, to)).unwrap_or(0);
    let days = julian_day(part(1, 4), part(5, 6), part(7, 8)) - FIRST_DAY;
    Timed { number: 0, seconds: ((days * 24 + part(9, 10)) * 60 + part(11, 12)) * 60 + part(13, 14) }
}

/// "the first eight digits of one": there is one calendar only.
pub fn is_real_date(text: &[u8]) -> bool {
    text.len() == 8 && is_real_time(&[text, b"000000"].concat())
}
