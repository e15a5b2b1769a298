//! A line's fields and the rules L1 and L5 to L10, which need the line alone.
//! Every function wants at least 127 bytes with the body's positions; a line, a
//! used slot and a line of the HGC all have them.

use super::words::*;

pub const LINE: usize = 128;

pub fn text(line: &[u8]) -> &[u8] {
    positions(line, 2, 127)
}

pub fn actor(line: &[u8]) -> &[u8] {
    positions(line, 2, 7)
}

pub fn pan(line: &[u8]) -> &[u8] {
    positions(line, 14, 32)
}

pub fn plate(line: &[u8]) -> &[u8] {
    positions(line, 33, 42)
}

pub fn nationality(line: &[u8]) -> &[u8] {
    positions(line, 43, 45)
}

/// Valid to in a line, the end in a used slot.
pub fn valid_to(line: &[u8]) -> &[u8] {
    positions(line, 101, 114)
}

pub fn pan_digits(line: &[u8]) -> &[u8] {
    let pan = pan(line);
    &pan[..leading(pan, is_digit)]
}

pub fn is_plate_character(byte: u8) -> bool {
    matches!(byte, b'A'..=b'Z' | b'0'..=b'9' | b'a'..=b'z' | 0xC4 | 0xD6 | 0xDC | 0xE4 | 0xFC)
}

/// "19 bytes as in L1".
pub fn is_pan(field: &[u8]) -> bool {
    field.len() == 19 && some_then_blanks(field, is_digit)
}

pub fn is_plate(field: &[u8]) -> bool {
    field.len() == 10 && some_then_blanks(field, is_plate_character)
}

pub fn is_nationality(field: &[u8]) -> bool {
    field.len() == 3 && is_capital(field[0]) && is_capital(field[1]) && field[2] == BLANK
}

/// Every second digit is doubled, counted from the check digit, which stands last.
pub fn luhn_sum(digits: &[u8]) -> u64 {
    let mut sum = 0;
    for (place, &digit) in digits.iter().rev().enumerate() {
        let value = u64::from(digit - b'0');
        sum += match (place % 2 == 1, value) {
            (false, v) => v,
            (true, v) if v * 2 > 9 => v * 2 - 9,
            (true, v) => v * 2,
        };
    }
    sum
}

pub fn breaks_l1(line: &[u8]) -> bool {
    !is_pan(pan(line))
}

pub fn breaks_l5(line: &[u8]) -> bool {
    !luhn_sum(pan_digits(line)).is_multiple_of(10)
}

pub fn breaks_l6(line: &[u8]) -> bool {
    !is_plate(plate(line))
}

pub fn breaks_l7(line: &[u8]) -> bool {
    !is_nationality(nationality(line))
}

/// L7 has two reasons: missing and wrong.
pub fn reason_of_l7(line: &[u8]) -> u8 {
    if all_blank(nationality(line)) {
        6
    } else {
        9
    }
}

pub fn breaks_l8(line: &[u8]) -> bool {
    !positions(line, 50, 61).iter().all(|&b| is_hex_digit(b))
}

pub fn breaks_l9(line: &[u8]) -> bool {
    !positions(line, 62, 79).iter().all(|&b| is_hex_digit(b))
}

const TARIFFS: [&[u8]; 8] = [b"12", b"22", b"31", b"32", b"41", b"51", b"63", b"71"];

const EMISSIONS: [&[u8]; 9] =
    [b"0     ", b"EEV   ", b"Euro1 ", b"Euro2 ", b"Euro3 ", b"Euro4 ", b"Euro5 ", b"Euro6 ", b"Euro7 "];

fn is_digit_or_blank(byte: u8) -> bool {
    is_digit(byte) || byte == BLANK
}

fn fuel_right(fuel: &[u8]) -> bool {
    matches!(number_of(fuel), Some(1..=6 | 9..=15 | 20..=22))
}

fn engine_right(engine: &[u8]) -> bool {
    matches!(number_of(engine), Some(0..=52 | 255))
}

fn valid_to_right(time: &[u8]) -> bool {
    all_zeros(time) || is_real_time(time)
}

/// Separator digits pq against a plate of k characters.
pub fn separator_right(separator: &[u8], k: u64) -> bool {
    if separator.len() != 2 || !all_digits(separator) {
        return false;
    }
    let (p, q) = (u64::from(separator[0] - b'0'), u64::from(separator[1] - b'0'));
    (p == 0 && q == 0) || (q == 0 && 2 <= p && p <= k) || (p >= 2 && q >= p + 2 && q <= k + 1)
}

fn separator_fits_plate(line: &[u8]) -> bool {
    let k = leading(plate(line), is_plate_character) as u64;
    separator_right(positions(line, 115, 116), k)
}

/// What a line's weight may be where it is given: "12 and 22 need at most 0349; 31 and 32 need at least 0350; 41 needs 0350 to
/// 1199; 51 needs at least 1200". Code w covers 10w + 1 to 10w + 10 kg, so 0349 ends at 3,500 kg. 63 and 71 are free.
fn weight_fits(tariff: &[u8], weight: u64) -> bool {
    match tariff {
        b"12" | b"22" => weight <= 349,
        b"31" | b"32" => weight >= 350,
        b"41" => (350..=1199).contains(&weight),
        b"51" => weight >= 1200,
        _ => true,
    }
}

/// "0000 is missing and meets every limit".
fn breaks_weight_limit(line: &[u8]) -> bool {
    let weight = number_of(positions(line, 97, 100)).unwrap_or(0);
    weight > 0 && !weight_fits(positions(line, 46, 47), weight)
}

fn l10_front_right(line: &[u8]) -> bool {
    all_blank(positions(line, 8, 13))
        && TARIFFS.contains(&positions(line, 46, 47))
        && is_digit_or_blank(line[47])
        && is_digit_or_blank(line[48])
        && EMISSIONS.contains(&positions(line, 80, 85))
        && fuel_right(positions(line, 86, 87))
        && matches!(line[87], b'Y' | b'N')
        && all_blank(positions(line, 89, 91))
}

fn l10_back_right(line: &[u8]) -> bool {
    engine_right(positions(line, 92, 94))
        && all_digits(positions(line, 95, 96))
        && all_digits(positions(line, 97, 100))
        && valid_to_right(valid_to(line))
        && separator_fits_plate(line)
        && all_zeros(positions(line, 117, 127))
}

/// L10 without the limits of weight: each field by itself, and the separator beside its plate.
fn breaks_l10_fields(line: &[u8]) -> bool {
    !l10_front_right(line) || !l10_back_right(line)
}

/// L10 as a line is judged by it.
pub fn breaks_l10(line: &[u8]) -> bool {
    breaks_l10_fields(line) || breaks_weight_limit(line)
}

/// "L1, L5 to L10 hold", as 23 asks it of a record and 52 of a taken line: "records already stored are not judged by weight",
/// but 97-100 are digits in them too.
pub fn record_rules_hold(line: &[u8]) -> bool {
    !(breaks_l1(line)
        || breaks_l5(line)
        || breaks_l6(line)
        || breaks_l7(line)
        || breaks_l8(line)
        || breaks_l9(line)
        || breaks_l10_fields(line))
}
