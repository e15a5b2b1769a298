//! The HGV: header 128, lines of 128, footer 64, and the stops 25 to 32.
//! Each function takes for granted that the stops before its own were not given.

use super::line::LINE;
use super::words::*;

pub const HEADER: usize = 128;
pub const FOOTER: usize = 64;
const MOST_LINES: usize = 8192;

/// The body, from byte 129 to the footer.
pub fn body(hgv: &[u8]) -> &[u8] {
    &hgv[HEADER..hgv.len() - FOOTER]
}

pub fn lines(hgv: &[u8]) -> Vec<&[u8]> {
    body(hgv).chunks(LINE).collect()
}

pub fn sender(hgv: &[u8]) -> &[u8] {
    positions(hgv, 2, 7)
}

fn receiver(hgv: &[u8]) -> &[u8] {
    positions(hgv, 8, 13)
}

pub fn list_sequence(hgv: &[u8]) -> &[u8] {
    positions(hgv, 14, 32)
}

pub fn version(hgv: &[u8]) -> &[u8] {
    positions(hgv, 95, 100)
}

pub fn is_25(hgv: &[u8]) -> bool {
    if hgv.len() < HEADER + FOOTER {
        return true;
    }
    let rest = hgv.len() - HEADER - FOOTER;
    !rest.is_multiple_of(LINE) || rest / LINE > MOST_LINES
}

/// `HGV`, sender, real date, 01-99.
pub fn sequence_right(sequence: &[u8], sender: &[u8]) -> bool {
    positions(sequence, 1, 3) == b"HGV"
        && positions(sequence, 4, 9) == sender
        && is_real_date(positions(sequence, 10, 17))
        && matches!(number_of(positions(sequence, 18, 19)), Some(1..=99))
}

pub fn previous_right(previous: &[u8], sender: &[u8]) -> bool {
    sequence_right(previous, sender) || previous == b"HGV0000000000000000"
}

/// Every byte of the header but the version belongs to a field with a form.
pub fn is_26(hgv: &[u8]) -> bool {
    let sender = sender(hgv);
    let right = hgv[0] == b'0'
        && all_digits(sender)
        && all_digits(receiver(hgv))
        && sequence_right(list_sequence(hgv), sender)
        && previous_right(positions(hgv, 33, 51), sender)
        && all_zeros(positions(hgv, 52, 65))
        && all_digits(positions(hgv, 66, 80))
        && is_real_time(positions(hgv, 81, 94))
        && all_zeros(positions(hgv, 101, 127))
        && hgv[127] == LF;
    !right
}

pub fn is_27(hgv: &[u8]) -> bool {
    version(hgv) != b"120001" && version(hgv) != b"220001"
}

pub fn is_28(mode: u64, hgv: &[u8]) -> bool {
    mode == 2 && version(hgv) == b"220001"
}

/// The half of 29 that needs no rows.
pub fn is_29_receiver(hgv: &[u8]) -> bool {
    receiver(hgv) != b"000002"
}

pub fn is_30(hgv: &[u8]) -> bool {
    number_of(positions(hgv, 66, 80)) != Some(lines(hgv).len() as u64)
}

/// The HGC has the same footer.
pub fn footer_right(footer: &[u8]) -> bool {
    footer.len() == FOOTER && footer[0] == b'2' && all_zeros(positions(footer, 2, 63)) && footer[63] == LF
}

pub fn is_31(hgv: &[u8]) -> bool {
    !footer_right(&hgv[hgv.len() - FOOTER..])
}

fn line_right(line: &[u8]) -> bool {
    line[0] == b'1' && line[127] == LF && positions(line, 2, 127).iter().all(|&b| b >= 32)
}

pub fn is_32(hgv: &[u8]) -> bool {
    !lines(hgv).into_iter().all(line_right)
}

/// The first of 25 to 27, or 0: a later one reads what the earlier ones have found in form.
pub fn stop_25_to_27(hgv: &[u8]) -> u64 {
    match hgv {
        _ if is_25(hgv) => 25,
        _ if is_26(hgv) => 26,
        _ if is_27(hgv) => 27,
        _ => 0,
    }
}

/// The first of 30, 31, 32, or 0.
pub fn stop_30_to_32(hgv: &[u8]) -> u64 {
    if is_30(hgv) {
        return 30;
    }
    if is_31(hgv) {
        return 31;
    }
    if is_32(hgv) {
        return 32;
    }
    0
}
