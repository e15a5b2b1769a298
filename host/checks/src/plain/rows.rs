//! The issuer rows: BIN and extension 14, length of BIN ID 2, length of PAN 2, actor 6.

use super::words::*;

const ROW: usize = 24;
const MOST_ROWS: usize = 64;

fn bin_and_extension(row: &[u8]) -> &[u8] {
    positions(row, 1, 14)
}

fn length_of_bin_id(row: &[u8]) -> Option<u64> {
    number_of(positions(row, 15, 16))
}

fn length_of_pan(row: &[u8]) -> Option<u64> {
    number_of(positions(row, 17, 18))
}

fn actor(row: &[u8]) -> &[u8] {
    positions(row, 19, 24)
}

fn row_right(row: &[u8]) -> bool {
    let bin = bin_and_extension(row);
    let given = leading(bin, is_digit);
    let (Some(bin_id), Some(pan)) = (length_of_bin_id(row), length_of_pan(row)) else {
        return false;
    };
    given >= 6
        && all_blank(&bin[given..])
        && (6..=14).contains(&bin_id)
        && bin_id <= given as u64
        && pan > bin_id
        && pan <= 19
        && all_digits(actor(row))
}

pub fn rows_right(rows: &[u8]) -> bool {
    rows.len().is_multiple_of(ROW) && rows.len() / ROW <= MOST_ROWS && rows.chunks(ROW).all(row_right)
}

pub fn rows_of<'a>(rows: &'a [u8], sender: &[u8]) -> Vec<&'a [u8]> {
    rows.chunks(ROW).filter(|row| actor(row) == sender).collect()
}

/// "whose BIN ID digits begin the PAN": the first ones, as many as the row states.
pub fn begins(row: &[u8], digits: &[u8]) -> bool {
    let bin_id = length_of_bin_id(row).unwrap_or(0) as usize;
    digits.starts_with(&bin_and_extension(row)[..bin_id])
}

pub fn has_length(row: &[u8], digits: &[u8]) -> bool {
    length_of_pan(row) == Some(digits.len() as u64)
}
