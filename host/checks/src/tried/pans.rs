//! PANs: every last digit behind numbers of every length, by a sum of its own.

use crate::lists::DOUBLED;
use crate::sample;

/// From the right, every second digit by the list of the doubled ones.
fn luhn_sum(digits: &[u8]) -> u32 {
    let value = |(at, &b): (usize, &u8)| {
        let digit = usize::from(b - b'0');
        if at % 2 == 1 {
            DOUBLED[digit]
        } else {
            digit as u32
        }
    };
    digits.iter().rev().enumerate().map(value).sum()
}

/// So many numbers of each length up to 19.
const NUMBERS: u64 = 50;

/// The first PAN that is taken for another in a register of one record.
pub fn all_lengths(in_order: impl Fn(&[u8]) -> bool) -> Option<String> {
    for length in 1..=19 {
        for start in 0..NUMBERS * 10 {
            let number = (start / 10).wrapping_mul(0x9E37_79B9_7F4A_7C15);
            let pan = format!("{}{}", &format!("{number:020}")[20 - (length - 1)..], start % 10);
            let mut slot = sample::slot(sample::line(0));
            slot[13..32].copy_from_slice(format!("{pan:<19}").as_bytes());
            if in_order(&slot) != luhn_sum(pan.as_bytes()).is_multiple_of(10) {
                return Some(pan);
            }
        }
    }
    None
}
