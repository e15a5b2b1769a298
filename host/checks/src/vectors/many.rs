//! Blocks of the largest size.

use super::blocks::{field, number, LINE, SLOT};
use super::imports::counted;
use super::{Answer, Samples};
use crate::plain;

/// One more than a register has slots, and a file lines.
const MORE: usize = 8193;

/// So many zero bytes as a register; there is room for one slot more than a register may have.
pub fn of_slots(f: &[u8]) -> Option<Answer> {
    let bytes = number(field(f, 1, 15));
    (bytes <= MORE * SLOT).then(|| Answer::truth(plain::in_order(&vec![0; bytes])))?
}

/// The reception, and the row of the sender.
pub const RECEPTION: &[u8] = b"20250310050000";
pub const ROWS: &[u8] = b"97990012      0816900123";

/// The file of these lines.
pub fn file(samples: &Samples, lines: &[u8]) -> Vec<u8> {
    let mut header = samples.laid(LINE, b"0");
    header[65..80].copy_from_slice(format!("{:015}", lines.len() / LINE).as_bytes());
    [&header, lines, &samples.laid(64, b"T")].concat()
}

/// A file of so many lines B.
pub fn of_lines(samples: &Samples, f: &[u8]) -> Option<Answer> {
    let hgv = file(samples, &samples.laid(LINE, &vec![b'B'; number(field(f, 1, 15)).min(MORE)]));
    let (mut register, mut hgc) = (vec![0; SLOT], vec![0; 174 + 8192 * 130]);
    let done = plain::import(1, RECEPTION, 0, &mut register, ROWS, &hgv, &mut hgc);
    let behind = format!("{} {}", counted(done.taken, done.rejected), done.length).into_bytes();
    Some(Answer { first: done.number.to_string(), behind })
}
