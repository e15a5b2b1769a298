//! The vectors on registers, lookups, sweeps, imports and the provider's side; of these the import: mode, reception, rows, register
//! and HGV by their letters, the length of the HGC's buffer, the HGV's where it is not its own, and a place of the HGV changed.
//! `local` and `utc` have the offset in front of an import and of an update: a sign, four digits of minutes, and a blank.
//! `indexed` has in front of a `local` one the index that is lent: four digits of its length, a blank, five digits of the number
//! that stands in each of its places, and a blank.

use super::answer::{kept, slots};
use super::blocks::{change, field, letters, number, rest, sent};
use super::{found, many, numbered, pairs, sweeps, Answer, Samples};
use crate::plain;

/// A byte that stands in none of these HGCs.
const UNWRITTEN: u8 = 238;

/// Behind the number.
pub fn counted(taken: u64, rejected: u64) -> String {
    format!(" {taken} {rejected}")
}

fn is_kept(block: &[u8]) -> bool {
    block.iter().all(|&b| b == UNWRITTEN)
}

/// The longest index that a few letters are imported by.
const INDEX: usize = 16;

/// An import, by an index where one is lent.
fn of_import(samples: &Samples, index: Option<Vec<u16>>, offset: i64, f: &[u8]) -> Option<Answer> {
    let hgv = sent(samples.hgv(field(f, 25, 29)), field(f, 36, 39), |hgv| change(hgv, rest(f, 41)));
    let before = samples.slots(field(f, 20, 23));
    let rows = samples.laid(24, letters(field(f, 18, 18), 1));
    let mut register = before.clone();
    let mut hgc = vec![UNWRITTEN; number(field(f, 31, 34)).min(704)];
    let (mode, reception) = (number(field(f, 1, 1)) as u64, field(f, 3, 16));
    let done = match index {
        None => plain::import(mode, reception, offset, &mut register, &rows, &hgv, &mut hgc),
        Some(mut index) => {
            plain::import_indexed(mode, reception, offset, &mut register, &rows, &hgv, &mut hgc, &mut index)
        }
    };
    let mut behind = format!("{} {}", counted(done.taken, done.rejected), done.length).into_bytes();
    let length = done.length as usize;
    if length == 0 {
        behind.push(b' ');
        behind.extend(kept(register == before && is_kept(&hgc)));
    } else {
        behind.push(b'\n');
        behind.extend(slots(&register));
        behind.extend(&hgc[..length]);
        behind.extend(kept(is_kept(&hgc[length..])));
    }
    Some(Answer { first: done.number.to_string(), behind })
}

/// The offset that stands in front.
fn offset(f: &[u8]) -> i64 {
    let minutes = number(field(f, 2, 5)) as i64;
    if field(f, 1, 1) == b"-" {
        -minutes
    } else {
        minutes
    }
}

/// The index that stands in front, of so many places at most.
pub fn index(f: &[u8], most: usize) -> Vec<u16> {
    let state = number(field(f, 6, 10)).min(usize::from(u16::MAX)) as u16;
    vec![state; number(field(f, 1, 4)).min(most)]
}

fn of_local(samples: &Samples, index: Option<Vec<u16>>, f: &[u8]) -> Option<Answer> {
    of_import(samples, index, offset(f), rest(f, 7))
}

pub fn answer(samples: &Samples, tag: &[u8], f: &[u8]) -> Option<Answer> {
    match tag {
        b"import  " => of_import(samples, None, 0, f),
        b"local   " => of_local(samples, None, f),
        b"indexed " => of_local(samples, Some(index(f, INDEX)), rest(f, 12)),
        b"many    " => many::of_lines(samples, f),
        b"slots   " => many::of_slots(f),
        b"numbered" => numbered::of_series(samples, f),
        b"readback" => pairs::of_read(samples, f),
        b"update  " => pairs::of_update(samples, 0, f),
        b"utc     " => pairs::of_update(samples, offset(f), rest(f, 7)),
        b"sweep   " => sweeps::of_sweep(samples, f),
        b"gone    " => sweeps::of_gone(samples, f),
        _ => found::answer(samples, tag, f),
    }
}
