//! Files of more lines than letters name, imported by an index. Behind the index's length and the number in each of its places, as
//! `indexed` has them, stand the mode, the number of slots, a series of records in front of them, and a series of lines: four letters
//! that are laid in turn, how many, the number of the first PAN, the step to the next, and at which number it begins at 0 again.

use super::blocks::{field, number, LINE, SLOT};
use super::imports::{counted, index};
use super::many::{file, RECEPTION, ROWS};
use super::{Answer, Samples};
use crate::plain::import_indexed;
use crate::plain::line::luhn_sum;
use std::iter::successors;

/// The most that a series has, the most slots, and the longest index.
const MOST: usize = 400;

/// Where an HGC's answers begin, and their length.
const HGC_HEADER: usize = 110;
const ANSWER: usize = 130;

/// The PAN of a number of three digits: each of them behind a 0, and the check digit behind another.
fn pan(number: usize) -> Vec<u8> {
    let digits: String = format!("{number:03}").chars().flat_map(|digit| ['0', digit]).collect();
    let mut tried = (0..10).map(|check| format!("97990012{digits}0{check}").into_bytes());
    tried.find(|pan| luhn_sum(pan).is_multiple_of(10)).expect("one digit of ten is right")
}

/// The parts of a series, each by the first bytes of its letter's text, with a PAN of its own.
fn series(samples: &Samples, width: usize, f: &[u8]) -> Vec<u8> {
    let (first, step) = (number(field(f, 10, 12)), number(field(f, 14, 16)));
    let round = Some(number(field(f, 18, 20))).filter(|&round| round > 0).unwrap_or(1000);
    let numbers = successors(Some(first), |number| Some((number + step) % round));
    let part = |(place, number): (usize, usize)| {
        let mut part = samples.laid(width, &f[place % 4..=place % 4]);
        part[21..29].copy_from_slice(&pan(number)[8..]);
        part
    };
    numbers.take(number(field(f, 6, 8)).min(MOST)).enumerate().flat_map(part).collect()
}

/// Each part that is used, by the last digits of its PAN, its plate, and two positions more.
fn told(block: &[u8], width: usize, from: usize) -> Vec<u8> {
    let used = block.chunks(width).filter(|part| part[0] == b'1');
    let part = |part: &[u8]| [b" ", &part[21..29], b"/", &part[32..38], b"/", field(part, from, from + 1)].concat();
    used.flat_map(part).collect()
}

pub fn of_series(samples: &Samples, f: &[u8]) -> Option<Answer> {
    let mut register = series(samples, SLOT, field(f, 18, 37));
    register.resize(number(field(f, 14, 16)).min(MOST) * SLOT, 0);
    let hgv = file(samples, &series(samples, LINE, field(f, 39, 58)));
    let (mode, mut index, mut hgc) = (number(field(f, 12, 12)) as u64, index(f, MOST), vec![0; 174 + MOST * ANSWER]);
    let done = import_indexed(mode, RECEPTION, 0, &mut register, ROWS, &hgv, &mut hgc, &mut index);
    let mut behind = format!("{} {}", counted(done.taken, done.rejected), done.length).into_bytes();
    if done.number == 0 {
        let answers = &hgc[HGC_HEADER..HGC_HEADER + done.rejected as usize * ANSWER];
        behind.extend([b"\nslots".to_vec(), told(&register, SLOT, 144)].concat());
        behind.extend([b"\nanswers".to_vec(), told(answers, ANSWER, 128)].concat());
    }
    Some(Answer { first: done.number.to_string(), behind })
}
