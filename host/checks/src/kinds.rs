//! Imports of so many lines into as many slots, of every kind that the search for equal PANs tells apart: they are timed, and the
//! ways of searching are compared on them.

use crate::plain::register::SLOT;
use crate::sample;

pub struct Kind {
    pub name: &'static str,
    pub register: Vec<u8>,
    pub hgv: Vec<u8>,
    pub taken: usize,
    pub rejected: usize,
}

/// So many lines of a large register's.
const FEW: usize = 100;

fn free(slots: usize) -> Vec<u8> {
    vec![0; SLOT * slots]
}

/// The record of a line, or the same under another actor.
fn record(i: usize, is_own: bool) -> String {
    let line = sample::line(i);
    if is_own {
        line
    } else {
        line.replacen(sample::SENDER, "900124", 1)
    }
}

/// A full register, whose records are the sender's or another's.
fn full(slots: usize, is_own: impl Fn(usize) -> bool) -> Vec<u8> {
    sample::slots((0..slots).map(|i| record(i, is_own(i))))
}

fn file(lines: impl IntoIterator<Item = usize>) -> Vec<u8> {
    sample::hgv_of(&lines.into_iter().map(sample::line).collect::<Vec<_>>())
}

/// In another order than that of the slots and of the PANs. Each comes once, as the number is odd and the size a power of two.
fn scattered(size: usize) -> impl Iterator<Item = usize> {
    (0..size).map(move |i| i * 2593 % size)
}

/// Whether it is one of the few that stand all over a register.
fn is_of_few(i: usize, size: usize) -> bool {
    i * FEW / size != (i + 1) * FEW / size
}

/// A full list passes in each of them, too: what the sender has is sent again, or nothing is his. The size is a power of two and
/// above a hundred.
pub fn kinds(size: usize) -> Vec<Kind> {
    let (half, every) = (size / 2, |_: usize| true);
    let few: Vec<usize> = (0..size).filter(|&i| is_of_few(i, size)).collect();
    let own_few = |i| is_of_few(i, size);
    let faulty: Vec<String> = (0..size).map(sample::faulty_line).collect();
    let kind = |name, register, hgv, taken, rejected| Kind { name, register, hgv, taken, rejected };
    vec![
        kind("new lines, free register", free(size), file(0..size), size, 0),
        kind("new lines, PANs scattered, free register", free(size), file(scattered(size)), size, 0),
        kind("held lines, full register", full(size, every), file(0..size), size, 0),
        kind("held lines, PANs scattered, full register", full(size, every), file(scattered(size)), size, 0),
        kind("half another's, full register", full(size, |i| i % 2 == 0), file(0..size), half, half),
        kind(
            "each PAN twice, full register",
            full(size, |i| half <= i),
            file((0..size).map(|i| half + i % half)),
            half,
            half,
        ),
        kind("one PAN, full register", full(size, |i| i == size - 1), file((0..size).map(|_| size - 1)), 1, size - 1),
        kind("rejected lines, full register", full(size, |_| false), sample::hgv_of(&faulty), 0, size),
        kind("100 lines, full register", full(size, own_few), file((0..FEW).map(|i| few[i * 37 % FEW])), FEW, 0),
    ]
}
