//! Sweeps: times written out in their order, so that what goes at each of them is a matter of places in the list.

use crate::sample;
use graftspindle::raw::Swept;

/// Each is later than the one before it: by its last digit, by each digit in front of that, and by a second around hours, days
/// and years.
const TIMES: [&str; 24] = [
    "00010101000000",
    "00010101000001",
    "00010101000010",
    "00010101000100",
    "00010101001000",
    "00010101010000",
    "00010101100000",
    "00010102000000",
    "00010110000000",
    "00010201000000",
    "00011001000000",
    "00020101000000",
    "00100101000000",
    "01000101000000",
    "10000101000000",
    "20241231235959",
    "20250101000000",
    "20250310045959",
    "20250310050000",
    "20250310050001",
    "20250310235959",
    "20250311000000",
    "99991231235958",
    "99991231235959",
];

/// The end of a record that has none.
const NO_END: &str = "00000000000000";

const SLOT: usize = 168;

/// Times that are none, with the number of digits that one has and with another.
const NO_TIMES: [&str; 6] =
    ["", "2025031005000", "202503100500000", "00000000000000", "20250230050000", "2025031005000 "];

/// The slot of the i-th account with this end, brought by a list of its own.
fn slot(i: usize, end: &str) -> Vec<u8> {
    let mut slot = sample::slot(sample::line_until(i, end));
    slot[145..147].copy_from_slice(format!("{:02}", i + 1).as_bytes());
    slot
}

/// A record for each of the times, which is its end, and behind it one without an end: what of these is left when so many have
/// gone, and free slots behind it, as many as went and so many more.
fn left(gone: usize, free: usize) -> Vec<u8> {
    let pair = |(i, time): (usize, &&str)| [slot(2 * i, time), slot(2 * i + 1, NO_END)];
    let all: Vec<Vec<u8>> = TIMES.iter().enumerate().flat_map(pair).collect();
    let stays = |i: usize| i % 2 == 1 || i / 2 >= gone;
    let mut left: Vec<u8> = (0..all.len()).filter(|&i| stays(i)).flat_map(|i| all[i].clone()).collect();
    left.resize((all.len() + free) * SLOT, 0);
    left
}

type Sweep = fn(&mut [u8], &[u8]) -> Swept;

/// What is told where a sweep answers another number or count, or leaves another register.
fn other(sweep: Sweep, before: &[u8], time: &str, (number, removed): (u64, usize), after: &[u8]) -> Option<String> {
    let mut register = before.to_vec();
    let answer = sweep(&mut register, time.as_bytes());
    let bytes = if register == after { "the right bytes" } else { "other bytes" };
    let right = answer == Swept { number, removed: removed as u64 } && register == after;
    (!right).then(|| format!("sweep: at {time}: number {}, {} went, {bytes}", answer.number, answer.removed))
}

/// At each time those go that have ended by then, in a full register and with free slots.
fn at_each_time(sweep: Sweep) -> Option<String> {
    let mut each = (0..TIMES.len()).flat_map(|at| [(at, 0), (at, 2)]);
    each.find_map(|(at, free)| other(sweep, &left(0, free), TIMES[at], (0, at + 1), &left(at + 1, free)))
}

/// Registers in which nothing has ended, or all has; and none at all.
fn at_both_ends(sweep: Sweep) -> Option<String> {
    let (first, last) = (TIMES[0], TIMES[TIMES.len() - 1]);
    let active: Vec<u8> = (0..3).flat_map(|i| slot(i, NO_END)).collect();
    let ended: Vec<u8> = (0..3).flat_map(|i| slot(i, TIMES[3 - i])).collect();
    other(sweep, &active, last, (0, 0), &active)
        .or_else(|| other(sweep, &ended, last, (0, 3), &[0; 3 * SLOT]))
        .or_else(|| other(sweep, &ended, first, (0, 0), &ended))
        .or_else(|| other(sweep, &[], last, (0, 0), &[]))
}

/// 22, then 23; nothing is written.
fn refused(sweep: Sweep) -> Option<String> {
    let last = TIMES[TIMES.len() - 1];
    let torn = [left(0, 2), vec![0]].concat();
    let twice = [slot(0, TIMES[0]), slot(0, TIMES[1])].concat();
    let of_time = |time: &&str| {
        let right = left(0, 2);
        other(sweep, &right, time, (22, 0), &right).or_else(|| other(sweep, &torn, time, (22, 0), &torn))
    };
    let of_order = |register: &Vec<u8>| other(sweep, register, last, (23, 0), register);
    NO_TIMES.iter().find_map(of_time).or_else(|| [&torn, &twice].into_iter().find_map(of_order))
}

/// The first sweep that is answered otherwise.
pub fn all(sweep: Sweep) -> Option<String> {
    at_each_time(sweep).or_else(|| at_both_ends(sweep)).or_else(|| refused(sweep))
}
