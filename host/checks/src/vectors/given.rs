//! The vectors on the writer. What is given is one text: version, sender, date, number, previous list, creation; then the
//! buffer's length, two rows and two accounts by their letters, the accounts' length, and how many bytes of the previous
//! list follow its first.

use super::blocks::{change, field, number};
use super::{Answer, Samples};
use crate::plain;
use graftspindle::raw::{List, Written};

/// The most that a program has of accounts, and of a buffer.
const ACCOUNTS: usize = 200;
const ROOM: usize = 512;

/// A byte that stands in no file.
const UNWRITTEN: u8 = 238;

fn write(given: &[u8], rows: &[u8], accounts: &[u8], out: &mut [u8]) -> Written {
    let list = List {
        version: number(field(given, 1, 6)) as u64,
        sender: field(given, 7, 12),
        date: field(given, 13, 20),
        number: number(field(given, 21, 23)) as u64,
        previous: field(given, 24, 24 + number(field(given, 68, 69)).min(40)),
        creation: field(given, 43, 56),
        rows,
        accounts,
    };
    plain::write(&list, out)
}

/// The file of two lines in front of what was there, with one place changed.
fn file(samples: &Samples, f: &[u8], length: usize) -> Vec<u8> {
    let mut file = samples.hgv(b"2XY");
    file.resize(ROOM, UNWRITTEN);
    change(&mut file, f);
    file.truncate(length);
    file
}

pub fn answer(samples: &Samples, tag: &[u8], f: &[u8]) -> Option<Answer> {
    let mut given = samples.laid(69, b"G");
    if matches!(tag, b"write   " | b"kept    " | b"answered") {
        change(&mut given, f);
    }
    let (rows, mut accounts) = (samples.laid(24, &given[60..62]), samples.laid(100, &given[62..64]));
    if tag == b"account " {
        change(&mut accounts, f);
    }
    let accounts = &accounts[..number(field(&given, 65, 67)).min(ACCOUNTS)];
    let mut out = vec![UNWRITTEN; number(field(&given, 57, 60)).min(ROOM)];
    let written = write(&given, &rows, accounts, &mut out);
    match tag {
        b"written " => Answer::truth(out == file(samples, f, out.len())),
        b"kept    " => Answer::truth(out.iter().all(|&byte| byte == UNWRITTEN)),
        b"answered" => Answer::number(written.length),
        _ => Answer::number(written.number),
    }
}

/// So many copies of one account, one more than a file may have at the most.
pub fn of_copies(samples: &Samples, f: &[u8]) -> Option<Answer> {
    let accounts = samples.laid(100, &vec![b'a'; number(field(f, 1, 6)).min(8193)]);
    let given = samples.laid(69, b"G");
    Answer::number(write(&given, b"97990012      0816900123", &accounts, &mut [0]).number)
}
