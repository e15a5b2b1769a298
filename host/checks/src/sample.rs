//! Files as long as is asked for, of lines that are right or that have one fault; the accounts of such lines, and the slots
//! that an import makes of them.

use crate::lists::COLUMNS;
use graftspindle::raw::List;

pub const RECEPTION: &[u8] = b"20250310050000";
pub const SENDER: &str = "900123";

/// The date and the number of each list.
pub const OF_DAY: &str = "2025031001";

/// A number and a Luhn digit behind it: a PAN of 16 digits.
pub fn pan(i: usize) -> String {
    let front = format!("97990012{i:07}");
    let sum: u32 = front
        .bytes()
        .rev()
        .enumerate()
        .map(|(at, b)| {
            let digit = u32::from(b - b'0') * if at % 2 == 0 { 2 } else { 1 };
            digit / 10 + digit % 10
        })
        .sum();
    format!("{front}{}", (10 - sum % 10) % 10)
}

pub fn plate(i: usize) -> String {
    format!("{:<10}", format!("GS{i:04}"))
}

/// A line that meets every rule; `1` and LF around it.
pub fn line(i: usize) -> String {
    let pan = pan(i);
    let plate = plate(i);
    let line = format!(
        "1{SENDER}      {pan:<19}{plate}DE 3110{:0>12}{:0>18}{:<6}02Y   000000000{:014}00{:011}\n",
        format!("{i:X}"),
        format!("{i:X}"),
        "Euro6",
        0,
        0
    );
    assert_eq!(line.len(), 128);
    line
}

/// The same line with this Valid to.
pub fn line_until(i: usize, end: &str) -> String {
    let mut line = line(i);
    line.replace_range(100..114, end);
    line
}

/// The same line with a fault that the last rule of a line's own finds (L10).
pub fn faulty_line(i: usize) -> String {
    line(i).replace("Euro6", "Euro9")
}

pub fn hgv_of<L: AsRef<[u8]>>(lines: &[L]) -> Vec<u8> {
    let header = format!(
        "0{SENDER}000002HGV{SENDER}{OF_DAY}HGV{:016}{:014}{:015}20250310040000120001{:027}\n",
        0,
        0,
        lines.len(),
        0
    );
    assert_eq!(header.len(), 128);
    let mut file = header.into_bytes();
    lines.iter().for_each(|line| file.extend(line.as_ref()));
    file.extend(format!("2{:062}\n", 0).into_bytes());
    file
}

/// The slot of a record: a list of its actor brought it at the sample's reception. For a line of the sample, whose end stays,
/// this is the slot that the sample's file leaves.
pub fn slot(record: impl AsRef<[u8]>) -> Vec<u8> {
    let record = record.as_ref();
    [record, b"HGV", &record[1..7], OF_DAY.as_bytes(), RECEPTION, b"0000000"].concat()
}

/// The slots of records, one behind the other.
pub fn slots<R: AsRef<[u8]>>(records: impl IntoIterator<Item = R>) -> Vec<u8> {
    records.into_iter().flat_map(slot).collect()
}

/// A file of so many lines, each with a PAN and a plate of its own.
pub fn hgv(lines: usize) -> Vec<u8> {
    hgv_of(&(0..lines).map(line).collect::<Vec<_>>())
}

/// The one issuer row that fits them.
pub fn row() -> Vec<u8> {
    format!("{:<14}0616{SENDER}", "979900").into_bytes()
}

/// The account of a line: its columns, one behind the other.
pub fn account_of(line: &[u8]) -> Vec<u8> {
    COLUMNS.iter().flat_map(|&(_, from, to)| &line[from - 1..to]).copied().collect()
}

/// The line with the columns of an account.
pub fn with_account(line: &[u8], account: &[u8]) -> Vec<u8> {
    let (mut line, mut rest) = (line.to_vec(), account);
    for (_, from, to) in COLUMNS {
        let (column, behind) = rest.split_at(to - from + 1);
        line[from - 1..to].copy_from_slice(column);
        rest = behind;
    }
    line
}

/// The accounts of a file of so many lines.
pub fn accounts(n: usize) -> Vec<u8> {
    (0..n).flat_map(|i| account_of(line(i).as_bytes())).collect()
}

/// What that file is written from.
pub fn list<'a>(rows: &'a [u8], accounts: &'a [u8]) -> List<'a> {
    List {
        version: 120001,
        sender: SENDER.as_bytes(),
        date: b"20250310",
        number: 1,
        previous: b"HGV0000000000000000",
        creation: b"20250310040000",
        rows,
        accounts,
    }
}
