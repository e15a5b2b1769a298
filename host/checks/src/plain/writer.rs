//! The writer for providers: a whole HGV from accounts, and the refusals 61 to 63.

use super::line::LINE;
use super::words::*;
use super::{confirmation, hgv, register, rows, verdict};
use graftspindle::raw::{List, Written};

/// An account: a line's columns without what is the same in each.
const ACCOUNT: usize = 100;
const MOST_ACCOUNTS: usize = 8192;

/// What makes 61. A line is told by the first of L1 to L10 that it breaks.
#[derive(Clone, Copy, Debug, PartialEq, Eq, PartialOrd, Ord)]
pub enum Cause {
    Version,
    Sender,
    Date,
    Number,
    Previous,
    Creation,
    Rows,
    NoRow,
    Length,
    TooMany,
    Line(u8),
}

/// A refusal returns its number and zero for the length.
fn refused(number: u64) -> Written {
    Written { number, length: 0 }
}

fn sender_right(sender: &[u8]) -> bool {
    sender.len() == 6 && all_digits(sender)
}

fn previous_right(list: &List) -> bool {
    list.previous.len() == 19 && hgv::previous_right(list.previous, list.sender)
}

/// Rows out of form are the cause before: then no row has a place for its actor.
fn lacks_row(list: &List) -> bool {
    rows::rows_right(list.rows) && rows::rows_of(list.rows, list.sender).is_empty()
}

/// The causes of 61 that need no line.
fn field_causes(list: &List) -> Vec<Cause> {
    let causes = [
        (Cause::Version, list.version != 120001 && list.version != 220001),
        (Cause::Sender, !sender_right(list.sender)),
        (Cause::Date, !is_real_date(list.date)),
        (Cause::Number, !(1..=99).contains(&list.number)),
        (Cause::Previous, !previous_right(list)),
        (Cause::Creation, !is_real_time(list.creation)),
        (Cause::Rows, !rows::rows_right(list.rows)),
        (Cause::NoRow, lacks_row(list)),
        (Cause::Length, !list.accounts.len().is_multiple_of(ACCOUNT)),
        (Cause::TooMany, list.accounts.len() / ACCOUNT > MOST_ACCOUNTS),
    ];
    causes.into_iter().filter(|(_, fits)| *fits).map(|(cause, _)| cause).collect()
}

/// The causes of 61 in lines, which want their sender, rows and length right.
fn line_causes(list: &List, lines: &[&[u8]]) -> Vec<Cause> {
    let rows = rows::rows_of(list.rows, list.sender);
    let rules = lines.iter().map(|line| verdict::rule_l1_to_l10(line, list.sender, &rows));
    rules.filter(|&rule| rule != 0).map(Cause::Line).collect()
}

/// Every cause of 61 that is true. Without a sender, rows or accounts in form there are no lines to judge.
pub fn causes_of_61(list: &List) -> Vec<Cause> {
    let mut causes = field_causes(list);
    let before_lines = [Cause::Sender, Cause::Rows, Cause::NoRow, Cause::Length];
    if !before_lines.iter().any(|cause| causes.contains(cause)) {
        causes.extend(line_causes(list, &lines(&body(list))));
    }
    causes
}

fn header(list: &List) -> Vec<u8> {
    let mut header = vec![b'0'];
    header.extend(list.sender);
    header.extend(b"000002HGV");
    header.extend(list.sender);
    header.extend(list.date);
    header.extend(format!("{:02}", list.number).bytes());
    header.extend(list.previous);
    header.extend([b'0'; 14]);
    header.extend(format!("{:015}", list.accounts.len() / ACCOUNT).bytes());
    header.extend(list.creation);
    header.extend(format!("{:06}", list.version).bytes());
    header.extend([b'0'; 27]);
    header.push(LF);
    header
}

/// PAN to letter are 1-75 of an account and 14-88 of a line, engine to separator 76-100 and 92-116.
fn write_line(body: &mut Vec<u8>, sender: &[u8], account: &[u8]) {
    body.push(b'1');
    body.extend(sender);
    body.extend([BLANK; 6]);
    body.extend(positions(account, 1, 75));
    body.extend([BLANK; 3]);
    body.extend(positions(account, 76, 100));
    body.extend([b'0'; 11]);
    body.push(LF);
}

/// The lines of the accounts, one behind the other.
fn body(list: &List) -> Vec<u8> {
    let mut body = Vec::with_capacity(list.accounts.len() / ACCOUNT * LINE);
    list.accounts.chunks(ACCOUNT).for_each(|account| write_line(&mut body, list.sender, account));
    body
}

fn lines(body: &[u8]) -> Vec<&[u8]> {
    body.chunks(LINE).collect()
}

/// The search that differs from one implementation to the other.
pub type PansDiffer = fn(&[&[u8]]) -> bool;

/// All refusals are known before the first byte is written.
pub fn write_by(list: &List, out: &mut [u8], pans_differ: PansDiffer) -> Written {
    if !field_causes(list).is_empty() {
        return refused(61);
    }
    let body = body(list);
    let lines = lines(&body);
    if !line_causes(list, &lines).is_empty() {
        return refused(61);
    }
    if !pans_differ(&lines) {
        return refused(62);
    }
    let hgv = [header(list), body, confirmation::footer()].concat();
    if out.len() < hgv.len() {
        return refused(63);
    }
    out[..hgv.len()].copy_from_slice(&hgv);
    Written { number: 0, length: hgv.len() as u64 }
}

pub fn write(list: &List, out: &mut [u8]) -> Written {
    write_by(list, out, register::pans_differ)
}
