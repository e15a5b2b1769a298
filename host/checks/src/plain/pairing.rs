//! The HGC against the HGV: the taken lines, the lines left, and 52 clause by clause.

use super::confirmation as hgc_of;
use super::hgv as hgv_of;
use super::line;
use super::register::pans_differ;
use super::words::is_real_time;

/// Why 52 is given. More than one may be true; the number is the same.
#[derive(Debug, Clone, Copy, PartialEq, Eq, PartialOrd, Ord, Hash)]
pub enum Clause {
    Length,
    Field,
    Receiver,
    List,
    Reception,
    Counts,
    Acceptance,
    Reason,
    Copies,
    SharedPan,
    TakenActor,
    TakenRule,
}

pub const CLAUSES: [Clause; 12] = [
    Clause::Length,
    Clause::Field,
    Clause::Receiver,
    Clause::List,
    Clause::Reception,
    Clause::Counts,
    Clause::Acceptance,
    Clause::Reason,
    Clause::Copies,
    Clause::SharedPan,
    Clause::TakenActor,
    Clause::TakenRule,
];

fn times(text: &[u8], lines: &[&[u8]]) -> usize {
    lines.iter().filter(|other| line::text(other) == text).count()
}

/// For each HGV line, whether it is the first copy of a text that stands more often in
/// the HGV than in the HGC.
pub fn taken_marks(lines: &[&[u8]], copies: &[&[u8]]) -> Vec<bool> {
    let is_taken = |i: usize| {
        let text = line::text(lines[i]);
        let first = times(text, &lines[..i]) == 0;
        first && times(text, lines) > times(text, copies)
    };
    (0..lines.len()).map(is_taken).collect()
}

/// The marked lines, or the lines left.
pub fn marked<'a>(lines: &[&'a [u8]], marks: &[bool], mark: bool) -> Vec<&'a [u8]> {
    lines.iter().zip(marks).filter(|(_, &m)| m == mark).map(|(line, _)| *line).collect()
}

/// The clauses that no search is needed for. The length must be right.
pub fn field_clauses(hgv: &[u8], hgc: &[u8]) -> Vec<Clause> {
    let copies = hgc_of::lines(hgc);
    let fitting: &[u8] = if copies.is_empty() { b"00" } else { b"01" };
    let reason_right = |copy: &&[u8]| matches!(hgc_of::reason(copy), Some(1..=6 | 8 | 9 | 12));
    let judged = [
        (Clause::Field, hgc_of::fields_right(hgc)),
        (Clause::Receiver, hgc_of::receiver(hgc) == hgv_of::sender(hgv)),
        (Clause::List, hgc_of::list_sequence(hgc) == hgv_of::list_sequence(hgv)),
        (Clause::Reception, is_real_time(hgc_of::reception(hgc))),
        (Clause::Acceptance, hgc_of::acceptance(hgc) == fitting),
        (Clause::Reason, copies.iter().all(reason_right)),
    ];
    judged.into_iter().filter(|(_, right)| !right).map(|(clause, _)| clause).collect()
}

fn counts_right(hgc: &[u8], taken: usize, copies: usize) -> bool {
    hgc_of::taken(hgc) == Some(taken as u64) && hgc_of::rejected(hgc) == Some(copies as u64)
}

/// "the HGC's copies are not the lines left, in order".
fn copies_right(left: &[&[u8]], copies: &[&[u8]]) -> bool {
    left.len() == copies.len() && left.iter().zip(copies).all(|(l, c)| line::text(l) == line::text(c))
}

/// The clauses on the taken lines. `differ` tells whether all PANs of lines are different.
pub fn line_clauses(hgv: &[u8], hgc: &[u8], marks: &[bool], differ: fn(&[&[u8]]) -> bool) -> Vec<Clause> {
    let (lines, copies) = (hgv_of::lines(hgv), hgc_of::lines(hgc));
    let taken = marked(&lines, marks, true);
    let left = marked(&lines, marks, false);
    let sender = hgv_of::sender(hgv);
    let judged = [
        (Clause::Counts, counts_right(hgc, taken.len(), copies.len())),
        (Clause::Copies, copies_right(&left, &copies)),
        (Clause::SharedPan, differ(&taken)),
        (Clause::TakenActor, taken.iter().all(|l| line::actor(l) == sender)),
        (Clause::TakenRule, taken.iter().all(|l| line::record_rules_hold(l))),
    ];
    judged.into_iter().filter(|(_, right)| !right).map(|(clause, _)| clause).collect()
}

/// Every clause of 52 that is true of an HGV that 25 to 32 let pass. With a wrong length
/// no field has a place, so nothing else is judged then.
pub fn clauses_of_52(hgv: &[u8], hgc: &[u8]) -> Vec<Clause> {
    if !hgc_of::length_right(hgc) {
        return vec![Clause::Length];
    }
    let marks = taken_marks(&hgv_of::lines(hgv), &hgc_of::lines(hgc));
    let mut clauses = field_clauses(hgv, hgc);
    clauses.extend(line_clauses(hgv, hgc, &marks, pans_differ));
    clauses
}

/// Per HGV line 0 if taken, else the reason of its copy.
pub fn verdicts_told(marks: &[bool], hgc: &[u8]) -> Vec<u8> {
    let mut copies = hgc_of::lines(hgc).into_iter();
    let mut told = |mark: bool| match mark {
        true => 0,
        false => copies.next().and_then(hgc_of::reason).unwrap_or(0) as u8,
    };
    marks.iter().map(|&mark| told(mark)).collect()
}
