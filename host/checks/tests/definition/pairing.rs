//! Pairing from the back against the definition's counts, on all small files.

use crate::common::*;
use graftspindle_checks::plain::pairing::{marked, taken_marks};

/// Walks both from the back and strikes a line against the last copy left, where they are
/// the same text. None where copies stay over or an unmatched text was sent before.
fn from_the_back(lines: &[&[u8]], copies: &[&[u8]]) -> Option<Vec<bool>> {
    let mut rest = copies.len();
    let mut marks = vec![true; lines.len()];
    for i in (0..lines.len()).rev() {
        if rest > 0 && lines[i] == copies[rest - 1] {
            rest -= 1;
            marks[i] = false;
        }
    }
    let first = |i: usize| !lines[..i].contains(&lines[i]);
    let right = rest == 0 && (0..lines.len()).all(|i| !marks[i] || first(i));
    right.then_some(marks)
}

/// The definition: None where the copies are not the lines left, in order.
fn by_counts(lines: &[&[u8]], copies: &[&[u8]]) -> Option<Vec<bool>> {
    let marks = taken_marks(lines, copies);
    (marked(lines, &marks, false) == copies).then_some(marks)
}

fn files<'a>(texts: &[&'a [u8]], most: usize) -> Vec<Vec<&'a [u8]>> {
    let mut all: Vec<Vec<&[u8]>> = vec![vec![]];
    let mut begin = 0;
    for _ in 0..most {
        let end = all.len();
        for i in begin..end {
            all.extend(texts.iter().map(|text| [&all[i][..], &[*text]].concat()).collect::<Vec<_>>());
        }
        begin = end;
    }
    all
}

fn compare(texts: &[&[u8]], most: usize) -> (u64, u64) {
    let all = files(texts, most);
    let (mut pairs, mut right) = (0, 0);
    for lines in &all {
        for copies in &all {
            let expected = by_counts(lines, copies);
            assert_eq!(from_the_back(lines, copies), expected);
            pairs += 1;
            right += u64::from(expected.is_some());
        }
    }
    (pairs, right)
}

#[test]
fn both_pairings_are_one() {
    let (x, y, z) = (x(), y(), x_other());
    for (texts, most) in [(&[&x[..], &y, &z][..], 5), (&[&x, &y], 7)] {
        let (pairs, right) = compare(texts, most);
        println!("{} texts, up to {most} lines: {pairs} pairs, {right} right", texts.len());
    }
}
