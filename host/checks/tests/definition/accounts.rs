//! One account, one field of a list, changed in every way: what the writer answers is what the import would.

use crate::common::*;
use graftspindle::raw::List;
use graftspindle_checks::lists::{self, COLUMNS};
use graftspindle_checks::sample::{self, account_of, with_account};
use graftspindle_checks::tried::{times, trials};
use std::cell::Cell;
use std::slice;

/// 62 compares 19 bytes, not numbers; the rest of the account plays no part.
#[test]
fn equal_pans() {
    let rows = [&b"000000        0608900123"[..], b"000000        0609900123"].concat();
    let short = account_of(&with(LINE0, 14, b"00000018           "));
    let long = account_of(&with(LINE0, 14, b"000000018          "));
    let other = account_of(&with(&x_other(), 14, b"00000018           "));
    let number = |accounts: &[&[u8]]| number_of_all(&sample::list(&rows, &accounts.concat()));
    assert_eq!(number(&[&short, &long]), 0);
    assert_eq!(number(&[&short, &short]), 62);
    assert_eq!(number(&[&short, &other]), 62);
    assert_eq!(number(&[&other, &long, &short]), 62);
    assert_eq!(number(&[&long, &other]), 0);
}

/// Each byte of an account set to each value: 61 exactly where the import would not let its line pass.
#[test]
fn every_changed_byte_of_an_account() {
    for at in 0..100 {
        let changed = |value: u8| [&account_of(LINE0)[..at], &[value], &account_of(LINE0)[at + 1..]].concat();
        let numbers: Vec<u64> = (0..=255).map(|value| number_of_all(&list(&changed(value)))).collect();
        assert_eq!(numbers[..32], [61; 32]);
        let lines: Vec<Vec<u8>> = (32..=255).map(|value| with_account(LINE0, &changed(value))).collect();
        for verdicts in verdicts_under(ROW0, &lines) {
            // 01 is a line that breaks none of its own rules.
            let expected = verdicts.iter().map(|verdict| if *verdict <= 1 { 0 } else { 61 });
            assert!(numbers[32..].iter().copied().eq(expected), "byte {at}");
        }
    }
}

#[test]
fn every_listed_value_in_an_account() {
    let (rows, tried) = (sample::row(), Cell::new(0));
    for trial in trials() {
        for engine in ENGINES {
            let number = |account: &[u8]| {
                tried.set(tried.get() + 1);
                write(engine, &sample::list(&rows, account), 320).0
            };
            assert_eq!(trial.as_accounts(number), None, "{}", engine.name);
        }
    }
    println!("listed values in accounts: {}", tried.get() / ENGINES.len());
    assert!(tried.get() >= 250_000 * ENGINES.len());
}

/// Each byte of each header field and row set to each value, and each length of these.
#[test]
fn every_changed_byte_of_the_rest() {
    let accounts = both();
    let right = List { previous: PREVIOUS, ..list(&accounts) };
    let judge = |at: usize, field: &[u8]| match at {
        0 => number_of_all(&List { sender: field, ..right }),
        1 => number_of_all(&List { date: field, ..right }),
        2 => number_of_all(&List { previous: field, ..right }),
        3 => number_of_all(&List { creation: field, ..right }),
        _ => number_of_all(&List { rows: field, ..right }),
    };
    for (at, field) in [right.sender, right.date, right.previous, right.creation, right.rows].into_iter().enumerate() {
        assert_eq!(judge(at, field), 0);
        for place in 0..field.len() {
            let answered = (0..=255).map(|value| judge(at, &with(field, place + 1, &[value])));
            assert!(answered.filter(|&number| number == 0).count() >= 1, "field {at}, byte {place}");
        }
        for length in 0..=100 {
            let cut: Vec<u8> = field.iter().copied().chain([b'0'; 100]).take(length).collect();
            assert_eq!(judge(at, &cut), if length == field.len() { 0 } else { 61 }, "field {at}, {length} bytes");
        }
    }
}

/// Every date of 400 years as the list's and in the previous one, every time of a day as the creation.
#[test]
fn every_date_and_time() {
    for engine in ENGINES {
        let number = |list: &List| write(engine, list, 192).0;
        let created = |time: &[u8]| number(&List { creation: time, ..list(b"") }) == 0;
        assert_eq!(times::all_times(created), None, "{}", engine.name);
        let dated = |line: &[u8]| {
            let date = &line[100..108];
            let previous = [b"HGV900123", date, b"01"].concat();
            let dated = number(&List { date, ..list(b"") });
            assert_eq!(number(&List { previous: &previous, ..list(b"") }), dated);
            dated == 0
        };
        for trial in times::dates() {
            assert_eq!(trial.as_records(dated), None, "{}", engine.name);
        }
    }
}

/// The columns of an account in their order but for two.
fn exchanged(account: &[u8], a: usize, b: usize) -> Vec<u8> {
    let line = with_account(LINE0, account);
    let mut columns: Vec<&[u8]> = COLUMNS.iter().map(|&(_, from, to)| &line[from - 1..to]).collect();
    columns.swap(a, b);
    columns.concat()
}

#[test]
fn exchanged_columns() {
    let account = account_of(&with(&with(LINE0, 97, b"0120"), 101, b"20261231235959"));
    let mut numbers = Counts::new();
    for a in 0..COLUMNS.len() {
        for b in a + 1..COLUMNS.len() {
            count(&mut numbers, number_of_all(&list(&exchanged(&account, a, b))));
        }
    }
    println!("two columns exchanged: {numbers:?}");
    assert!(numbers[&61] >= 110, "nearly all of 120 are refused");
}

/// The weight and the year of Valid to: a tariff that has a most weight tells them apart, the others do not.
#[test]
fn weight_for_year() {
    let line = with(&with(LINE0, 97, b"0120"), 101, b"20261231235959");
    assert_eq!(number_of_all(&list(&account_of(&line))), 0);
    let wrong = |tariff: &[u8]| with(&with(&with(&line, 97, b"2026"), 101, b"0120"), 46, tariff);
    for tariff in [b"12", b"22", b"41"] {
        assert_eq!(number_of_all(&list(&account_of(&wrong(tariff)))), 61);
    }
    for tariff in [b"31", b"32", b"51", b"63", b"71"] {
        let heavy = wrong(tariff);
        assert_eq!(of_all(|e| write(e, &list(&account_of(&heavy)), 320)), (0, hgv(slice::from_ref(&heavy))));
    }
}

/// The writer follows the rules of lines: what was a light weight before the limits were amended is 61, and a record's weight
/// plays no part.
#[test]
fn weight_of_an_account() {
    let number =
        |tariff: &[u8], weight: &[u8]| number_of_all(&list(&account_of(&with(&with(LINE0, 46, tariff), 97, weight))));
    assert_eq!([number(b"12", b"0349"), number(b"12", b"0350")], [0, 61]);
    assert_eq!([number(b"22", b"0349"), number(b"22", b"0350")], [0, 61]);
    assert_eq!([number(b"31", b"0349"), number(b"31", b"0350")], [61, 0]);
    assert_eq!([number(b"32", b"0349"), number(b"32", b"0350")], [61, 0]);
    assert_eq!([number(b"41", b"0349"), number(b"41", b"0350")], [61, 0]);
    assert_eq!([number(b"41", b"1199"), number(b"41", b"1200")], [0, 61]);
    assert_eq!([number(b"51", b"1199"), number(b"51", b"1200")], [61, 0]);
    for tariff in lists::TARIFFS {
        assert_eq!(number(tariff.as_bytes(), b"0000"), 0);
    }
}
