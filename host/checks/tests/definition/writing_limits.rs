//! The writer's whole files, both sides of its limits, and the order of its refusals.

use crate::common::*;
use graftspindle::raw::List;
use graftspindle_checks::sample::{self, account_of};

#[test]
fn whole_files() {
    let accounts = both();
    for (n, lines) in [(0, vec![]), (1, vec![x()]), (2, vec![x(), y()])] {
        let given = list(&accounts[..100 * n]);
        assert_eq!(of_all(|e| write(e, &given, 500)), (0, hgv(&lines)));
        let other = List { version: 220001, number: 99, previous: PREVIOUS, date: b"20240229", ..given };
        let file = [(95, &b"220001"[..]), (31, b"99"), (33, PREVIOUS), (23, b"20240229")]
            .iter()
            .fold(hgv(&lines), |file, (from, field)| with(&file, *from, field));
        assert_eq!(of_all(|e| write(e, &other, 500)), (0, file));
    }
}

#[test]
fn buffers() {
    let accounts = both();
    for n in 0..=2 {
        let (given, exact) = (list(&accounts[..100 * n]), 192 + 128 * n);
        for room in [0, 1, 191, exact - 1] {
            assert_eq!(of_all(|e| write(e, &given, room)).0, 63, "{n}, {room}");
        }
        for room in [exact, exact + 1, exact + 128] {
            assert_eq!(of_all(|e| write(e, &given, room)).0, 0);
        }
    }
}

#[test]
fn lengths_of_accounts() {
    let accounts = sample::accounts(4);
    let rows = sample::row();
    for length in 0..=400 {
        let expected = if length % 100 == 0 { 0 } else { 61 };
        assert_eq!(number_of_all(&sample::list(&rows, &accounts[..length])), expected, "{length}");
    }
}

/// The most accounts there may be, each a line of a file that is taken whole; and one more.
#[test]
fn most_accounts() {
    let (rows, accounts) = (sample::row(), sample::accounts(8193));
    let most = sample::list(&rows, &accounts[..819_200]);
    let (number, file) = of_all(|e| write(e, &most, 192 + 128 * 8192));
    assert!(number == 0 && file == sample::hgv(8192));
    let outcome = of_all(|e| run(e, 1, R0, &free(8192), &rows, &file, 174));
    assert_eq!((outcome.answer.number, outcome.answer.taken), (0, 8192));
    assert_eq!(of_all(|e| write(e, &most, 191 + 128 * 8192)).0, 63);
    assert_eq!(number_of_all(&sample::list(&rows, &accounts)), 61);
    assert_eq!(number_of_all(&sample::list(&rows, &accounts[..819_201])), 61);
}

/// The last account with the PAN of the first, with a fault, and with both; then one account more.
#[test]
fn last_of_the_most() {
    let (rows, mut accounts) = (sample::row(), sample::accounts(8193));
    let last = 8191 * 100;
    accounts.copy_within(..19, last);
    assert_eq!(number_of_all(&sample::list(&rows, &accounts[..819_200])), 62);
    assert_eq!(number_of_all(&sample::list(&rows, &accounts)), 61);
    accounts[last + 99] = b'1';
    assert_eq!(number_of_all(&sample::list(&rows, &accounts[..819_200])), 61);
    accounts[last..last + 19].copy_from_slice(format!("{:<19}", sample::pan(8191)).as_bytes());
    assert_eq!(number_of_all(&sample::list(&rows, &accounts[..819_200])), 61);
}

#[test]
fn numbers_and_versions() {
    let accounts = both();
    let right = list(&accounts);
    for number in (0..=1000).chain([1 << 8, 1 << 16, 1 << 32, 1 << 63].map(|high| high + 1)) {
        let expected = if (1..=99).contains(&number) { 0 } else { 61 };
        assert_eq!(number_of_all(&List { number, ..right }), expected, "{number}");
    }
    for version in (119_000..=121_000).chain(219_000..=221_000).chain([0, 500_001, (1 << 32) + 120_001, u64::MAX]) {
        let expected = if version == 120_001 || version == 220_001 { 0 } else { 61 };
        assert_eq!(number_of_all(&List { version, ..right }), expected, "{version}");
    }
}

/// A list with one cause of 61 each.
fn causes<'a>(right: &List<'a>, faulty: &'a [u8]) -> Vec<List<'a>> {
    let right = *right;
    vec![
        List { version: 500001, ..right },
        List { sender: b"90012", ..right },
        List { sender: b"900124", ..right },
        List { date: b"20230229", ..right },
        List { number: 0, ..right },
        List { number: 100, ..right },
        List { previous: b"HGV9001242025030901", ..right },
        List { creation: b"20250310240000", ..right },
        List { rows: b"", ..right },
        List { rows: b"97990012      0816900124", ..right },
        List { rows: b"97990012      0516900123", ..right },
        List { accounts: &right.accounts[1..], ..right },
        List { accounts: faulty, ..right },
    ]
}

/// All that stand behind are there too: the first answers.
#[test]
fn order_of_refusals() {
    let (once, twice) = (both(), both().repeat(2));
    let faulty = |accounts: &[u8]| [accounts, &account_of(&bad())].concat();
    let number = |list: &List, short: usize| of_all(|e| write(e, list, 192 + 128 * 5 - short)).0;
    assert_eq!(of_all(|e| write(e, &list(&once), 192 + 256)).0, 0);
    for (accounts, without) in [(&once, 0), (&twice, 62)] {
        let bad = faulty(accounts);
        assert_eq!(number(&list(accounts), 0), without);
        assert_eq!(of_all(|e| write(e, &list(accounts), 0)).0, if without == 0 { 63 } else { 62 });
        for cause in causes(&list(accounts), &bad) {
            assert_eq!((number(&cause, 0), number(&cause, 640), number(&cause, 832)), (61, 61, 61), "{cause:?}");
        }
    }
}
