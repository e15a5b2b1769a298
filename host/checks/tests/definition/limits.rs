//! The whole case and 'Both sides of each limit'.

use crate::common::*;
use graftspindle_checks::plain::line::{luhn_sum, separator_right};
use graftspindle_checks::plain::register::end_of;
use graftspindle_checks::plain::words::is_real_time;
use std::slice;

#[test]
fn case_whole() {
    let mut expected = b"0000002900123HGV900123202503100120250310050000".to_vec();
    expected.extend([b'0'; 30]);
    expected.extend(b"120001");
    expected.extend([b'0'; 25]);
    expected.extend(b"00\n2");
    expected.extend([b'0'; 62]);
    expected.push(b'\n');
    assert_eq!(expected.len(), 174);
    for engine in ENGINES {
        let outcome = run(engine, 1, R0, &[], ROW0, &hgv(&[]), 200);
        assert_eq!(outcome.answer.number, 0);
        assert_eq!(outcome.answer.length, 174);
        assert_eq!(outcome.hgc, expected);
    }
}

#[test]
fn luhn() {
    let right: [&[u8]; 6] = [
        b"9799001200000002",
        b"9799001200000010",
        b"9799001200000028",
        b"9799001200000000003",
        b"979900120000011",
        b"97990012000000128",
    ];
    assert!(right.iter().all(|pan| luhn_sum(pan).is_multiple_of(10)));
    assert_eq!(luhn_sum(b"9799001200000003"), 41);
    assert_eq!(luhn_sum(b"9799001200000000003"), 40);
    assert_eq!(luhn_sum(b"979900120000011"), 40);
    assert_eq!(luhn_sum(b"97990012000000128"), 50);
}

#[test]
fn real_times() {
    let real: [&[u8]; 5] =
        [b"20240229235959", b"20000229000000", b"24000229000000", b"00010101000000", b"99991231235959"];
    let unreal: [&[u8]; 9] = [
        b"20230229000000",
        b"20250310240000",
        b"19000229000000",
        b"20251301000000",
        b"20250431000000",
        b"20250310235960",
        b"00000101000000",
        b"2025031005000",
        b"",
    ];
    assert!(real.iter().all(|t| is_real_time(t)));
    assert!(!unreal.iter().any(|t| is_real_time(t)));
}

#[test]
fn separators() {
    for right in [b"00", b"30", b"60", b"37", b"35"] {
        assert!(separator_right(right, 6), "{right:?}");
    }
    for wrong in [b"70", b"38", b"10", b"34", b"15", b"07", b"3 ", b"  "] {
        assert!(!separator_right(wrong, 6), "{wrong:?}");
    }
    assert!(separator_right(b"38", 7));
    assert!(separator_right(b"90", 10));
    let only: Vec<u8> = (0..100).filter(|n| separator_right(format!("{n:02}").as_bytes(), 1)).collect();
    assert_eq!(only, [0]);
}

#[test]
fn ends() {
    assert_eq!(end_of(R0, R0), R0);
    assert_eq!(end_of(b"20250310050001", R0), b"20250310050001");
    assert_eq!(end_of(b"20250310045959", R0), R0);
    assert_eq!(end_of(b"00000000000000", R0), b"00000000000000");
}

#[test]
fn past_valid_to_ends_at_each_sending_anew() {
    let line = with(LINE0, 101, b"20250101000000");
    for engine in ENGINES {
        let first = run_lines(engine, &free(1), slice::from_ref(&line));
        assert_eq!(first.register, slot(with(LINE0, 101, R0)));
        let second = run(engine, 1, b"20250401000000", &first.register, ROW0, &hgv(slice::from_ref(&line)), 174);
        assert_eq!(second.register, with(&slot(with(LINE0, 101, b"20250401000000")), 148, b"20250401000000"));
    }
}

#[test]
fn hgv_of_191_192_and_odd_lengths() {
    for engine in ENGINES {
        let file = hgv(&[]);
        assert_eq!(run(engine, 1, R0, &[], ROW0, &file[..191], 400).answer.number, 25);
        assert_eq!(run(engine, 1, R0, &[], ROW0, &file, 400).answer.number, 0);
        for length in [0, 100, 319] {
            assert_eq!(run(engine, 1, R0, &[], ROW0, &vec![b'0'; length], 400).answer.number, 25);
        }
        assert_eq!(run(engine, 1, R0, &[], ROW0, &vec![b'0'; 192 + 128 * 8193], 400).answer.number, 25);
    }
}

#[test]
fn identical_lines_and_a_faulty_one_first() {
    assert_verdicts(&[x(), x()], &[0, 1]);
    assert_verdicts(&[bad(), x()], &[12, 0]);
    assert_verdicts(&[x(), x_other(), y()], &[0, 1, 0]);
}

#[test]
fn full_register_with_every_taken_line_held() {
    let full = slots([x(), y()]);
    for engine in ENGINES {
        let outcome = run_lines(engine, &full, &[y(), x_other()]);
        assert_eq!(outcome.answer.number, 0);
        assert_eq!(outcome.register, slots([x_other(), y()]));
        let again = run(engine, 2, R0, &full, ROW0, &hgv(&[y(), x()]), 174);
        assert_eq!(again.answer.number, 0);
        assert_eq!(again.register, slots([y(), x()]));
        let new = with(LINE0, 14, b"9799001200000028");
        assert_eq!(run_lines(engine, &full, &[new]).answer.number, 33);
    }
}

#[test]
fn buffer_exact_and_one_short() {
    for engine in ENGINES {
        for (lines, length) in [(vec![x()], 174), (vec![x(), bad()], 304)] {
            let file = hgv(&lines);
            assert_eq!(run(engine, 1, R0, &free(1), ROW0, &file, length - 1).answer.number, 34);
            assert_eq!(run(engine, 1, R0, &free(1), ROW0, &file, length).answer.length, length as u64);
        }
    }
}

#[test]
fn hgc_repeats_the_line_as_sent() {
    let past = with(LINE0, 101, b"20250101000000");
    for engine in ENGINES {
        let outcome = run_lines(engine, &free(1), &[past.clone(), past.clone()]);
        assert_eq!(outcome.hgc, hgc(1, &[(&past, "01")]));
        assert_eq!(outcome.register, slot(with(LINE0, 101, R0)));
    }
}

#[test]
fn hgc_of_220001_says_120001() {
    for engine in ENGINES {
        let file = with(&hgv(&[bad()]), 95, b"220001");
        let outcome = run(engine, 1, R0, &free(1), ROW0, &file, 304);
        assert_eq!(outcome.hgc, hgc(0, &[(&bad(), "12")]));
    }
}
