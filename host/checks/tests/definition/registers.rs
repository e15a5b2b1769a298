//! When a register is in order, and what it holds after a full list.

use crate::common::*;
use graftspindle_checks::lists;
use graftspindle_checks::plain::register::SLOT;

#[test]
fn in_order() {
    let other_form = slot([&b"1"[..], &LINE0[1..127], b"\r"].concat());
    let nearly_free = [vec![0; SLOT - 1], vec![1]].concat();
    let cases: Vec<(Vec<u8>, bool)> = vec![
        (vec![], true),
        (free(3), true),
        (free(8192), true),
        (free(8193), false),
        (vec![0; SLOT - 1], false),
        (vec![b'0'; SLOT], false),
        (other_form, false),
        (nearly_free, false),
        ([free(1), slot(x())].concat(), false),
        ([slots([x(), y()]), free(2)].concat(), true),
        (slots([x(), with(&x(), 2, b"900124")]), false),
        (slot(with(LINE0, 2, b"90012A")), false),
        (slot(with(LINE0, 97, b"9999")), true),
        (slot(with(LINE0, 97, b"035O")), false),
        (slot(with(LINE0, 2, b"999999")), true),
        (slots([with(LINE0, 14, b"00000018           "), with(LINE0, 14, b"000000018          ")]), true),
    ];
    for engine in ENGINES {
        for (register, expected) in &cases {
            assert_eq!((engine.in_order)(register), *expected);
            let number = if *expected { 0 } else { 23 };
            assert_eq!(run(engine, 1, R0, register, ROW0, &hgv(&[]), 174).answer.number, number);
        }
    }
}

/// "Records already stored are not judged by weight": in order, and kept by an import. A line of the same text is judged.
#[test]
fn records_of_any_weight() {
    for (tariff, from, to) in lists::WEIGHTS {
        for weight in ["0000", "0001", "0349", "0350", "1199", "1200", "9999"] {
            let record = with(&with(LINE0, 46, tariff.as_bytes()), 97, weight.as_bytes());
            let right = weight == lists::NO_WEIGHT || (from..=to).contains(&weight);
            for engine in ENGINES {
                assert!((engine.in_order)(&slot(&record)), "{}: {}", engine.name, record.escape_ascii());
                let outcome = run_lines(engine, &[slot(&record), free(1)].concat(), &[y(), record.clone()]);
                assert_eq!(outcome.register, slots([record.clone(), y()]));
                let told = verdicts(engine, &hgv(&[y(), record.clone()]), &outcome);
                assert_eq!(told, [0, if right { 0 } else { 12 }], "{}", record.escape_ascii());
            }
        }
    }
}

/// The limits alone are left out: 97-100 are digits in a record too.
#[test]
fn weight_of_a_record_is_digits() {
    for tariff in lists::TARIFFS {
        for weight in [b"    ", b" 350", b"350 ", b"035O", b"0.35"] {
            let slot = slot(with(&with(LINE0, 46, tariff.as_bytes()), 97, weight));
            for engine in ENGINES {
                assert!(!(engine.in_order)(&slot), "{}: {}", engine.name, slot.escape_ascii());
                assert_eq!(run_lines(engine, &slot, &[]).answer.number, 23);
            }
        }
    }
}

/// A record from before the limits were amended gives way to a line of its PAN.
#[test]
fn old_record_is_replaced() {
    let old = with(LINE0, 97, b"0350");
    for engine in ENGINES {
        assert_eq!(run_lines(engine, &slot(&old), &[x()]).register, slot(x()));
        let heavy = with(&old, 46, b"31");
        assert_eq!(run_lines(engine, &slot(&old), std::slice::from_ref(&heavy)).register, slot(&heavy));
        let before = slots([old.clone(), y()]);
        let full = run(engine, 2, R0, &before, ROW0, &hgv(&[old.clone(), y()]), 304);
        assert_eq!((full.register, full.hgc), ([slot(y()), free(1)].concat(), hgc(1, &[(&old, "12")])));
    }
}

#[test]
fn stranger_stays_the_same_bytes() {
    let stranger = with(&y(), 2, b"999999");
    for engine in ENGINES {
        let outcome = run_lines(engine, &[slot(&stranger), free(1)].concat(), &[x()]);
        assert_eq!(outcome.register, slots([stranger.clone(), x()]));
    }
}

#[test]
fn full_list_closes_up() {
    let a = x();
    let b = with(&y(), 2, b"900124");
    let c = with(LINE0, 14, b"9799001200000028");
    for engine in ENGINES {
        let before = slots([&a, &b, &c]);
        let outcome = run(engine, 2, R0, &before, ROW0, &hgv(&[c.clone(), a.clone()]), 174);
        assert_eq!(outcome.register, slots([&b, &c, &a]));
        let own = slots([&a, &y(), &c]);
        let left_out = run(engine, 2, R0, &own, ROW0, &hgv(&[y(), a.clone()]), 174);
        assert_eq!(left_out.register, [slots([&y(), &a]), free(1)].concat());
        let rejected = run(engine, 2, R0, &own, ROW0, &hgv(&[bad(), c.clone(), y()]), 304);
        assert_eq!(rejected.register, [slots([&c, &y()]), free(1)].concat());
    }
}

#[test]
fn empty_register() {
    for engine in ENGINES {
        assert_eq!(run_lines(engine, &[], &[]).answer.number, 0);
        assert_eq!(run_lines(engine, &[], &[x()]).answer.number, 33);
        assert_eq!(run_lines(engine, &[], &[bad()]).answer.number, 0);
    }
}

#[test]
fn header_forms() {
    let cases: [(usize, &[u8], u64); 17] = [
        (14, b"HGV900124", 26),
        (31, b"00", 26),
        (23, b"20230229", 26),
        (33, b"HGV9001232025031001", 0),
        (33, b"HGV9001242025031001", 26),
        (8, b"00000A", 26),
        (8, b"000003", 29),
        (66, b"000004294967297", 30),
        (81, b"20230229000000", 26),
        (95, b"12\n001", 27),
        (95, b"500001", 27),
        (95, b"220001", 0),
        (52, b"1", 26),
        (101, b"1", 26),
        (128, b"\r", 26),
        (1, b"1", 26),
        (94, b" 12\n001", 26),
    ];
    for engine in ENGINES {
        for (from, field, number) in cases {
            let file = with(&hgv(&[x()]), from, field);
            let outcome = run(engine, 1, R0, &free(1), ROW0, &file, 174);
            assert_eq!(outcome.answer.number, number, "{from} {:?}", String::from_utf8_lossy(field));
        }
        let end = 128 + 128 + 2;
        let zero_bytes = with(&hgv(&[x()]), end, &[0; 62]);
        assert_eq!(run(engine, 1, R0, &free(1), ROW0, &zero_bytes, 174).answer.number, 31);
        let cr = with(&hgv(&[x()]), 128 + 50, b"\r");
        assert_eq!(run(engine, 1, R0, &free(1), ROW0, &cr, 174).answer.number, 32);
    }
}
