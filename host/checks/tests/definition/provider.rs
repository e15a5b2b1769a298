//! Reading an HGC back, the provider's update, and the clauses of 52.

use crate::common::*;
use graftspindle_checks::lists;
use graftspindle_checks::plain::{clauses_of_52, Clause};
use std::slice;

fn read(engine: &Engine, file: &[u8], confirmation: &[u8], room: usize) -> (u64, u64, u64, Vec<u8>) {
    let mut block = vec![0xEE; room];
    let a = (engine.read_back)(file, confirmation, &mut block);
    (a.number, a.taken, a.rejected, block)
}

fn assert_52(lines: &[Vec<u8>], confirmation: &[u8], clause: Clause) {
    let file = hgv(lines);
    assert!(clauses_of_52(&file, confirmation).contains(&clause), "{clause:?}");
    for engine in ENGINES {
        assert_eq!(read(engine, &file, confirmation, 9), (52, 0, 0, vec![0xEE; 9]), "{clause:?}");
        let mut copy = free(9);
        let answer = (engine.update)(1, 0, &mut copy, &file, confirmation);
        assert_eq!((answer.number, answer.taken, answer.rejected), (52, 0, 0));
        assert_eq!(copy, free(9));
    }
}

#[test]
fn clauses_alone() {
    let one = [x()];
    let right = hgc(1, &[]);
    assert_eq!(clauses_of_52(&hgv(&one), &right), []);
    let alone: [(usize, &[u8], Clause); 12] = [
        (1, b"1", Clause::Field),
        (2, b"000003", Clause::Field),
        (77, b"220001", Clause::Field),
        (83, b"1", Clause::Field),
        (110, b"\r", Clause::Field),
        (174, b"\r", Clause::Field),
        (8, b"900124", Clause::Receiver),
        (14, b"HGC", Clause::List),
        (33, b"20230229000000", Clause::Reception),
        (47, b"000000000000000", Clause::Counts),
        (62, b"000000000000001", Clause::Counts),
        (108, b"01", Clause::Acceptance),
    ];
    for (from, field, clause) in alone {
        let wrong = with(&right, from, field);
        assert_eq!(clauses_of_52(&hgv(&one), &wrong), [clause]);
        assert_52(&one, &wrong, clause);
    }
    for wrong in [&right[..173], &[&right[..], b"0"].concat(), b""] {
        assert_52(&one, wrong, Clause::Length);
    }
}

#[test]
fn reasons() {
    let lines = [x()];
    for reason in 0..100 {
        let told = format!("{reason:02}");
        let confirmation = hgc(0, &[(&x(), &told)]);
        if [1, 2, 3, 4, 5, 6, 8, 9, 12].contains(&reason) {
            for engine in ENGINES {
                assert_eq!(read(engine, &hgv(&lines), &confirmation, 1), (0, 0, 1, vec![reason]));
            }
        } else {
            assert_eq!(clauses_of_52(&hgv(&lines), &confirmation), [Clause::Reason]);
            assert_52(&lines, &confirmation, Clause::Reason);
        }
    }
    assert_52(&lines, &hgc(0, &[(&x(), "00")]), Clause::Reason);
    assert_52(&lines, &hgc(0, &[(&x(), "1 ")]), Clause::Reason);
}

#[test]
fn copies_and_counts() {
    let three = [x(), x(), x()];
    assert_52(&three, &hgc(2, &[(&x(), "01")]), Clause::Copies);
    assert_52(&[x()], &hgc(0, &[(&x(), "01"), (&x(), "01")]), Clause::Copies);
    assert_52(&[x(), y(), x()], &hgc(1, &[(&x(), "01"), (&y(), "04")]), Clause::Copies);
    assert_52(&[x()], &hgc(0, &[(&y(), "04")]), Clause::Copies);
    assert_52(&[x()], &hgc(1, &[(&x(), "04")]), Clause::Counts);
    for engine in ENGINES {
        let told = hgc(1, &[(&y(), "04"), (&x(), "01")]);
        let answer = read(engine, &hgv(&[x(), y(), x()]), &told, 4);
        assert_eq!(answer, (0, 1, 2, vec![0, 4, 1, 0xEE]));
        let all = hgc(0, &[(&x(), "02"), (&x(), "06")]);
        assert_eq!(read(engine, &hgv(&[x(), x()]), &all, 2), (0, 0, 2, vec![2, 6]));
    }
}

#[test]
fn taken_lines() {
    assert_52(&[x(), x_other()], &hgc(2, &[]), Clause::SharedPan);
    assert_52(&[bad()], &hgc(1, &[]), Clause::TakenRule);
    assert_52(&[with(LINE0, 2, b"900124")], &hgc(1, &[]), Clause::TakenActor);
    assert_52(&[with(LINE0, 14, b"9799001200000003")], &hgc(1, &[]), Clause::TakenRule);
    // Rows are ours: he cannot judge L3.
    let unknown = with(LINE0, 14, b"00000018           ");
    for engine in ENGINES {
        assert_eq!(read(engine, &hgv(slice::from_ref(&unknown)), &hgc(1, &[]), 1), (0, 1, 0, vec![0]));
        let shared = hgc(1, &[(&bad(), "12")]);
        assert_eq!(read(engine, &hgv(&[bad(), x()]), &shared, 2), (0, 1, 1, vec![12, 0]));
    }
}

/// A taken line is judged as a record is: by no limit of weight, but its weight is digits.
#[test]
fn weight_of_a_taken_line() {
    for tariff in lists::TARIFFS {
        let line = with(LINE0, 46, tariff.as_bytes());
        for weight in [b"0000", b"0001", b"0349", b"0350", b"1199", b"1200", b"9999"] {
            let lines = [with(&line, 97, weight)];
            assert_eq!(clauses_of_52(&hgv(&lines), &hgc(1, &[])), []);
            for engine in ENGINES {
                assert_eq!(read(engine, &hgv(&lines), &hgc(1, &[]), 1), (0, 1, 0, vec![0]));
            }
            assert_update(1, free(1), &lines, &hgc(1, &[]), 0, &slot(&lines[0]));
        }
        for weight in [b"    ", b" 350", b"350 ", b"035O", b"0.35"] {
            assert_52(&[with(&line, 97, weight)], &hgc(1, &[]), Clause::TakenRule);
        }
    }
}

/// A pair from before the limits were amended, when 0350 was light: the provider applies it as he did then, and his copy is in
/// order. The same file imported now is answered with 12.
#[test]
fn old_pair() {
    let old = with(LINE0, 97, b"0350");
    let lines = [old.clone(), y()];
    let (then, wrong) = (slots(&lines), slot(with(&old, 97, b"035O")));
    assert_update(1, free(2), &lines, &hgc(2, &[]), 0, &then);
    assert_update(2, slots([y(), old.clone()]), &lines, &hgc(2, &[]), 0, &then);
    assert_update(1, [slot(&old), free(1)].concat(), &[y()], &hgc(1, &[]), 0, &then);
    assert_update(1, slot(with(&old, 97, b"9999")), &[x()], &hgc(1, &[]), 0, &slot(x()));
    assert_update(1, wrong.clone(), &[x()], &hgc(1, &[]), 23, &wrong);
    for engine in ENGINES {
        assert_eq!(read(engine, &hgv(&lines), &hgc(2, &[]), 2), (0, 2, 0, vec![0, 0]));
        let now = run_lines(engine, &free(2), &lines);
        assert_eq!((&now.hgc, verdicts(engine, &hgv(&lines), &now)), (&hgc(1, &[(&old, "12")]), vec![12, 0]));
        let mut copy = [slot(&old), free(1)].concat();
        assert_eq!((engine.update)(1, 0, &mut copy, &hgv(&lines), &now.hgc).number, 0);
        assert_eq!(copy, then);
    }
}

#[test]
fn verdict_block() {
    for engine in ENGINES {
        assert_eq!(read(engine, &hgv(&[x()]), &hgc(1, &[]), 0).0, 53);
        assert_eq!(read(engine, &hgv(&[x()]), &hgc(1, &[]), 1), (0, 1, 0, vec![0]));
        assert_eq!(read(engine, &hgv(&[]), &hgc(0, &[]), 0), (0, 0, 0, vec![]));
        assert_eq!(read(engine, &hgv(&[x()]), b"", 0).0, 52);
    }
}

fn assert_update(mode: u64, copy: Vec<u8>, lines: &[Vec<u8>], told: &[u8], number: u64, after: &[u8]) {
    for engine in ENGINES {
        let mut block = copy.clone();
        assert_eq!((engine.update)(mode, 0, &mut block, &hgv(lines), told).number, number);
        assert_eq!(block, after);
    }
}

#[test]
fn update() {
    let foreign = slot(with(LINE0, 2, b"900124"));
    let past = with(LINE0, 101, b"20240101000000");
    assert_update(1, free(1), &[x()], &hgc(1, &[]), 0, &slot(x()));
    assert_update(1, free(1), &[past], &hgc(1, &[]), 0, &slot(with(LINE0, 101, R0)));
    assert_update(1, slot(x()), &[x_other()], &hgc(1, &[]), 0, &slot(x_other()));
    assert_update(1, slot(x()), &[y()], &hgc(1, &[]), 33, &slot(x()));
    assert_update(2, slot(x()), &[y()], &hgc(1, &[]), 0, &slot(y()));
    assert_update(2, slot(x()), &[x()], &hgc(0, &[(&x(), "04")]), 0, &free(1));
    assert_update(2, slots([x(), y()]), &[], &hgc(0, &[]), 0, &free(2));
    assert_update(1, foreign.clone(), &[y()], &hgc(1, &[]), 51, &foreign);
    assert_update(0, slot(x()), &[y()], &hgc(1, &[]), 21, &slot(x()));
}
