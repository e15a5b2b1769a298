//! All implementations on the generator's inputs, and what the generator reaches.

use crate::common::*;
use graftspindle_checks::generate::file::used;
use graftspindle_checks::generate::{case, pair, question, sweeping};
use graftspindle_checks::plain::clock::local;
use graftspindle_checks::plain::register::SLOT;
use graftspindle_checks::plain::{clauses_of_52, rules_broken, seconds, CLAUSES};
use std::cmp::Ordering::{Equal, Greater, Less};

/// Why a time and its offset are refused.
fn why(time: &[u8], offset: i64) -> &'static str {
    match (seconds(time).number, local(R0, offset)) {
        (22, _) => "no such time",
        (_, None) => "no such offset",
        _ => "no such year",
    }
}

#[test]
fn imports() {
    let (mut numbers, mut reasons, mut rules) = (Counts::new(), Counts::new(), Counts::new());
    let (mut heavy, mut times, mut clocks) = (Counts::new(), Counts::new(), Counts::new());
    for seed in 0..SEEDS {
        let case = case(seed);
        let outcome = of_all(|engine| run_given(engine, &case.register, &Given::of_case(&case)));
        count(&mut numbers, outcome.answer.number);
        if outcome.answer.number == 22 {
            count(&mut times, why(&case.reception, case.offset));
        }
        if outcome.answer.number != 0 {
            continue;
        }
        count(&mut clocks, case.offset.cmp(&0));
        count(&mut heavy, case.register.chunks(SLOT).any(over_limit));
        assert!(of_all(|engine| (engine.in_order)(&outcome.register)), "seed {seed}");
        let told = of_all(|engine| verdicts(engine, &case.hgv, &outcome));
        told.into_iter().for_each(|reason| count(&mut reasons, reason));
        let broken = rules_broken(&case.register, &case.rows, &case.hgv);
        broken.into_iter().for_each(|rule| count(&mut rules, rule));
    }
    assert_reached("import's numbers", &numbers, (21..=35).chain([0]).collect());
    assert_reached("verdicts", &reasons, vec![0, 1, 2, 3, 4, 5, 6, 8, 9, 12]);
    assert_reached("rules L1 to L12", &rules, (0..=12).collect());
    assert_reached("registers with a record over a limit of weight", &heavy, vec![false, true]);
    assert_reached("causes of 22", &times, vec!["no such time", "no such offset", "no such year"]);
    assert_reached("local time before UTC, the same, behind it", &clocks, vec![Less, Equal, Greater]);
}

#[test]
fn lookups() {
    let (mut by_pan, mut by_plate) = (Counts::new(), Counts::new());
    for seed in 0..SEEDS {
        let q = question(seed);
        let ask = |e: &Engine| (e.by_plate)(&q.register, &q.plate, &q.nationality, &q.time);
        count(&mut by_plate, of_all(ask).0);
        count(&mut by_pan, of_all(|e| (e.by_pan)(&q.register, &q.pan)).0);
    }
    assert_reached("by PAN", &by_pan, vec![0, 23, 40, 41]);
    assert_reached("by plate", &by_plate, vec![0, 22, 23, 40, 41, 42]);
}

#[test]
fn reading_back() {
    let (mut numbers, mut clauses, mut alone) = (Counts::new(), Counts::new(), Counts::new());
    for seed in 0..SEEDS {
        let p = pair(seed);
        let (answer, _) = of_all(|engine| {
            let mut block = vec![0xEE; p.verdicts_len];
            let answer = (engine.read_back)(&p.hgv, &p.hgc, &mut block);
            assert!(answer.number == 0 || block.iter().all(|&b| b == 0xEE), "seed {seed}");
            (answer, block)
        });
        count(&mut numbers, answer.number);
        let failing = clauses_of_52(&p.hgv, &p.hgc);
        assert_eq!(answer.number == 52, !failing.is_empty(), "seed {seed}");
        if let [clause] = failing[..] {
            count(&mut alone, clause);
        }
        failing.into_iter().for_each(|clause| count(&mut clauses, clause));
    }
    let expected = vec![0, 25, 26, 27, 29, 30, 31, 32, 52, 53];
    assert_reached("read back's numbers", &numbers, expected);
    assert_reached("clauses of 52", &clauses, CLAUSES.to_vec());
    assert_reached("clauses of 52, alone", &alone, CLAUSES.to_vec());
}

#[test]
fn updates() {
    let (mut numbers, mut alone, mut heavy, mut thin) = (Counts::new(), Counts::new(), Counts::new(), Counts::new());
    let mut by_clock = Counts::new();
    for seed in 0..SEEDS {
        let p = pair(seed);
        let (answer, after) = of_all(|engine| {
            let mut copy = p.copy.clone();
            let answer = (engine.update)(p.mode, p.offset, &mut copy, &p.hgv, &p.hgc);
            assert!(answer.number == 0 || copy == p.copy, "seed {seed}");
            (answer, copy)
        });
        count(&mut numbers, answer.number);
        match (answer.number, &clauses_of_52(&p.hgv, &p.hgc)[..]) {
            (52, []) => count(&mut by_clock, why(&p.hgc[32..46], p.offset)),
            (52, [clause]) => count(&mut alone, *clause),
            _ => (),
        }
        if (p.mode, answer.number) == (2, 0) {
            let held = p.copy.chunks(SLOT).filter(|slot| slot[0] == b'1').count() as u64;
            count(&mut thin, 2 * answer.taken < held);
        }
        let stood = |slot: &[u8]| p.copy.chunks(SLOT).any(|before| before == slot);
        count(&mut heavy, after.chunks_exact(SLOT).any(|slot| over_limit(slot) && !stood(slot)));
    }
    assert_reached("updates by a line over a limit of weight", &heavy, vec![false, true]);
    assert_reached("full lists applied, too thin for an import", &thin, vec![false, true]);
    let expected = vec![0, 21, 23, 25, 26, 27, 28, 29, 30, 31, 32, 33, 51, 52];
    assert_reached("update's numbers", &numbers, expected);
    assert_reached("update's clauses of 52, alone", &alone, CLAUSES.to_vec());
    assert_reached("52 by the offset", &by_clock, vec!["no such offset", "no such year"]);
}

/// What went of a register: nothing of it, some of its records, or all.
fn share(removed: usize, used: usize) -> &'static str {
    match removed {
        0 => "none",
        all if all == used => "all",
        _ => "some",
    }
}

#[test]
fn sweeps() {
    let (mut numbers, mut shares, mut ends) = (Counts::new(), Counts::new(), Counts::new());
    for seed in 0..SEEDS {
        let s = sweeping(seed);
        let (answer, after) = of_all(|engine| sweep(engine, &s.register, &s.time));
        count(&mut numbers, answer.number);
        if answer.number != 0 {
            continue;
        }
        assert!(of_all(|engine| (engine.in_order)(&after)), "seed {seed}");
        let (before, removed) = (used(&s.register).count(), answer.removed as usize);
        assert_eq!((used(&after).count(), after.len()), (before - removed, s.register.len()), "seed {seed}");
        count(&mut shares, share(removed, before));
        let in_minute = used(&s.register).map(|slot| &slot[100..114]).filter(|end| end[..12] == s.time[..12]);
        in_minute.for_each(|end| count(&mut ends, end.cmp(&s.time)));
    }
    assert_reached("sweep's numbers", &numbers, vec![0, 22, 23]);
    assert_reached("what went", &shares, vec!["none", "some", "all"]);
    assert_reached("ends within a minute of the time", &ends, vec![Less, Equal, Greater]);
}
