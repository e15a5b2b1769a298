//! The largest file into the largest register.

use crate::common::*;
use graftspindle_checks::generate::large;
use graftspindle_checks::generate::line::put;
use graftspindle_checks::generate::world::pan_of;
use graftspindle_checks::plain::register::SLOT;
use std::time::Instant;

fn many(from: usize, n: usize) -> Vec<Vec<u8>> {
    let line = |account| {
        let mut line = x();
        put(&mut line, 14, &pan_of(b"97990012", 16, account));
        line
    };
    (from..from + n).map(line).collect()
}

#[test]
fn largest_file() {
    let lines = many(0, 8192);
    let file = hgv(&lines);
    assert_eq!(file.len(), 1_048_768);
    for engine in ENGINES {
        let start = Instant::now();
        let outcome = run(engine, 1, R0, &free(8192), ROW0, &file, 174);
        println!("{}: 8,192 new lines, {:?}", engine.name, start.elapsed());
        assert_eq!((outcome.answer.number, outcome.answer.taken), (0, 8192));
        assert_eq!(outcome.register, slots(&lines));
        let start = Instant::now();
        let again = run(engine, 2, R0, &outcome.register, ROW0, &file, 174);
        println!("{}: the full list again, {:?}", engine.name, start.elapsed());
        assert_eq!(again.register, outcome.register);
        assert_eq!(run(engine, 1, R0, &outcome.register, ROW0, &hgv(&many(8192, 1)), 174).answer.number, 33);
    }
}

/// 35 by the largest numbers: half of 8,192 records, and one line less.
#[test]
fn largest_thin_list() {
    let register = slots(many(0, 8192));
    for engine in ENGINES {
        assert_eq!(run(engine, 2, R0, &register, ROW0, &hgv(&many(4097, 4095)), 174).answer.number, 35);
        let half = run(engine, 2, R0, &register, ROW0, &hgv(&many(4096, 4096)), 174);
        assert_eq!(half.register, [slots(many(4096, 4096)), free(4096)].concat());
    }
}

#[test]
fn largest_confirmation() {
    let file = hgv(&vec![bad(); 8192]);
    for engine in ENGINES {
        let short = run(engine, 1, R0, &[], ROW0, &file, 1_065_133);
        assert_eq!(short.answer.number, 34);
        let outcome = run(engine, 1, R0, &[], ROW0, &file, 1_065_134);
        assert_eq!(outcome.answer.rejected, 8192);
        assert_eq!(verdicts(engine, &file, &outcome), [12; 8192]);
    }
}

#[test]
fn one_line_more_is_25() {
    let file = hgv(&many(0, 8193));
    for engine in ENGINES {
        assert_eq!(run(engine, 1, R0, &free(8192), ROW0, &file, 174).answer.number, 25);
    }
}

#[test]
fn large_cases() {
    for seed in 0..5 {
        let c = large(seed);
        let outcome = of_all(|e| run_given(e, &c.register, &Given::of_case(&c)));
        let (n, slots) = ((c.hgv.len() - 192) / 128, c.register.len() / SLOT);
        println!("mode {}, {n} lines, {slots} slots: {:?}", c.mode, outcome.answer);
        if outcome.answer.number == 0 {
            assert_eq!(of_all(|e| verdicts(e, &c.hgv, &outcome)).len(), n);
            let update = |copy: &[u8]| {
                of_all(|e| {
                    let mut copy = copy.to_vec();
                    ((e.update)(c.mode, c.offset, &mut copy, &c.hgv, &outcome.hgc), copy)
                })
            };
            let (applied, copy) = update(&free(slots));
            assert_eq!((applied.number, applied.taken), (0, outcome.answer.taken));
            assert!(update(&copy).1 == copy, "each line has its slot, and takes it again");
        }
    }
}
