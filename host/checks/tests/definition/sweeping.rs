//! "A sweep at a time T removes every record whose end is not zeros and not later than T, closes up the rest in order and says
//! how many went. Refusals: 22, then 23, register unchanged."

use crate::common::*;
use graftspindle::raw::Swept;
use graftspindle_checks::generate::disorder::damage_register;
use graftspindle_checks::generate::rng::Rng;
use graftspindle_checks::generate::world::World;
use graftspindle_checks::generate::{large, sweeping};
use graftspindle_checks::plain::register::SLOT;
use graftspindle_checks::sample;
use graftspindle_checks::tried::sweeps;

/// A time, the second before it and the one after it.
const T: &[u8] = b"20250401000000";
const BEFORE: &[u8] = b"20250331235959";
const AFTER: &[u8] = b"20250401000001";
const NO_END: &[u8] = b"00000000000000";

/// The slot of the i-th account with this end, brought by a list of its own.
fn ending(i: usize, end: &[u8]) -> Vec<u8> {
    let record = with(&with(LINE0, 14, sample::pan(i).as_bytes()), 101, end);
    with(&slot(record), 146, format!("{:02}", 1 + i % 99).as_bytes())
}

/// Slots of accounts with these ends, one behind the other.
fn endings(ends: &[&[u8]]) -> Vec<u8> {
    ends.iter().enumerate().flat_map(|(i, end)| ending(i, end)).collect()
}

fn done(removed: u64) -> Swept {
    Swept { number: 0, removed }
}

fn refused(number: u64) -> Swept {
    Swept { number, removed: 0 }
}

/// What all answer, and the register that all leave.
fn swept(register: &[u8], time: &[u8]) -> (Swept, Vec<u8>) {
    of_all(|engine| sweep(engine, register, time))
}

#[test]
fn both_sides_of_the_time() {
    let register = [endings(&[NO_END, BEFORE, T, AFTER]), free(1)].concat();
    let expected = [ending(0, NO_END), ending(3, AFTER), free(3)].concat();
    assert_eq!(swept(&register, T), (done(2), expected));
    assert_eq!(swept(&register, BEFORE).0, done(1));
    assert_eq!(swept(&register, AFTER), (done(3), [ending(0, NO_END), free(4)].concat()));
}

/// Times in their order, each as an end and as the time of a sweep; full registers and others; both refusals.
#[test]
fn every_end_at_every_time() {
    for engine in ENGINES {
        assert_eq!(sweeps::all(engine.sweep), None, "{}", engine.name);
    }
}

/// Every subset of six slots goes: the rest close up in order, each with the stamp that it had.
#[test]
fn every_subset() {
    for gone in 0..64usize {
        let end = |i: usize| if gone >> i & 1 == 1 { T } else { [NO_END, AFTER][i % 2] };
        let register: Vec<u8> = (0..6).flat_map(|i| ending(i, end(i))).collect();
        let stays = (0..6).filter(|i| gone >> i & 1 == 0);
        let mut expected: Vec<u8> = stays.flat_map(|i| ending(i, end(i))).collect();
        expected.resize(register.len(), 0);
        assert_eq!(swept(&register, T), (done(gone.count_ones().into()), expected), "{gone:06b}");
    }
}

/// Any actor's records go, also those of one who has no issuer row.
#[test]
fn every_actor() {
    let of = |i: usize, actor: &[u8], end: &[u8]| with(&with(&ending(i, end), 2, actor), 132, actor);
    let slots = [of(0, b"900123", T), of(1, b"900124", T), of(2, b"999999", NO_END), of(3, b"000000", BEFORE)];
    assert_eq!(swept(&slots.concat(), T), (done(3), [slots[2].clone(), free(3)].concat()));
}

#[test]
fn nothing_all_and_no_slot() {
    assert_eq!(swept(&[], T), (done(0), vec![]));
    for k in [1, 2, 8192] {
        assert_eq!(swept(&free(k), T), (done(0), free(k)));
    }
    let active = [endings(&[NO_END, AFTER, NO_END]), free(2)].concat();
    assert_eq!(swept(&active, T), (done(0), active));
    let ended = [endings(&[BEFORE, T, BEFORE]), free(2)].concat();
    assert_eq!(swept(&ended, T), (done(3), free(5)));
}

#[test]
fn no_real_time() {
    let times: [&[u8]; 16] = [
        b"",
        b"2",
        b"2025040100000",
        b"202504010000000",
        b"20250401000000\n",
        b"00000000000000",
        b"00000101000000",
        b"20230229000000",
        b"19000229000000",
        b"20250001000000",
        b"20251301000000",
        b"20250431000000",
        b"20250401240000",
        b"20250401006000",
        b"20250401000060",
        b"2025040100000 ",
    ];
    let register = endings(&[BEFORE, T, NO_END]);
    for time in times {
        for block in [&register[..], &[], &register[1..], b"1"] {
            assert_eq!(swept(block, time).0, refused(22), "{}", time.escape_ascii());
        }
    }
    for time in [b"00010101000000", b"20240229235959", b"20000229000000", b"99991231235959"] {
        assert_eq!(swept(&register, time).0.number, 0, "{}", time.escape_ascii());
    }
}

/// Registers that are not in order, one for each part of what that means.
#[test]
fn not_in_order() {
    let slot = ending(0, T);
    let kinds: Vec<(&str, Vec<u8>)> = vec![
        ("a byte less", slot[1..].to_vec()),
        ("a byte more", [&slot[..], &[0]].concat()),
        ("a record alone", slot[..128].to_vec()),
        ("8,193 slots", free(8193)),
        ("a free slot in front", [free(1), slot.clone()].concat()),
        ("neither used nor free", [&slot[..], &[b'0'; SLOT]].concat()),
        ("a byte in a free slot", [slot.clone(), with(&free(1), SLOT, b"0")].concat()),
        ("no 1 in front", with(&slot, 1, b"2")),
        ("no LF", with(&slot, 128, b"\r")),
        ("one PAN twice", [slot.clone(), ending(0, NO_END)].concat()),
        ("no actor", with(&with(&slot, 2, b"90012A"), 132, b"90012A")),
        ("L1", with(&slot, 14, b"                   ")),
        ("L5", with(&slot, 29, b"9")),
        ("L6", with(&slot, 33, b"AB-123")),
        ("L7", with(&slot, 43, b"NOR")),
        ("L8", with(&slot, 50, b"x")),
        ("L9", with(&slot, 62, b"x")),
        ("L10", with(&slot, 80, b"Euro9")),
        ("an end that is no time", with(&slot, 101, b"20230229000000")),
        ("another actor's list", with(&slot, 132, b"900124")),
        ("no reception", with(&slot, 148, NO_END)),
        ("no zeros behind", with(&slot, 168, b"1")),
    ];
    let others = [ending(5, NO_END), ending(6, BEFORE)].concat();
    assert_eq!(swept(&[&others[..], &slot].concat(), T).0, done(2));
    for (kind, register) in kinds {
        assert_eq!(swept(&register, T).0, refused(23), "{kind}");
        assert_eq!(swept(&[&others[..], &register].concat(), T).0, refused(23), "{kind}, behind others");
        assert_eq!(swept(&register, b"2025").0, refused(22), "{kind}");
    }
}

/// Each byte changed, in a record that goes, in one that stays and in a free slot: what is not in order is refused, and of what is
/// in order the records go that have ended.
#[test]
fn every_changed_byte() {
    let register = [endings(&[T, AFTER]), free(1)].concat();
    let mut told = Counts::new();
    for at in 0..register.len() {
        for value in 0..=255 {
            let changed = with(&register, at + 1, &[value]);
            let answer = swept(&changed, T).0;
            assert_eq!(answer.number == 23, !of_all(|engine| (engine.in_order)(&changed)), "byte {at}: {value}");
            count(&mut told, (answer.number, answer.removed));
        }
    }
    assert_reached("number and records that went", &told, vec![(0, 0), (0, 1), (0, 2), (23, 0)]);
}

/// Damage of every kind that the generator knows, of a register of which something would go.
#[test]
fn damaged() {
    let mut numbers = Counts::new();
    for seed in 0..SEEDS / 10 {
        let mut rng = Rng::new(seed);
        let world = World::new(&mut rng);
        let mut register = [endings(&[NO_END, BEFORE, T, AFTER]), free(2)].concat();
        damage_register(&mut rng, &world, &mut register);
        let number = swept(&register, T).0.number;
        assert_eq!(number == 23, !of_all(|engine| (engine.in_order)(&register)), "seed {seed}");
        count(&mut numbers, number);
    }
    // A byte that is changed may be another right one, and a register may be cut behind a slot.
    assert_reached("a damaged register's numbers", &numbers, vec![0, 23]);
    assert!(numbers[&23] > 9 * numbers[&0]);
}

/// A second sweep at the same time or at an earlier one finds nothing to remove.
#[test]
fn swept_twice() {
    let mut again = 0;
    for seed in 0..SEEDS / 10 {
        let s = sweeping(seed);
        let (answer, after) = swept(&s.register, &s.time);
        if answer.number != 0 {
            continue;
        }
        for time in [&s.time[..], b"00010101000000", b"20240229235959"] {
            if *time <= s.time[..] {
                assert_eq!(swept(&after, time), (done(0), after.clone()), "seed {seed}");
                again += 1;
            }
        }
    }
    println!("second sweeps: {again}");
    assert!(again > 10_000);
}

/// Two sweeps one after the other are one at the later time.
#[test]
fn swept_at_two_times() {
    let register = [endings(&[BEFORE, NO_END, T, AFTER, BEFORE]), free(1)].concat();
    for (first, second) in [(BEFORE, T), (T, AFTER), (BEFORE, AFTER), (AFTER, BEFORE), (T, T)] {
        let (one, between) = swept(&register, first);
        let (two, after) = swept(&between, second);
        assert_eq!((done(one.removed + two.removed), after), swept(&register, first.max(second)));
    }
}

/// The largest register: every second record, none, all but the first, all but the last, all.
#[test]
fn largest_register() {
    let of = |i: usize, end: &[u8]| slot(sample::line_until(i, std::str::from_utf8(end).expect("digits")));
    let goes: [fn(usize) -> bool; 5] = [|i| i % 2 == 1, |_| false, |i| i > 0, |i| i < 8191, |_| true];
    for goes in goes {
        let end = |i: usize| if goes(i) { T } else { NO_END };
        let register: Vec<u8> = (0..8192).flat_map(|i| of(i, end(i))).collect();
        let mut expected: Vec<u8> = (0..8192).filter(|i| !goes(*i)).flat_map(|i| of(i, NO_END)).collect();
        let removed = 8192 - expected.len() / SLOT;
        expected.resize(register.len(), 0);
        assert!(swept(&register, T) == (done(removed as u64), expected));
        assert_eq!(swept(&[register, free(1)].concat(), T).0, refused(23));
    }
}

#[test]
fn large_registers() {
    for seed in 0..5 {
        let c = large(seed);
        let (answer, after) = swept(&c.register, &c.reception);
        println!("{} slots: {answer:?}", c.register.len() / SLOT);
        assert!(answer.number == 0 && answer.removed > 0 && after.len() == c.register.len());
        assert!(of_all(|engine| (engine.in_order)(&after)));
    }
}
