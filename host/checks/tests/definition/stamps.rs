//! "Which file touched this account?" Each slot has the list sequence and the reception of the file whose line it holds.

use crate::common::*;
use crate::steps::Step;
use graftspindle::raw::Counted;
use graftspindle_checks::generate::{question, sequence, start, Event, Import};
use graftspindle_checks::plain::register::SLOT;
use graftspindle_checks::sample;
use graftspindle_checks::tried::{lookups, stamps};

const SEQUENCES: u64 = 1_000;

/// The list of `hgv(..)`, and one of the same provider before it.
const LIST: &[u8] = b"HGV9001232025031001";
const EARLIER: &[u8] = b"HGV9001232025030902";
const EARLIER_RECEPTION: &[u8] = b"20250309120000";

fn pan_of(slot: &[u8]) -> &[u8] {
    &slot[13..32]
}

fn stamp_of(slot: &[u8]) -> &[u8] {
    &slot[128..]
}

fn stamp(list: &[u8], reception: &[u8]) -> Vec<u8> {
    [list, reception, b"0000000"].concat()
}

/// A record with this text, as an earlier file left it.
fn before(line: &[u8]) -> Vec<u8> {
    let list = [b"HGV", &line[1..7], b"2025030902"].concat();
    [line, &stamp(&list, EARLIER_RECEPTION)].concat()
}

fn other_actors() -> Vec<u8> {
    with(LINE0, 2, b"900124")
}

fn used(register: &[u8]) -> impl Iterator<Item = &[u8]> {
    register.chunks(SLOT).filter(|slot| slot[0] == b'1')
}

#[test]
fn in_a_new_and_in_a_replaced_slot() {
    let held = [before(&x()), before(&y()), free(1)].concat();
    let new = with(LINE0, 14, b"9799001200000028");
    for engine in ENGINES {
        let same = run_lines(engine, &held, &[x()]);
        assert_eq!(same.register, [slot(x()), before(&y()), free(1)].concat(), "the same line again");
        let both = run_lines(engine, &held, &[new.clone(), x_other()]);
        assert_eq!(both.register, [slot(x_other()), before(&y()), slot(&new)].concat());
        assert_eq!(stamp_of(&slot(&new)), stamp(LIST, R0));
        let rejected = run_lines(engine, &held, &[bad()]);
        assert_eq!((rejected.answer.rejected, rejected.register), (1, held.clone()), "a rejected line touches nothing");
        let version = with(&hgv(&[x()]), 95, b"220001");
        assert_eq!(run(engine, 1, R0, &held, ROW0, &version, 174).register, same.register);
    }
}

/// Others close up with their stamps; the sender's records that are sent again have the new one.
#[test]
fn in_a_full_list() {
    let foreign = [with(&other_actors(), 14, b"9799001200000028"), with(&other_actors(), 14, b"9799001200000036")];
    let held = [before(&x()), before(&foreign[0]), before(&y()), before(&foreign[1])].concat();
    for engine in ENGINES {
        let full = run(engine, 2, R0, &held, ROW0, &hgv(&[y()]), 174);
        let expected = [before(&foreign[0]), before(&foreign[1]), slot(y()), free(1)].concat();
        assert_eq!(full.register, expected, "{}", engine.name);
    }
}

/// The end and the stamp by the same reception, whenever the file was made.
#[test]
fn by_the_reception() {
    let (line, late) = (with(LINE0, 101, b"20250101000000"), b"20261231235959");
    let file = hgv(std::slice::from_ref(&line));
    for engine in ENGINES {
        let outcome = run(engine, 1, late, &free(1), ROW0, &file, 174);
        let expected = [with(&line, 101, late), stamp(LIST, late)].concat();
        assert_eq!(outcome.register, expected);
        assert_eq!(&outcome.hgc[32..46], late);
        let mut copy = free(1);
        assert_eq!((engine.update)(1, 0, &mut copy, &file, &outcome.hgc).number, 0);
        assert_eq!(copy, expected, "the HGC's list and reception");
    }
}

/// His copy: the records of a list that is confirmed have its stamp, the others keep theirs.
#[test]
fn in_a_copy() {
    let told = with(&hgc(1, &[(&y(), "04")]), 33, b"20250311000000");
    for engine in ENGINES {
        let mut copy = [before(&y()), before(&x())].concat();
        let done = (engine.update)(1, 0, &mut copy, &hgv(&[x(), y()]), &told);
        assert_eq!(done, Counted { number: 0, taken: 1, rejected: 1 });
        assert_eq!(copy, [before(&y()), x(), stamp(LIST, b"20250311000000")].concat());
    }
}

/// What every function answers of a register whose first slot has this stamp.
fn numbers(stamp: &[u8]) -> [u64; 4] {
    let register = [&x(), stamp, &slot(y()), &free(1)].concat();
    of_all(|e| {
        let mut copy = register.clone();
        let updated = (e.update)(1, 0, &mut copy, &hgv(&[]), &hgc(0, &[])).number;
        let plate = (e.by_plate)(&register, b"XYZ123    ", b"NO ", R0).0;
        let imported = run(e, 1, R0, &register, ROW0, &hgv(&[]), 174).answer.number;
        [imported, (e.by_pan)(&register, PAN2).0, plate, updated]
    })
}

const RIGHT: [u64; 4] = [0, 0, 41, 0];

#[test]
fn right_stamps() {
    let lists: [&[u8]; 5] = [LIST, EARLIER, b"HGV9001230001010101", b"HGV9001239999123199", b"HGV9001232024022950"];
    for list in lists {
        for reception in [R0, b"00010101000000", b"99991231235959", b"20240229235959"] {
            assert_eq!(numbers(&stamp(list, reception)), RIGHT);
        }
    }
}

#[test]
fn wrong_stamps() {
    let wrong: [(&str, Vec<u8>); 16] = [
        ("another actor's list", stamp(b"HGV9001242025031001", R0)),
        ("another file's name", stamp(b"HGC9001232025031001", R0)),
        ("small letters", stamp(b"hgv9001232025031001", R0)),
        ("no such date", stamp(b"HGV9001232023022901", R0)),
        ("number 00", stamp(b"HGV9001232025031000", R0)),
        ("no list", stamp(b"HGV0000000000000000", R0)),
        ("no such time", stamp(LIST, b"20250310240000")),
        ("no such day", stamp(LIST, b"20230229000000")),
        ("no time", stamp(LIST, b"00000000000000")),
        ("the first zero", with(&stamp(LIST, R0), 34, b"1")),
        ("the last zero", with(&stamp(LIST, R0), 40, b"1")),
        ("zero bytes for zeros", with(&stamp(LIST, R0), 34, &[0; 7])),
        ("exchanged", [R0, LIST, b"0000000"].concat()),
        ("missing", vec![0; 40]),
        ("blank", vec![b' '; 40]),
        ("zeros", vec![b'0'; 40]),
    ];
    for (what, stamp) in wrong {
        assert_eq!(numbers(&stamp), [23; 4], "{what}");
    }
}

/// Each of the 40 positions with every byte, dates, numbers and times, beside what the paper lists.
#[test]
fn every_stamp() {
    for engine in ENGINES {
        assert_eq!(stamps::all(engine.in_order), None, "{}", engine.name);
    }
}

/// All functions ask the same: of 40 times 256 stamps the list's 19 positions allow 91, the reception's 107, the zeros 7.
#[test]
fn every_byte_of_a_stamp() {
    let mut told = Counts::new();
    for position in 1..=40 {
        for value in 0..=255 {
            count(&mut told, numbers(&with(&stamp(LIST, R0), position, &[value])));
        }
    }
    assert_eq!(told, Counts::from([(RIGHT, 91 + 107 + 7), ([23; 4], 40 * 256 - 205)]));
}

/// A free slot is zero bytes to its end.
#[test]
fn free_slots_have_no_stamp() {
    for at in 0..SLOT {
        let register = [slot(x()), with(&free(1), at + 1, b"0"), free(1)].concat();
        assert!(!of_all(|engine| (engine.in_order)(&register)), "byte {at}");
    }
    assert!(!of_all(|engine| (engine.in_order)(&[vec![0; 128], stamp(LIST, R0)].concat())));
}

/// Registers whose slots are their records alone. Where 21 such slots are as long as 16, the bytes behind a record are no stamp.
#[test]
fn slots_of_128_bytes() {
    for k in (1..=64).chain([8190, 8191, 8192]) {
        for used in [1, k / 2, k].into_iter().filter(|used| *used > 0) {
            let mut register: Vec<u8> = (0..used).flat_map(|i| sample::line(i).into_bytes()).collect();
            register.resize(128 * k, 0);
            assert!(!of_all(|engine| (engine.in_order)(&register)), "{used} of {k}");
            assert_eq!(of_all(|e| run(e, 1, R0, &register, ROW0, &hgv(&[]), 174)).answer.number, 23);
        }
        assert_eq!(of_all(|engine| (engine.in_order)(&vec![0; 128 * k])), k % 21 == 0, "{k} free ones");
    }
}

#[test]
fn bounds() {
    for (length, expected) in [
        (SLOT * 8192, true),
        (SLOT * 8193, false),
        (SLOT * 8192 + 128, false),
        (SLOT * 8191, true),
        (SLOT - 1, false),
        (SLOT + 1, false),
        (128, false),
        (40, false),
    ] {
        assert_eq!(of_all(|engine| (engine.in_order)(&vec![0; length])), expected, "{length}");
    }
    assert_eq!(SLOT * 8192, 1_376_256);
}

/// A lookup answers 168 bytes, which are the register's own.
#[test]
fn lookups_answer_the_stamp_too() {
    let mut found = 0;
    for seed in 0..SEEDS / 10 {
        let register = question(seed).register;
        if !of_all(|engine| (engine.in_order)(&register)) {
            continue;
        }
        for (place, slot) in used(&register).enumerate() {
            let (number, part) = of_all(|engine| (engine.by_pan)(&register, pan_of(slot)));
            assert_eq!((number, part.start, part.len()), (0, 168 * place, 168));
            assert_eq!(&register[part], slot);
            let (number, part) = of_all(|e| (e.by_plate)(&register, &slot[32..42], &slot[42..45], R0));
            assert!(number != 0 || (part.start % 168, part.len()) == (0, 168));
            found += 1;
        }
    }
    for engine in ENGINES {
        let by_plate = |register: &[u8], plate: &[u8]| (engine.by_plate)(register, plate, b"DE ", R0);
        assert_eq!(lookups::all(engine.by_pan, by_plate), None, "{}", engine.name);
    }
    println!("records looked up: {found}");
    assert!(found >= 10_000);
}

/// The PANs of the taken lines.
fn touched<'a>(engine: &Engine, file: &'a [u8], outcome: &Outcome) -> Vec<&'a [u8]> {
    let taken = verdicts(engine, file, outcome).into_iter().map(|verdict| verdict == 0);
    let lines = file[128..file.len() - 64].chunks(128);
    lines.zip(taken).filter(|(_, taken)| *taken).map(|(line, _)| pan_of(line)).collect()
}

/// What an import did to a slot's record: it touched it, new or held before, or left it, where it was or closed up.
type Deed = (&'static str, &'static str);

/// "After an accepted import every record whose PAN a taken line names carries that file's list and reception, every other
/// record the stamp that it had."
fn assert_stamped(engine: &Engine, register: &[u8], import: &Import, outcome: &Outcome) -> Vec<Deed> {
    let named = touched(engine, &import.hgv, outcome);
    let earlier: Vec<&[u8]> = used(register).collect();
    let own = stamp(&import.hgv[13..32], &import.reception);
    let deed = |(place, slot): (usize, &[u8])| {
        let stood = earlier.iter().position(|held| pan_of(held) == pan_of(slot));
        if named.contains(&pan_of(slot)) {
            assert_eq!(stamp_of(slot), own, "{}", engine.name);
            return ("touched", stood.map_or("new", |_| "held"));
        }
        let stood = stood.expect("no line brought it");
        assert_eq!(slot, earlier[stood], "{}", engine.name);
        ("left", if stood == place { "where it was" } else { "closed up" })
    };
    used(&outcome.register).enumerate().map(deed).collect()
}

#[test]
fn touched_and_left() {
    let mut deeds = Counts::new();
    for seed in 0..SEQUENCES {
        let told = of_all(|engine| {
            let (mut register, mut told) = (start(seed), Vec::new());
            for event in sequence(seed) {
                let step = Step::of(engine, &register, &event);
                match (&event, &step) {
                    (Event::Import(import), Step::Imported(outcome)) if step.number() == 0 => {
                        told.extend(assert_stamped(engine, &register, import, outcome));
                    }
                    _ => assert!(used(step.register()).all(|slot| used(&register).any(|held| held == slot))),
                }
                register = step.register().to_vec();
            }
            told
        });
        told.into_iter().for_each(|deed| count(&mut deeds, deed));
    }
    let expected = vec![("left", "closed up"), ("left", "where it was"), ("touched", "held"), ("touched", "new")];
    assert_reached("records after an import", &deeds, expected);
}
