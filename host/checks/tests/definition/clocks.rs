//! "Ends and stamps are reckoned in UTC; the HGC's reception shows local time." The offset may be another from file to file,
//! and the provider applies each with its own.

use crate::common::*;
use crate::steps::Step;
use graftspindle::raw::Counted;
use graftspindle_checks::generate::{case, sequence, start, Event, Import};
use graftspindle_checks::plain::clock::local;
use graftspindle_checks::plain::register::SLOT;
use graftspindle_checks::tried::{clocks, seconds};
use std::collections::BTreeMap;
use std::slice;

const SEQUENCES: u64 = 1_000;

const FIRST: &[u8] = b"00010101000000";
const LAST: &[u8] = b"99991231235959";

/// One line into one free slot.
fn given<'a>(reception: &'a [u8], offset: i64, hgv: &'a [u8]) -> Given<'a> {
    Given { mode: 1, reception, offset, rows: ROW0, hgv, room: 174 }
}

/// What all answer to an import of X.
fn imported(reception: &[u8], offset: i64) -> Outcome {
    of_all(|engine| run_given(engine, &free(1), &given(reception, offset, &hgv(&[x()]))))
}

/// The slot of a line that came at this reception.
fn slot_at(line: &[u8], utc: &[u8]) -> Vec<u8> {
    with(&slot(line), 148, utc)
}

/// What all answer to an update of a free copy by X, confirmed at this time: the number, and the copy.
fn updated(local: &[u8], offset: i64) -> (u64, Vec<u8>) {
    of_all(|engine| {
        let mut copy = free(1);
        let done = (engine.update)(1, offset, &mut copy, &hgv(&[x()]), &with(&hgc(1, &[]), 33, local));
        assert_eq!((done.taken, done.rejected), (u64::from(done.number == 0), 0));
        (done.number, copy)
    })
}

/// The number of an import, and of an update, for which the copy stays free.
fn numbers(reception: &[u8], import: i64, update: i64) -> (u64, u64) {
    let (number, copy) = updated(reception, update);
    assert!(number == 0 || copy == free(1));
    (imported(reception, import).answer.number, number)
}

/// Every day of all years, beside a calendar that counts.
#[test]
fn every_time() {
    assert_eq!(seconds::all(|time| of_all(|engine| (engine.seconds)(time))), None);
}

#[test]
fn every_clock() {
    for engine in ENGINES {
        assert_eq!(clocks::all(engine.import, engine.update), None, "{}", engine.name);
    }
}

#[test]
fn local_year_before_the_first() {
    assert_eq!(imported(FIRST, -1).answer.number, 22);
    assert_eq!(imported(FIRST, 0).answer.number, 0);
    assert_eq!(&imported(b"00010101000100", -1).hgc[32..46], FIRST);
}

#[test]
fn local_year_behind_the_last() {
    assert_eq!(imported(LAST, 1).answer.number, 22);
    assert_eq!(imported(LAST, 0).answer.number, 0);
    assert_eq!(&imported(b"99991231235859", 1).hgc[32..46], LAST);
}

/// The provider cannot apply it, but reading back needs no clock but the HGC's.
#[test]
fn utc_year_before_the_first() {
    assert_eq!(updated(FIRST, 60), (52, free(1)));
    assert_eq!(updated(LAST, -60), (52, free(1)));
    for time in [FIRST, LAST] {
        let told = with(&hgc(1, &[]), 33, time);
        for engine in ENGINES {
            let mut block = [0xEE; 2];
            let done = (engine.read_back)(&hgv(&[x()]), &told, &mut block);
            assert_eq!((done, block), (Counted { number: 0, taken: 1, rejected: 0 }, [0, 0xEE]));
        }
        assert_eq!(updated(time, 0), (0, slot_at(&x(), time)));
    }
    assert_eq!(updated(b"00010101010000", 60), (0, slot_at(&x(), FIRST)));
}

/// Winter and summer time between two files of one provider: the hour that comes twice, and the one that is left out.
#[test]
fn summer_time() {
    // A line that ends within the hour between the clocks, and one without an end.
    let ends = with(&y(), 101, b"20250330003000");
    let files = [
        (hgv(&[x(), ends.clone()]), &b"20250330003000"[..], 60, &b"20250330013000"[..]),
        (with(&hgv(&[y()]), 31, b"02"), b"20250330010000", 120, b"20250330030000"),
        (with(&hgv(&[x_other()]), 31, b"03"), b"20251026003000", 120, b"20251026023000"),
        (with(&hgv(&[x()]), 31, b"04"), b"20251026013000", 60, b"20251026023000"),
    ];
    for engine in ENGINES {
        let (mut register, mut copy, mut other) = (free(2), free(2), free(2));
        for (file, reception, offset, local) in &files {
            let outcome = run_given(engine, &register, &given(reception, *offset, file));
            assert_eq!((outcome.answer.number, &outcome.hgc[32..46]), (0, *local), "{}", engine.name);
            assert_eq!((engine.update)(1, *offset, &mut copy, file, &outcome.hgc).number, 0);
            assert_eq!((engine.update)(1, 60, &mut other, file, &outcome.hgc).number, 0);
            assert_eq!(copy, outcome.register, "{}", engine.name);
            assert_eq!(other == copy, *offset == 60, "winter time all the year");
            other = copy.clone();
            register = outcome.register;
        }
        let of_fourth = with(&slot_at(&x(), b"20251026013000"), 146, b"04");
        let of_second = with(&slot_at(&y(), b"20250330010000"), 146, b"02");
        assert_eq!(register, [of_fourth, of_second].concat());
    }
}

#[test]
fn both_sides_of_the_range() {
    for offset in [-720, -719, -1, 0, 1, 839, 840] {
        assert_eq!(numbers(R0, offset, offset), (0, 0), "{offset}");
    }
    for offset in [-721, 841, -1440, 1440, i64::MIN, i64::MIN + 1, i64::MAX, (1 << 32) + 60, -(1 << 32)] {
        assert_eq!(numbers(R0, offset, offset), (22, 52), "{offset}");
    }
}

/// Every byte is as it was before there was an offset.
#[test]
fn without_an_offset() {
    let outcome = imported(R0, 0);
    assert_eq!((outcome.hgc, outcome.register), (hgc(1, &[]), slot(x())));
    assert_eq!(updated(R0, 0), (0, slot(x())));
}

/// A Valid to between the clocks: ends are UTC.
#[test]
fn ends_between_the_clocks() {
    // Reception at 05:00 UTC; local time is 06:00 and 04:00.
    let cases: [(i64, &[u8], &[u8]); 5] = [
        (60, b"20250310053000", b"20250310053000"),
        (60, b"20250310050001", b"20250310050001"),
        (60, R0, R0),
        (-60, b"20250310043000", R0),
        (-60, b"20250310040000", R0),
    ];
    for (offset, valid_to, end) in cases {
        let line = with(LINE0, 101, valid_to);
        let (file, expected) = (hgv(slice::from_ref(&line)), slot(with(&line, 101, end)));
        for engine in ENGINES {
            let outcome = run_given(engine, &free(1), &given(R0, offset, &file));
            assert_eq!(outcome.register, expected, "{offset}: {}", engine.name);
            let mut copy = free(1);
            assert_eq!((engine.update)(1, offset, &mut copy, &file, &outcome.hgc).number, 0);
            assert_eq!(copy, expected, "{offset}: {}", engine.name);
        }
    }
}

/// What an offset changes of an import of the generator's: nothing but what the HGC shows of the reception, which is so many
/// minutes away; or it is refused.
#[test]
fn beside_no_offset() {
    let mut told = Counts::new();
    for seed in 0..SEEDS / 2 {
        let c = case(seed);
        let away = of_all(|engine| run_given(engine, &c.register, &Given::of_case(&c)));
        let mut utc = of_all(|engine| run_given(engine, &c.register, &Given { offset: 0, ..Given::of_case(&c) }));
        let Some(shown) = local(&c.reception, c.offset) else {
            assert_eq!(away.answer.number, if utc.answer.number == 21 { 21 } else { 22 }, "seed {seed}");
            count(&mut told, "refused");
            continue;
        };
        let seconds = |time: &[u8]| of_all(|engine| (engine.seconds)(time)).seconds as i64;
        assert_eq!(seconds(&shown), seconds(&c.reception) + 60 * c.offset, "seed {seed}");
        if utc.answer.number == 0 {
            utc.hgc[32..46].copy_from_slice(&shown);
            count(&mut told, if c.offset == 0 { "the same" } else { "shown otherwise" });
        }
        assert!(away == utc, "seed {seed}");
    }
    assert_reached(
        "an import beside the same without its offset",
        &told,
        vec!["refused", "shown otherwise", "the same"],
    );
}

/// An accepted list, applied to the copy before it with another offset: refused, or another copy where a line was taken. Applied
/// again with its own it makes the copy right.
fn by_another(engine: &Engine, copy: &[u8], import: &Import, outcome: &Outcome, offset: i64) -> &'static str {
    let (mut right, mut wrong) = (copy.to_vec(), copy.to_vec());
    let applied = (engine.update)(import.mode, import.offset, &mut right, &import.hgv, &outcome.hgc);
    assert!(applied.number == 0 && right == copy_expected(&outcome.register, import.sender()), "{}", engine.name);
    let number = (engine.update)(import.mode, offset, &mut wrong, &import.hgv, &outcome.hgc).number;
    let mut again = wrong.clone();
    assert_eq!((engine.update)(import.mode, import.offset, &mut again, &import.hgv, &outcome.hgc), applied);
    assert!(again == right, "{}", engine.name);
    match number {
        0 if outcome.answer.taken == 0 => {
            assert!(wrong == right, "{}: nothing is stamped", engine.name);
            "the same copy"
        }
        0 => {
            let stamps = |copy: &[u8]| copy.chunks(SLOT).map(|slot| slot[147..161].to_vec()).collect::<Vec<Vec<u8>>>();
            assert!(stamps(&wrong) != stamps(&right), "{}", engine.name);
            "other stamps"
        }
        number => {
            assert!(number == 52 && wrong == copy, "{}", engine.name);
            "refused"
        }
    }
}

/// How the offset of a list is beside that of the list before it of the same provider.
type Before = BTreeMap<Vec<u8>, i64>;

fn change(before: &mut Before, import: &Import) -> &'static str {
    match before.insert(import.sender().to_vec(), import.offset) {
        None => "first",
        Some(offset) if offset == import.offset => "as before",
        Some(offset) if offset < import.offset => "summer time",
        Some(_) => "winter time",
    }
}

#[test]
fn another_offset_is_noticed() {
    let (mut told, mut changes) = (Counts::new(), Counts::new());
    for seed in 0..SEQUENCES {
        let (mut register, mut before) = (start(seed), Before::new());
        for event in sequence(seed) {
            let step = of_all(|engine| Step::of(engine, &register, &event));
            if let (Event::Import(import), Step::Imported(outcome), 0) = (&event, &step, step.number()) {
                count(&mut changes, change(&mut before, import));
                let copy = copy_expected(&register, import.sender());
                for offset in [-720, 0, 60, 840, import.offset - 60, import.offset + 60, import.offset + 1] {
                    if offset != import.offset {
                        let told_by = |engine: &Engine| by_another(engine, &copy, import, outcome, offset);
                        count(&mut told, of_all(told_by));
                    }
                }
            }
            register = step.register().to_vec();
        }
    }
    assert_reached("lists applied with another offset", &told, vec!["refused", "other stamps", "the same copy"]);
    assert_reached("offsets beside the one before", &changes, vec!["first", "as before", "summer time", "winter time"]);
}
