//! What a sweep leaves: lookups answer as before from its time on, the freed slots are the next import's, and each provider's
//! records are those that his swept copy holds.

use crate::common::*;
use graftspindle_checks::generate::file::used;
use graftspindle_checks::generate::line::{second_beside, TIMES};
use graftspindle_checks::generate::rng::Rng;
use graftspindle_checks::generate::sweeping::time;
use graftspindle_checks::generate::{case, question, sweeping, Sweeping};
use graftspindle_checks::plain::register::SLOT;
use graftspindle_checks::sample;

const T: &[u8] = b"20250401000000";

/// The sender's records from one account to before another, with this end.
fn accounts(from: usize, to: usize, end: &[u8]) -> Vec<Vec<u8>> {
    (from..to).map(|i| with(&with(LINE0, 14, sample::pan(i).as_bytes()), 101, end)).collect()
}

fn active(from: usize, to: usize) -> Vec<Vec<u8>> {
    accounts(from, to, b"00000000000000")
}

fn ended(from: usize, to: usize) -> Vec<Vec<u8>> {
    accounts(from, to, b"20250401000000")
}

/// What all leave.
fn swept(register: &[u8], time: &[u8]) -> Vec<u8> {
    of_all(|engine| sweep(engine, register, time)).1
}

/// Registers of the generator in order, with the time of a sweep.
fn in_order(seeds: u64) -> impl Iterator<Item = Sweeping> {
    (0..seeds).map(sweeping).filter(|s| of_all(|engine| sweep(engine, &s.register, &s.time)).0.number == 0)
}

/// "A register of mostly ended tags answers 33"; "the freed slots are used by the next import".
#[test]
fn next_import_uses_the_freed_slots() {
    let register = slots([ended(0, 2), active(2, 3), ended(3, 4)].concat());
    let new = active(10, 13);
    for engine in ENGINES {
        assert_eq!(run_lines(engine, &register, &new[..1]).answer.number, 33);
        let (answer, after) = sweep(engine, &register, T);
        assert_eq!(answer.removed, 3);
        let imported = run_lines(engine, &after, &new);
        assert_eq!((imported.answer.number, imported.answer.taken), (0, 3));
        assert_eq!(imported.register, slots([active(2, 3), new.clone()].concat()));
        assert_eq!(run_lines(engine, &after, &active(10, 14)).answer.number, 33, "one line more");
    }
}

/// The largest register, nine of ten records ended: 33 for a line, and after the sweep room for as many as went.
#[test]
fn largest_register() {
    let record = |i: usize| if i.is_multiple_of(10) { active(i, i + 1) } else { ended(i, i + 1) };
    let register = slots((0..8192).flat_map(record));
    let lines = active(9000, 9000 + 7372);
    for engine in ENGINES {
        assert_eq!(run_lines(engine, &register, &lines[..1]).answer.number, 33);
        let (answer, after) = sweep(engine, &register, T);
        assert_eq!(answer.removed, 7372);
        let full = run_lines(engine, &after, &lines);
        assert_eq!((full.answer.number, full.answer.taken), (0, 7372));
        assert_eq!(used(&full.register).count(), 8192);
    }
}

/// An account that was swept is new to its provider, and free for another.
#[test]
fn swept_account_comes_again() {
    let register = slots([ended(0, 1), active(1, 2)].concat());
    let of_another = with(&ended(0, 1).concat(), 2, b"900124");
    for engine in ENGINES {
        let held = [slot(&of_another), slots(active(1, 2))].concat();
        let refused = run_lines(engine, &[held.clone(), free(1)].concat(), &active(0, 1));
        assert_eq!(refused.answer.rejected, 1, "another provider holds it (L11)");
        let (_, after) = sweep(engine, &held, T);
        let taken = run_lines(engine, &after, &active(0, 1));
        assert_eq!(taken.register, slots([active(1, 2), active(0, 1)].concat()));
        let again = run_lines(engine, &sweep(engine, &register, T).1, &active(0, 1));
        assert_eq!(again.register, taken.register, "behind the others, not in its slot");
        assert_eq!(run_lines(engine, &register, &active(0, 1)).register, slots(active(0, 2)), "without a sweep");
    }
}

/// 35 counts the records held: fewer after a sweep.
#[test]
fn thin_lists() {
    for (over, rest) in [(0, 4), (2, 2), (3, 1), (4, 0), (11, 11)] {
        let register = slots([ended(0, over), active(over, over + rest)].concat());
        let after = swept(&register, T);
        for taken in 0..=over + rest {
            let list = hgv(&active(0, taken));
            let number = |register: &[u8]| of_all(|e| run(e, 2, R0, register, ROW0, &list, 174).answer.number);
            assert_eq!(number(&register), if 2 * taken < over + rest { 35 } else { 0 });
            assert_eq!(
                number(&after),
                if 2 * taken < rest { 35 } else { 0 },
                "{over} ended, {rest} active, {taken} taken"
            );
        }
    }
}

/// A lookup by PAN finds a kept record with the same 168 bytes, and no removed one.
#[test]
fn lookups_by_pan() {
    let mut found = Counts::new();
    for s in in_order(SEEDS / 10) {
        let after = swept(&s.register, &s.time);
        for slot in used(&s.register) {
            let kept = slot[100..114] == [b'0'; 14] || slot[100..114] > s.time[..];
            let (number, part) = of_all(|engine| (engine.by_pan)(&after, &slot[13..32]));
            assert_eq!(number, if kept { 0 } else { 41 });
            assert!(!kept || &after[part] == slot);
            count(&mut found, number);
        }
    }
    assert_reached("records looked up by PAN after a sweep", &found, vec![0, 41]);
}

/// What a lookup by plate answers, and the bytes that it finds.
fn by_plate(register: &[u8], plate: &[u8], nationality: &[u8], time: &[u8]) -> (u64, Vec<u8>) {
    let (number, part) = of_all(|engine| (engine.by_plate)(register, plate, nationality, time));
    (number, register[part].to_vec())
}

/// From the time of the sweep on a lookup by plate answers as it did, by number and by bytes: what went was not active any more.
#[test]
fn lookups_by_plate() {
    let mut numbers = Counts::new();
    for seed in 0..SEEDS / 10 {
        let q = question(seed);
        let time = sweeping(seed).time;
        if of_all(|engine| sweep(engine, &q.register, &time)).0.number != 0 {
            continue;
        }
        let after = swept(&q.register, &time);
        let asked = [time.clone(), second_beside(&time, true), q.time.clone()].into_iter();
        for asked in asked.chain(TIMES.iter().map(|time| time.to_vec())).filter(|asked| *asked >= time) {
            for (plate, nationality) in [(&q.plate, &q.nationality), (&b"ABC123    ".to_vec(), &b"NO ".to_vec())] {
                let before = by_plate(&q.register, plate, nationality, &asked);
                assert!(by_plate(&after, plate, nationality, &asked) == before, "seed {seed}");
                count(&mut numbers, before.0);
            }
        }
    }
    assert_reached("lookups by plate before and after a sweep", &numbers, vec![0, 22, 40, 41, 42]);
}

/// Sweeping and keeping one provider's records: in either order the same.
#[test]
fn one_providers_records() {
    let (mut shares, nobody) = (Counts::new(), b"123456".to_vec());
    for s in in_order(SEEDS / 10) {
        let (answer, after) = of_all(|engine| sweep(engine, &s.register, &s.time));
        let mut actors: Vec<Vec<u8>> =
            used(&s.register).map(|slot| slot[1..7].to_vec()).chain([nobody.clone()]).collect();
        actors.sort();
        actors.dedup();
        let mut removed = 0;
        for actor in &actors {
            let own = of_all(|engine| sweep(engine, &copy_expected(&s.register, actor), &s.time));
            assert_eq!((own.0.number, &own.1), (0, &copy_expected(&after, actor)));
            removed += own.0.removed;
            count(&mut shares, (own.0.removed > 0, answer.removed > own.0.removed));
        }
        assert_eq!(removed, answer.removed);
    }
    let expected = vec![(false, false), (false, true), (true, false), (true, true)];
    assert_reached("something of a provider went, something of others", &shares, expected);
}

/// A list that is received after the time of a sweep brings no record that a second sweep at that time would remove.
#[test]
fn later_lists_bring_nothing_that_has_ended() {
    let mut imported = Counts::new();
    for seed in 0..SEEDS / 10 {
        let c = case(seed);
        let time = time(&mut Rng::new(seed), &c.register);
        if of_all(|engine| sweep(engine, &c.register, &time)).0.number != 0 || time >= c.reception {
            continue;
        }
        let after = swept(&c.register, &time);
        let outcome = of_all(|e| run_given(e, &after, &Given::of_case(&c)));
        assert_eq!(of_all(|engine| sweep(engine, &outcome.register, &time)).0.removed, 0, "seed {seed}");
        count(&mut imported, (outcome.answer.number == 0, outcome.answer.taken > 0));
    }
    assert_reached("accepted, with lines taken", &imported, vec![(false, false), (true, false), (true, true)]);
}

/// As many slots as before, whatever goes.
#[test]
fn slots_stay() {
    for free_slots in [0, 1, 5] {
        let register = [slots(ended(0, 3)), free(free_slots)].concat();
        assert_eq!(swept(&register, T).len(), (3 + free_slots) * SLOT);
    }
}
