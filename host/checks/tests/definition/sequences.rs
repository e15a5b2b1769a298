//! Imports and sweeps one after the other. "The provider sweeps his copy at the same T and the same place in the sequence": then
//! it holds what is held for him; and what becomes of a copy where he does not.

use crate::common::*;
use crate::steps::Step;
use graftspindle::raw::{Counted, Imported, Swept};
use graftspindle_checks::generate::file::used;
use graftspindle_checks::generate::{sequence, start, Event, Import};
use graftspindle_checks::plain::register::SLOT;
use std::collections::{BTreeMap, BTreeSet};

pub const SEQUENCES: u64 = 2_000;

fn actor_of(slot: &[u8]) -> &[u8] {
    &slot[1..7]
}

fn pan_of(slot: &[u8]) -> &[u8] {
    &slot[13..32]
}

/// Each provider's copy, by his actor.
pub type Copies = BTreeMap<Vec<u8>, Vec<u8>>;

/// Of all who send something and of all for whom something is held: each begins with our records of him.
fn copies(register: &[u8], events: &[Event]) -> Copies {
    let senders = events.iter().filter_map(Event::import).map(Import::sender);
    let actors = senders.chain(used(register).map(actor_of));
    actors.map(|actor| (actor.to_vec(), copy_expected(register, actor))).collect()
}

/// The provider reads his confirmation back and applies it; nothing is refused.
fn apply(engine: &Engine, import: &Import, outcome: &Outcome, copy: &mut [u8]) {
    let told = verdicts(engine, &import.hgv, outcome);
    let Imported { taken, rejected, .. } = outcome.answer;
    assert_eq!(told.iter().filter(|&&verdict| verdict == 0).count() as u64, taken);
    let applied = (engine.update)(import.mode, import.offset, copy, &import.hgv, &outcome.hgc);
    assert_eq!(applied, Counted { number: 0, taken, rejected });
}

/// Every provider sweeps, also one who has sent nothing. What is refused here is refused there; what goes here goes from one of
/// the copies; and where nothing goes here, nothing does there.
fn sweep_all(engine: &Engine, time: &[u8], answer: Swept, copies: &mut Copies) {
    let mut removed = 0;
    for copy in copies.values_mut() {
        let (own, after) = sweep(engine, copy, time);
        assert_eq!(own.number, answer.number, "{}", engine.name);
        removed += own.removed;
        *copy = after;
    }
    assert_eq!(removed, answer.removed, "{}", engine.name);
}

fn follow(engine: &Engine, seed: u64) -> (Vec<Step>, Copies) {
    follow_by(engine, seed, |register, event| Step::of(engine, register, event))
}

/// A provider who holds our records of him, those of before too, and applies each confirmation that he gets and each sweep, all
/// at their places, holds them again. What we do at each event is handed over.
pub fn follow_by(engine: &Engine, seed: u64, mut step: impl FnMut(&[u8], &Event) -> Step) -> (Vec<Step>, Copies) {
    let (mut register, events) = (start(seed), sequence(seed));
    let (mut steps, mut copies) = (Vec::new(), copies(&register, &events));
    for event in &events {
        let step = step(&register, event);
        match (event, &step) {
            (Event::Import(import), Step::Imported(outcome)) if step.number() == 0 => {
                apply(engine, import, outcome, copies.get_mut(import.sender()).expect("a copy for each sender"));
            }
            (Event::Sweep(time), Step::Swept(answer, _)) => sweep_all(engine, time, *answer, &mut copies),
            _ => (),
        }
        register = step.register().to_vec();
        for (actor, copy) in &copies {
            assert!(*copy == copy_expected(&register, actor), "{}, seed {seed}", engine.name);
        }
        steps.push(step);
    }
    (steps, copies)
}

/// The sender and the number of each import.
fn imports(events: &[Event], steps: &[Step]) -> Vec<(Vec<u8>, u64)> {
    let told = |(event, step): (&Event, &Step)| Some((event.import()?.sender().to_vec(), step.number()));
    events.iter().zip(steps).filter_map(told).collect()
}

/// How many imports stop with 35 that have an accepted one of the same sender before them and another behind them.
fn thin_between(told: &[(Vec<u8>, u64)]) -> u64 {
    let is_between = |(at, (sender, number)): &(usize, &(Vec<u8>, u64))| {
        let accepted = (sender.clone(), 0);
        *number == 35 && told[..*at].contains(&accepted) && told[at + 1..].contains(&accepted)
    };
    told.iter().enumerate().filter(is_between).count() as u64
}

/// What each sweep does: it is refused, or takes records from so many providers.
fn sweeps(start: &[u8], steps: &[Step]) -> Vec<&'static str> {
    let befores = [start].into_iter().chain(steps.iter().map(Step::register));
    let told = |(before, step): (&[u8], &Step)| {
        let Step::Swept(answer, after) = step else { return None };
        let gone = used(before).filter(|slot| used(after).all(|left| left != *slot));
        let providers: BTreeSet<&[u8]> = gone.map(actor_of).collect();
        Some(match (answer.number, providers.len()) {
            (0, 0) => "takes nothing",
            (0, 1) => "takes from one provider",
            (0, _) => "takes from several providers",
            _ => "is refused",
        })
    };
    befores.zip(steps).filter_map(told).collect()
}

/// How many accounts a sweep takes from one provider and a later import brings for another.
fn brought_by_another(start: &[u8], steps: &[Step]) -> u64 {
    let (mut swept, mut before, mut brought) = (BTreeMap::new(), start, 0);
    for step in steps {
        let is_new = |slot: &&[u8]| used(before).all(|held| pan_of(held) != pan_of(slot));
        for slot in used(step.register()).filter(is_new) {
            brought += u64::from(swept.remove(pan_of(slot)).is_some_and(|actor| actor != actor_of(slot)));
        }
        if let Step::Swept(_, after) = step {
            let gone = used(before).filter(|slot| used(after).all(|left| left != *slot));
            swept.extend(gone.map(|slot| (pan_of(slot), actor_of(slot))));
        }
        before = step.register();
    }
    brought
}

#[test]
fn sequences() {
    let (mut numbers, mut heavy, mut swept) = (Counts::new(), Counts::new(), Counts::new());
    let (mut between, mut brought) = (0, 0);
    for seed in 0..SEQUENCES {
        let (steps, copies) = of_all(|engine| follow(engine, seed));
        let told = imports(&sequence(seed), &steps);
        between += thin_between(&told);
        told.iter().for_each(|(_, number)| count(&mut numbers, *number));
        copies.values().for_each(|copy| count(&mut heavy, copy.chunks(SLOT).any(over_limit)));
        sweeps(&start(seed), &steps).into_iter().for_each(|deed| count(&mut swept, deed));
        brought += brought_by_another(&start(seed), &steps);
    }
    println!("sequences' numbers: {numbers:?}, {between} of 35 between accepted lists of the sender");
    println!("sweeps: {swept:?}, {brought} accounts that another provider brings after one");
    assert_reached("copies with a record over a limit of weight", &heavy, vec![false, true]);
    assert!([0, 21, 22, 24, 28, 33, 34, 35].iter().all(|number| numbers[number] >= 10));
    assert!(between >= 200, "{between}");
    let expected = ["is refused", "takes nothing", "takes from one provider", "takes from several providers"];
    assert!(expected.iter().all(|deed| swept[deed] >= 200), "{swept:?}");
    assert!(brought >= 50, "{brought}");
}

/// How a copy differs from our records of its provider.
fn difference(register: &[u8], actor: &[u8], copy: &[u8]) -> &'static str {
    let expected = copy_expected(register, actor);
    let sorted = |block: &[u8]| block.chunks(SLOT).map(<[u8]>::to_vec).collect::<BTreeSet<Vec<u8>>>();
    let held = |slot: &[u8]| used(register).any(|ours| pan_of(ours) == pan_of(slot) && actor_of(ours) != actor);
    match copy {
        same if same == expected => "none",
        _ if sorted(copy) == sorted(&expected) => "another order",
        _ if used(copy).any(held) => "a record that another provider holds",
        _ => "ended records that we do not hold",
    }
}

/// A provider who applies what is confirmed and no sweep: how his copies differ at the end, and where an update is refused. A
/// full list of his puts his copy right.
fn without_sweeps(engine: &Engine, seed: u64) -> Vec<&'static str> {
    let (mut register, events) = (start(seed), sequence(seed));
    let (mut copies, mut told) = (copies(&register, &events), Vec::new());
    for event in &events {
        let step = Step::of(engine, &register, event);
        register = step.register().to_vec();
        let (Event::Import(import), Step::Imported(Outcome { hgc, .. }), 0) = (event, &step, step.number()) else {
            continue;
        };
        let copy = copies.get_mut(import.sender()).expect("a copy for each sender");
        match (engine.update)(import.mode, import.offset, copy, &import.hgv, hgc).number {
            0 => assert!(import.mode == 1 || *copy == copy_expected(&register, import.sender()), "seed {seed}"),
            number => {
                assert_eq!(number, 33, "seed {seed}");
                told.push("33");
            }
        }
    }
    told.extend(copies.iter().map(|(actor, copy)| difference(&register, actor, copy)));
    told
}

#[test]
fn sweeps_left_out() {
    let mut shown = Counts::new();
    for seed in 0..SEQUENCES {
        of_all(|engine| without_sweeps(engine, seed)).into_iter().for_each(|told| count(&mut shown, told));
    }
    let others = ["33", "another order", "a record that another provider holds", "ended records that we do not hold"];
    assert_reached("copies without sweeps", &shown, others.into_iter().chain(["none"]).collect());
}

/// The next accepted list of a provider behind an event, unless a sweep takes something before it.
fn next_list<'a>(events: &'a [Event], steps: &'a [Step], at: usize, actor: &[u8]) -> Option<(&'a Import, &'a Outcome)> {
    for (event, step) in events.iter().zip(steps).skip(at + 1) {
        match (event, step) {
            (_, Step::Swept(answer, _)) if answer.removed > 0 => return None,
            (Event::Import(import), Step::Imported(outcome)) if step.number() == 0 && import.sender() == actor => {
                return Some((import, outcome));
            }
            _ => (),
        }
    }
    None
}

/// A sweep that the provider applies to his copy only behind that list. Where the list is incremental, was received after the
/// sweep's time and names none of the accounts that go, the copy is right; where its update is refused, the sweep and then the
/// list put it right. None where nothing of his goes.
fn late(engine: &Engine, copy: &[u8], time: &[u8], import: &Import, outcome: &Outcome) -> Option<&'static str> {
    let expected = copy_expected(&outcome.register, import.sender());
    let (answer, mut swept) = sweep(engine, copy, time);
    let goes = |slot: &&[u8]| used(&swept).all(|left| left != *slot);
    // What we removed is held for him again only where a taken line named it.
    let is_named = |slot: &[u8]| used(&expected).any(|ours| pan_of(ours) == pan_of(slot));
    let is_apart = import.mode == 1 && import.reception[..] > *time && !used(copy).filter(goes).any(is_named);
    let mut behind = copy.to_vec();
    let applied = (engine.update)(import.mode, import.offset, &mut behind, &import.hgv, &outcome.hgc).number;
    if answer.removed == 0 {
        return None;
    }
    if applied == 33 {
        apply(engine, import, outcome, &mut swept);
        assert!(swept == expected, "{}", engine.name);
        return Some("after a refusal");
    }
    let is_right = sweep(engine, &behind, time).1 == expected;
    assert!(is_right || !is_apart, "{}", engine.name);
    Some(match (is_right, is_apart) {
        (false, _) => "too late",
        (true, true) => "late, and the list has nothing to do with it",
        (true, false) => "late, and right all the same",
    })
}

#[test]
fn sweeps_applied_late() {
    let mut told = Counts::new();
    for seed in 0..2 * SEQUENCES {
        let (events, (steps, copies)) = (sequence(seed), follow(engine("hashed"), seed));
        let befores: Vec<Vec<u8>> =
            [start(seed)].into_iter().chain(steps.iter().map(|s| s.register().to_vec())).collect();
        for (at, event) in events.iter().enumerate() {
            let Event::Sweep(time) = event else { continue };
            for actor in copies.keys() {
                let Some((import, outcome)) = next_list(&events, &steps, at, actor) else { continue };
                let copy = copy_expected(&befores[at], actor);
                let shown = of_all(|engine| late(engine, &copy, time, import, outcome));
                shown.into_iter().for_each(|shown| count(&mut told, shown));
            }
        }
    }
    println!("sweeps behind the next list: {told:?}");
    for shown in ["after a refusal", "too late", "late, and the list has nothing to do with it"] {
        assert!(told[shown] >= 10, "{shown}: {told:?}");
    }
}
