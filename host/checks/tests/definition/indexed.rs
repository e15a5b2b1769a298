//! The import by an index: "both give the same answer, register and HGC whenever the index is long enough", whatever it holds, and
//! 36 where it is not. Of what it holds afterwards nothing is said, so nothing of it is compared.

use crate::common::*;
use crate::sequences::{follow_by, SEQUENCES};
use crate::steps::Step;
use graftspindle::{Import, Mode, Number, Offset, Register};
use graftspindle_checks::generate::index::{Length, LONG_ENOUGH, STATES};
use graftspindle_checks::generate::rng::Rng;
use graftspindle_checks::generate::{case, index, index_of, large, Case, Event};
use graftspindle_checks::kinds::kinds;
use graftspindle_checks::plain::register::SLOT;
use graftspindle_checks::sample;
use graftspindle_checks::tried::indexes;
use std::cell::RefCell;

/// A generator of indexes beside that of the case.
fn rng(seed: u64) -> Rng {
    Rng::new(seed ^ 0x1DE)
}

fn slots_of(case: &Case) -> usize {
    case.register.len() / SLOT
}

/// What the plain import of the library makes of a case.
fn plainly(case: &Case) -> Outcome {
    run_given(engine("proved"), &case.register, &Given::of_case(case))
}

/// The proved imports beside each other and beside the other hand's.
#[test]
fn beside_the_plain_import() {
    let (mut numbers, mut lengths, mut states) = (Counts::new(), Counts::new(), Counts::new());
    let mut before = Counts::new();
    for seed in 0..SEEDS {
        let case = case(seed);
        let (given, slots) = (Given::of_case(&case), slots_of(&case));
        let index = index(&mut rng(seed), slots);
        let by_index = of_indexed(|engine| run_indexed(engine, &case.register, &given, &mut index.numbers.clone()));
        let (plain, number) = (plainly(&case), by_index.answer.number);
        if index.numbers.len() < slots && !(21..=24).contains(&plain.answer.number) {
            assert_eq!(number, 36, "seed {seed}");
            count(&mut before, plain.answer.number);
        } else {
            assert!(by_index == plain, "seed {seed}");
            count(&mut states, (index.state, number == 0));
        }
        count(&mut numbers, number);
        count(&mut lengths, index.length);
    }
    let lengths_all = [&[Length::Empty, Length::OneLess, Length::Fewer], &LONG_ENOUGH[..]].concat();
    let done_or_not = STATES.iter().flat_map(|&state| [(state, false), (state, true)]);
    assert_reached("indexed import's numbers", &numbers, (21..=36).chain([0]).collect());
    assert_reached("what 36 stands before", &before, (25..=35).chain([0]).collect());
    assert_reached("lengths of an index", &lengths, lengths_all);
    assert_reached("states of an index, and whether the import is done", &states, done_or_not.collect());
}

/// One case with each index that is long enough: one outcome.
#[test]
fn any_state() {
    let mut numbers = Counts::new();
    for seed in 0..SEEDS / 50 {
        let case = case(seed);
        let (plain, proved) = (plainly(&case), engine("proved"));
        for (length, state) in LONG_ENOUGH.iter().flat_map(|&length| STATES.map(|state| (length, state))) {
            let mut index = index_of(&mut rng(seed), length, state, slots_of(&case)).numbers;
            let by_index = run_indexed(proved, &case.register, &Given::of_case(&case), &mut index);
            assert!(by_index == plain, "seed {seed}, {length:?}, {state:?}");
        }
        count(&mut numbers, plain.answer.number == 0);
    }
    assert_reached("cases with every index", &numbers, vec![false, true]);
}

/// Every length beside every stop, on registers of a few slots; the plain imports answer 36 to none of it.
#[test]
fn every_length() {
    for engine in ENGINES {
        assert_eq!(indexes::all(engine.import, engine.import_indexed), None, "{}", engine.name);
    }
}

/// How each import of a sequence is made.
#[derive(Clone, Copy, Debug, PartialEq, Eq, PartialOrd, Ord)]
enum Way {
    Plain,
    Indexed,
    TooShort,
}

/// The way of the next import.
fn way(rng: &mut Rng) -> Way {
    match rng.below(8) {
        0..4 => Way::Indexed,
        4 => Way::TooShort,
        _ => Way::Plain,
    }
}

/// An event, its import by the way whose turn it is. The index is as the import before has left it.
fn step(engine: &Engine, register: &[u8], event: &Event, way: Way, index: &mut Vec<u16>) -> Step {
    let (Event::Import(import), Way::Indexed | Way::TooShort) = (event, way) else {
        return Step::of(engine, register, event);
    };
    let lacking = usize::from(way == Way::TooShort);
    index.resize((register.len() / SLOT).saturating_sub(lacking), 7);
    Step::Imported(run_indexed(engine, register, &Given::of_import(import), index))
}

/// Both ways in turn into one register: each provider's copy is what is held for him, as in `sequences`.
#[test]
fn sequences_of_both() {
    let (mut told, mut turns) = (Counts::new(), Counts::new());
    for seed in 0..SEQUENCES {
        let ways = RefCell::new(Vec::new());
        let (steps, _) = of_indexed(|engine| {
            let (mut rng, mut index) = (rng(seed), Vec::new());
            ways.borrow_mut().clear();
            follow_by(engine, seed, |register, event| {
                let way = way(&mut rng);
                ways.borrow_mut().push(way);
                step(engine, register, event, way, &mut index)
            })
        });
        let imports = ways.take().into_iter().zip(&steps).filter(|(_, step)| matches!(step, Step::Imported(_)));
        let done: Vec<(Way, u64)> = imports.map(|(way, step)| (way, step.number())).collect();
        done.iter().for_each(|(way, number)| count(&mut told, (*way, *number == 0, *number == 36)));
        let done: Vec<Way> = done.into_iter().filter(|(_, number)| *number == 0).map(|(way, _)| way).collect();
        done.windows(2).for_each(|two| count(&mut turns, (two[0], two[1])));
    }
    let both = [Way::Plain, Way::Indexed];
    println!("imports by their way, done, and 36: {told:?}");
    assert!(both.iter().all(|way| told[&(*way, true, false)] >= 1_000 && !told.contains_key(&(*way, false, true))));
    assert!(told[&(Way::TooShort, false, true)] >= 1_000);
    let of_both = |way: &Way| both.contains(way);
    turns.retain(|(first, second), _| of_both(first) && of_both(second));
    assert_reached("an import behind another", &turns, both.iter().flat_map(|&a| both.map(|b| (a, b))).collect());
}

/// Thousands of lines and slots, up to the limits of both.
#[test]
fn large_cases() {
    for seed in 0..12 {
        let case = large(seed);
        let (plain, slots) = (plainly(&case), slots_of(&case));
        for state in STATES {
            let mut index = index_of(&mut rng(seed), Length::Exact, state, slots).numbers;
            let proved = run_indexed(engine("proved"), &case.register, &Given::of_case(&case), &mut index);
            assert!(proved == plain, "seed {seed}, {state:?}");
        }
        let hashed = run_given(engine("hashed"), &case.register, &Given::of_case(&case));
        assert!(hashed == plain, "seed {seed}");
    }
}

/// What is timed, by all but the slowest: "all kinds of 8,192 lines".
#[test]
fn kinds_of_large_files() {
    for kind in kinds(8192) {
        for mode in [1, 2] {
            let (rows, room) = (sample::row(), 174 + 130 * kind.rejected);
            let given = Given { mode, reception: sample::RECEPTION, offset: 0, rows: &rows, hgv: &kind.hgv, room };
            let plain = run_given(engine("proved"), &kind.register, &given);
            let counts = (plain.answer.number, plain.answer.taken, plain.answer.rejected);
            assert_eq!(counts, (0, kind.taken as u64, kind.rejected as u64), "{}, mode {mode}", kind.name);
            for state in STATES {
                let mut index = index_of(&mut rng(mode), Length::Exact, state, 8192).numbers;
                let proved = run_indexed(engine("proved"), &kind.register, &given, &mut index);
                assert!(proved == plain, "{}, mode {mode}, {state:?}", kind.name);
            }
            assert!(run_given(engine("hashed"), &kind.register, &given) == plain, "{}, mode {mode}", kind.name);
            let short = run_indexed(engine("proved"), &kind.register, &given, &mut [0; 8191]);
            assert_eq!(short.answer.number, 36, "{}, mode {mode}", kind.name);
        }
    }
}

/// The slots that have to be covered are all: a free register needs as long an index as a full one.
#[test]
fn free_slots_count() {
    for engine in indexed() {
        for used in 0..=3 {
            let register = [slots((0..used).map(sample::line)), free(3 - used)].concat();
            let file = hgv(&[]);
            let given = Given { mode: 1, reception: R0, offset: 0, rows: ROW0, hgv: &file, room: 174 };
            let number = |n: usize| run_indexed(engine, &register, &given, &mut vec![0; n]).answer.number;
            assert_eq!([0, 1, 2, 3, 4].map(number), [36, 36, 36, 0, 0], "{}, {used} used", engine.name);
        }
    }
}

/// The safe form lends an index by itself: both ways answer alike, and 36 to nothing.
#[test]
fn safe_form() {
    let mut numbers = Counts::new();
    for seed in 0..SEEDS / 10 {
        let Case { mode, reception, offset, register, rows, hgv, .. } = &case(seed);
        let mode = if *mode == 2 { Mode::Full } else { Mode::Incremental };
        let given = Import { mode, reception, offset: Offset::of_minutes(*offset), rows, hgv };
        let (mut ours, mut plain) = (Register::from_bytes(register.clone()), Register::from_bytes(register.clone()));
        let told = ours.import(&given);
        assert!(told == plain.import_plain(&given) && ours == plain, "seed {seed}");
        count(&mut numbers, told.map_or_else(Number::number, |_| 0));
    }
    assert_reached("safe import's numbers", &numbers, (22..=33).chain([0, 35]).collect());
}
