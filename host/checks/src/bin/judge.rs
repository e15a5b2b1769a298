//! Says by which vector the plain implementation is found out, or by which of the lists; nothing where it is as the paper
//! says. `host/mutate` compiles it with each change. Its arguments are the folder of the crates, and the program whose vectors
//! are asked first.

use graftspindle_checks::plain::register::SLOT;
use graftspindle_checks::tried::{clocks, indexes, lookups, pans, seconds, stamps, sweeps, times, trials, Trial};
use graftspindle_checks::vectors::{first_difference, PROGRAMS};
use graftspindle_checks::{plain, sample};
use std::panic::{catch_unwind, set_hook, AssertUnwindSafe};
use std::path::Path;

fn by_vectors(crates: &Path, first: &str) -> Option<String> {
    let (front, behind): (Vec<_>, Vec<_>) = PROGRAMS.into_iter().partition(|(program, _)| *program == first);
    for (program, ask) in front.into_iter().chain(behind) {
        let bytes = |name| std::fs::read(crates.join(program).join(name)).expect("the program's vectors");
        if let Some(found) = first_difference(ask, &bytes("stdin"), &bytes("stdout")) {
            return Some(format!("{program}/stdin:{} {}", found.line, found.vector));
        }
    }
    None
}

/// The verdicts of lines in an import that is read back.
fn verdicts(lines: &[Vec<u8>]) -> Vec<u8> {
    let (file, n) = (sample::hgv_of(lines), lines.len());
    let (mut register, mut hgc, mut told) = (vec![0; SLOT * n], vec![0; 174 + 130 * n], vec![0; n]);
    let done = plain::import(1, sample::RECEPTION, 0, &mut register, &sample::row(), &file, &mut hgc);
    let back = plain::read_back(&file, &hgc[..done.length as usize], &mut told);
    if done.number + back.number > 0 {
        return vec![u8::MAX; n];
    }
    told
}

fn by_plate(register: &[u8], plate: &[u8]) -> (u64, std::ops::Range<usize>) {
    plain::by_plate(register, plate, b"DE ", sample::RECEPTION)
}

fn is_real(time: &[u8]) -> bool {
    plain::by_plate(&[], b"ABC123    ", b"NO ", time).0 == 41
}

fn by_lists() -> Option<String> {
    let of_trial = |trial: Trial| trial.as_records(plain::in_order).or_else(|| trial.as_lines(verdicts));
    let of_record = || pans::all_lengths(plain::in_order).or_else(|| stamps::all(plain::in_order));
    let of_lookup = || lookups::all(plain::by_pan, by_plate).or_else(|| times::all_times(is_real));
    let of_time = || seconds::all(plain::seconds).or_else(|| clocks::all(plain::import, plain::update));
    let of_register = || of_lookup().or_else(|| sweeps::all(plain::sweep));
    let of_index = || indexes::all(plain::import, plain::import_indexed);
    trials().find_map(of_trial).or_else(of_record).or_else(of_register).or_else(of_index).or_else(of_time)
}

pub fn main() {
    let words: Vec<String> = std::env::args().collect();
    let [_, crates, first] = &words[..] else { panic!("judge CRATES PROGRAM") };
    set_hook(Box::new(|_| {}));
    let lists = || catch_unwind(AssertUnwindSafe(by_lists)).unwrap_or(Some("it panics".to_string()));
    if let Some(found) = by_vectors(Path::new(crates), first).or_else(|| lists().map(|found| format!("lists {found}")))
    {
        println!("{found}");
    }
}
