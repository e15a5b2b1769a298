//! An event of a sequence on our side.

use crate::common::*;
use graftspindle::raw::Swept;
use graftspindle_checks::generate::Event;

/// What an event answers, and the register that it leaves.
#[derive(Debug, PartialEq)]
pub enum Step {
    Imported(Outcome),
    Swept(Swept, Vec<u8>),
}

impl Step {
    pub fn of(engine: &Engine, register: &[u8], event: &Event) -> Step {
        match event {
            Event::Import(import) => Step::Imported(run_given(engine, register, &Given::of_import(import))),
            Event::Sweep(time) => {
                let (answer, after) = sweep(engine, register, time);
                Step::Swept(answer, after)
            }
        }
    }

    pub fn number(&self) -> u64 {
        match self {
            Step::Imported(outcome) => outcome.answer.number,
            Step::Swept(answer, _) => answer.number,
        }
    }

    pub fn register(&self) -> &[u8] {
        match self {
            Step::Imported(outcome) => &outcome.register,
            Step::Swept(_, after) => after,
        }
    }
}
