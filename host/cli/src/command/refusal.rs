//! Why a command did not do what it was asked for, or not all of it.

use std::io;

use crate::files::Fault;
use graftspindle::Number;

/// Each has its status.
#[derive(Debug)]
pub enum Refusal {
    /// A number of the definition, and what can be said beside its sentence.
    Number(Number, String),
    /// Of the command line or of the file system: nothing was changed.
    Fault(String),
    /// What was asked for counts, but something after it could not be done.
    Counts(String),
    /// What an earlier stop left stands in the way: nothing was begun.
    Left(String),
    /// Another holds the register for longer than was to be waited: nothing was begun.
    Busy(String),
}

impl Refusal {
    /// The exit status.
    pub fn status(&self) -> u8 {
        match self {
            Refusal::Number(number, _) => u8::try_from(number.number()).unwrap_or(u8::MAX),
            Refusal::Fault(_) => 1,
            Refusal::Counts(_) => 2,
            Refusal::Left(_) => 3,
            Refusal::Busy(_) => 4,
        }
    }

    /// What it means, without the number.
    pub fn words(&self) -> String {
        match self {
            Refusal::Number(number, beside) if beside.is_empty() => number.words().to_string(),
            Refusal::Number(number, beside) => format!("{}: {beside}", number.words()),
            Refusal::Fault(words) | Refusal::Counts(words) | Refusal::Left(words) | Refusal::Busy(words) => {
                words.clone()
            }
        }
    }

    /// One line: the number, and what it means.
    pub fn line(&self) -> String {
        format!("{}: {}", self.status(), self.words())
    }
}

impl From<Number> for Refusal {
    fn from(number: Number) -> Refusal {
        Refusal::Number(number, String::new())
    }
}

impl From<io::Error> for Refusal {
    fn from(fault: io::Error) -> Refusal {
        Refusal::Fault(fault.to_string())
    }
}

impl From<Fault> for Refusal {
    fn from(fault: Fault) -> Refusal {
        match fault {
            Fault::Disk(fault) => fault.into(),
            Fault::Counts(words) => Refusal::Counts(words),
            Fault::Left(words) => Refusal::Left(format!("not begun: {words}")),
            Fault::Busy(words) => Refusal::Busy(words),
        }
    }
}
