//! Why files are not as a command wanted them, by what it means for the register.

use std::io;

/// What could not be done.
#[derive(Debug)]
pub enum Fault {
    /// Of the file system: nothing counts, and all is as it was.
    Disk(io::Error),
    /// The register is new, and something after that could not be done.
    Counts(String),
    /// What an earlier stop left can be neither finished nor undone.
    Left(String),
    /// Another holds the lock.
    Busy(String),
}

impl From<io::Error> for Fault {
    fn from(fault: io::Error) -> Fault {
        Fault::Disk(fault)
    }
}

impl std::fmt::Display for Fault {
    fn fmt(&self, f: &mut std::fmt::Formatter) -> std::fmt::Result {
        match self {
            Fault::Disk(fault) => fault.fmt(f),
            Fault::Counts(words) | Fault::Left(words) | Fault::Busy(words) => f.write_str(words),
        }
    }
}
