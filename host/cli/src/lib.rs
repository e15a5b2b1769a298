//! The command `graftspindle`: `command` is the command line, `files` how a register and its HGC are kept on disk, `ait` the
//! accepted issuer table, `csv` tables as spreadsheets write them, `audit` the journal for the audit, `digest` the hash by
//! which files are known again.

#![forbid(unsafe_code)]
#![warn(missing_docs)]

pub mod ait;
pub mod audit;
pub mod command;
pub mod csv;
pub mod digest;
pub mod files;
mod say;
