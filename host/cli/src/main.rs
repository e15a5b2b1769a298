//! The command `graftspindle`.

use graftspindle_cli::command::{self, Refusal};
use graftspindle_cli::files::Real;
use std::ffi::OsString;
use std::io::{ErrorKind, Write};
use std::process::ExitCode;

/// A reader who has seen enough and closed his end is no fault.
fn say(text: &str) -> Result<(), Refusal> {
    let mut out = std::io::stdout().lock();
    match out.write_all(text.as_bytes()).and_then(|()| out.flush()) {
        Err(fault) if fault.kind() != ErrorKind::BrokenPipe => {
            Err(Refusal::Counts(format!("done, but standard output took no answer: {fault}")))
        }
        _ => Ok(()),
    }
}

fn main() -> ExitCode {
    let given: Vec<OsString> = std::env::args_os().skip(1).collect();
    let answer = command::run(&Real, &given);
    let said = say(&command::output(&answer, command::wants_json(&given)));
    match answer.and(said) {
        Ok(()) => ExitCode::SUCCESS,
        Err(refusal) => {
            command::warn(&refusal.line());
            ExitCode::from(refusal.status())
        }
    }
}
