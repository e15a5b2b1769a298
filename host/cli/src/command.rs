//! The command line. Each command reads files, asks the proved functions, writes files, and says what came of it.

pub mod arguments;
mod by_field;
pub mod clock;
mod completions;
mod demo;
mod entry;
mod help;
mod hints;
mod import;
mod input;
mod issuers;
pub mod json;
mod kinds;
mod lookup;
mod manual;
pub mod options;
mod read_back;
mod refusal;
mod register;
mod sweep;
mod texts;
mod told;
mod totals;
mod update;
mod write;

use std::ffi::OsString;
use std::path::Path;

use crate::files::{self, Disk, Place};
pub use crate::say::warn;
use arguments::Arguments;
use graftspindle::sizes::REGISTER_MOST;
use graftspindle::{Mode, Offset, Register};
use options::{Opt, Use};
pub use refusal::Refusal;
pub use told::{output, Told};

/// What a command has to say, or why it refuses.
pub type Answer = Result<Told, Refusal>;

/// A command, with all that parsing and help know of it.
pub struct Command {
    /// One word or two.
    pub name: &'static str,
    /// In the order of the usage.
    pub options: &'static [Use],
    /// The words behind the options; one in brackets may be missing.
    pub words: &'static [&'static str],
    /// What it does, in lines.
    pub help: &'static str,
    /// Does it.
    pub run: fn(&dyn Disk, &Arguments) -> Answer,
}

impl Command {
    /// All its options, those of every command among them.
    pub fn takes(&self) -> impl Iterator<Item = &'static Opt> {
        self.options.iter().map(|option| option.option()).chain([&options::JSON])
    }

    /// Those that suffice by themselves.
    pub fn alone(&self) -> impl Iterator<Item = &'static Opt> {
        self.options.iter().filter(|option| matches!(option, Use::Alone(_))).map(|option| option.option())
    }
}

static COMMANDS: [&Command; 18] = [
    &import::IMPORT,
    &lookup::PAN,
    &lookup::PLATE,
    &read_back::READ_BACK,
    &by_field::EXPLAIN,
    &update::UPDATE,
    &sweep::SWEEP,
    &write::WRITE,
    &register::new::NEW,
    &register::show::SHOW,
    &register::list::LIST,
    &register::check::CHECK,
    &register::grow::GROW,
    &register::recover::RECOVER,
    &issuers::FROM_AIT,
    &demo::DEMO,
    &manual::MANUAL,
    &completions::COMPLETIONS,
];

/// The command whose words stand in front, and what follows them.
fn named(given: &[OsString]) -> Option<(&'static Command, &[OsString])> {
    let fits = |command: &&Command| {
        let words = command.name.split(' ').count();
        given.len() >= words && given[..words].iter().zip(command.name.split(' ')).all(|(a, b)| a == b)
    };
    let command = COMMANDS.into_iter().find(fits)?;
    Some((command, &given[command.name.split(' ').count()..]))
}

/// Runs what stands behind the program's name.
pub fn run(disk: &dyn Disk, given: &[OsString]) -> Answer {
    let Some((command, rest)) = named(given) else {
        return help::without_command(given);
    };
    let options = rest.iter().take_while(|word| *word != "--");
    if options.clone().any(help::is_asked) {
        return Ok(help::of(command));
    }
    (command.run)(disk, &Arguments::parse(command, rest)?)
}

/// Whether `--json` is among the options.
pub fn wants_json(given: &[OsString]) -> bool {
    given.iter().take_while(|word| *word != "--").any(|word| word == "--json")
}

fn mode(given: &Arguments) -> Result<Mode, Refusal> {
    match given.text(&options::MODE)? {
        word if word == "incremental" => Ok(Mode::Incremental),
        word if word == "full" => Ok(Mode::Full),
        other => Err(Refusal::Fault(format!("--mode is incremental or full, not {other}"))),
    }
}

/// Whether it is in range the proved functions say.
fn offset(given: &Arguments) -> Result<Offset, Refusal> {
    let Some(text) = given.text_if_given(&options::OFFSET) else {
        return Ok(Offset::UTC);
    };
    text.parse().map_err(|_| Refusal::Fault(format!("--offset is +HH:MM or -HH:MM, not {text}")))
}

/// A register that is only read.
fn look(disk: &dyn Disk, path: &Path) -> Result<Register, Refusal> {
    let place = Place::of_known(path)?;
    if let Err(fault) = files::tidy(disk, &place) {
        warn(&format!("what a stopped import left is still there: {fault}"));
    }
    Ok(Register::from_bytes(disk.read(place.path(), REGISTER_MOST + 1)?))
}

/// The number with these words beside its sentence.
fn beside(words: impl std::fmt::Display) -> impl FnOnce(graftspindle::Number) -> Refusal {
    move |number| Refusal::Number(number, words.to_string())
}
