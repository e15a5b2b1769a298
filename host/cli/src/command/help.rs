//! What `--help` says.

use std::ffi::OsString;

use super::{named, Answer, Command, Refusal, Told, COMMANDS};

/// The statuses that are no numbers of the definition.
pub const STATUSES: [(u8, &str); 5] = [
    (0, "It is done."),
    (1, "A fault of the command line or of the file system: nothing was changed."),
    (2, "What was asked for counts, but something after it could not be done: the line says what."),
    (3, "Nothing was begun, since an earlier import is unfinished: register recover."),
    (4, "Nothing was begun, since another holds the register for longer than --wait."),
];

const STATUS: &str = "\
Exit status: 0, or the definition's number of the stop or refusal, or 1 for a fault of the command line or of the file
system, 2 where what was asked for counts but something after it could not be done, 3 where nothing was begun since an
earlier import is unfinished, 4 where another holds the register for longer than --wait. One line on standard error says the
number and what it means. Where the status is not 0, nothing was changed unless that line says so.
";

/// The command's words and options, in their order.
pub fn usage(command: &Command) -> String {
    let options = command.options.iter().filter_map(|option| option.usage());
    let words = command.words.iter().map(|word| word.to_string());
    [command.name.to_string()].into_iter().chain(options).chain(words).collect::<Vec<String>>().join(" ")
}

/// The usage of each option that suffices by itself, and what it does.
pub fn others(command: &Command) -> impl Iterator<Item = (String, &'static str)> + '_ {
    command.alone().map(|option| (format!("{} {}", command.name, option.usage()), option.about))
}

/// All its usages.
pub fn usages(command: &Command) -> impl Iterator<Item = String> + '_ {
    [usage(command)].into_iter().chain(others(command).map(|(usage, _)| usage))
}

fn options(command: &Command) -> String {
    let line = |(usage, about)| format!("  {usage:<28} {about}\n");
    command.takes().map(|option| (option.usage(), option.about)).map(line).collect()
}

pub fn of(command: &Command) -> Told {
    let usages: String = usages(command).map(|usage| format!("graftspindle {usage}\n")).collect();
    Told::new(format!("{usages}\n{}\n{}\n{STATUS}", command.help, options(command)))
}

fn all() -> Told {
    let usages = COMMANDS.iter().flat_map(|command| usages(command));
    let usages: String = usages.map(|usage| format!("  graftspindle {usage}\n")).collect();
    let head = "The account register of a group of toll roads.";
    Told::new(format!("{head}\n\n{usages}\nEach has a --help of its own, and takes --json.\n\n{STATUS}"))
}

/// As cargo knows it.
fn version() -> Told {
    let version = env!("CARGO_PKG_VERSION");
    Told::new(format!("graftspindle {version}\n")).with("version", version)
}

pub fn is_asked(word: &OsString) -> bool {
    word == "--help" || word == "-h"
}

/// Help where it is asked for, of all or of one, else what can be said.
pub fn without_command(given: &[OsString]) -> Answer {
    match given {
        [word, ..] if word == "--version" || word == "-V" => Ok(version()),
        [word] if word == "help" || is_asked(word) => Ok(all()),
        [word, rest @ ..] if word == "help" || is_asked(word) => {
            named(rest).map(|(command, _)| of(command)).ok_or_else(|| unknown(rest))
        }
        _ if given.iter().any(is_asked) => Ok(all()),
        _ => Err(unknown(given)),
    }
}

fn unknown(given: &[OsString]) -> Refusal {
    let words: Vec<_> = given.iter().map(|word| word.to_string_lossy()).collect();
    let fault = match words.is_empty() {
        true => "a command is missing".to_string(),
        false => format!("there is no command {}", words.join(" ")),
    };
    Refusal::Fault(format!("{fault}; graftspindle --help lists them"))
}
