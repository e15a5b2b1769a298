//! `manual`: the manual page, made from the same table as parsing and help.

use super::arguments::Arguments;
use super::help::{others, usage, STATUSES};
use super::options::{Opt, HELP};
use super::{Answer, Command, Told, COMMANDS};
use crate::files::Disk;
use graftspindle::Number;

pub static MANUAL: Command = Command {
    name: "manual",
    options: &[],
    words: &[],
    help: "Writes the manual page, for man: graftspindle manual > /usr/local/share/man/man1/graftspindle.1\n",
    run,
};

/// Text that troff takes as it is.
fn plain(text: &str) -> String {
    text.replace('\\', "\\e").replace('-', "\\-").lines().map(line).collect()
}

fn line(text: &str) -> String {
    let guard = if text.starts_with(['.', '\'']) { "\\&" } else { "" };
    format!("{guard}{text}\n")
}

fn entry(head: &str, text: &str) -> String {
    format!(".TP\n.B {}{}", plain(head), plain(text))
}

fn of_command(command: &Command) -> String {
    let others: String = others(command).map(|(usage, about)| entry(&usage, about)).collect();
    entry(&usage(command), command.help) + &others
}

/// Each option of all commands, once.
fn options() -> Vec<&'static Opt> {
    let mut all: Vec<&Opt> = COMMANDS.iter().flat_map(|command| command.takes()).chain([&HELP]).collect();
    all.sort_by_key(|option| option.name);
    all.dedup_by_key(|option| option.name);
    all
}

fn statuses() -> String {
    let own = STATUSES.iter().map(|(status, words)| entry(&status.to_string(), words));
    let numbers = (0..=u64::from(u8::MAX)).filter_map(|number| Number::try_from(number).ok());
    own.chain(numbers.map(|number| entry(&number.number().to_string(), number.words()))).collect()
}

fn run(_disk: &dyn Disk, given: &Arguments) -> Answer {
    let [] = given.rest()?;
    let commands: String = COMMANDS.iter().map(|command| of_command(command)).collect();
    let options: String = options().into_iter().map(|option| entry(&option.usage(), option.about)).collect();
    let version = env!("CARGO_PKG_VERSION");
    Ok(Told::new(format!(
        ".TH GRAFTSPINDLE 1 \"\" \"graftspindle {version}\"\n.SH NAME\ngraftspindle \\- the account register of a group of \
         toll roads\n.SH SYNOPSIS\n.B graftspindle\n.I command\n[options] [words]\n.SH COMMANDS\n{commands}.SH OPTIONS\n\
         {options}.SH EXIT STATUS\n{}",
        statuses()
    )))
}
