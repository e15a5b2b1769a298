//! `completions`: what a shell completes, made from the same table as parsing and help.

use super::arguments::Arguments;
use super::options::{Kind, Opt, HELP};
use super::{Answer, Command, Refusal, Told, COMMANDS};
use crate::files::Disk;

pub static COMPLETIONS: Command = Command {
    name: "completions",
    options: &[],
    words: &["bash|zsh|fish"],
    help: "\
Writes what the shell completes behind graftspindle, for it to read: source <(graftspindle completions bash), or the same with
zsh; graftspindle completions fish | source.
",
    run,
};

fn takes(command: &'static Command) -> impl Iterator<Item = &'static Opt> {
    command.takes().chain([&HELP])
}

/// The words that may stand behind these, where a command's name is not whole yet.
fn next_words(front: &[&str]) -> Vec<&'static str> {
    let names = COMMANDS.iter().map(|command| command.name.split(' ').collect::<Vec<&str>>());
    let next = names.filter(|name| name.starts_with(front)).filter_map(|name| name.get(front.len()).copied());
    let mut next: Vec<&str> = next.collect();
    next.dedup();
    next
}

/// The first words of the names that have two.
fn groups() -> Vec<&'static str> {
    let mut first: Vec<&str> = COMMANDS.iter().filter_map(|command| Some(command.name.split_once(' ')?.0)).collect();
    first.dedup();
    first
}

fn bash_values() -> String {
    let all = COMMANDS.iter().flat_map(|command| command.takes());
    let one_of = |option: &Opt| match option.value {
        Some((_, Kind::OneOf(words))) => {
            let words = words.join(" ");
            Some(format!("    --{}) words=\"{words}\" ;;\n", option.name))
        }
        _ => None,
    };
    let mut cases: Vec<String> = all.filter_map(one_of).collect();
    cases.sort();
    cases.dedup();
    cases.concat()
}

fn bash() -> String {
    let of_command = |command: &&'static Command| {
        let options: Vec<String> = takes(command).map(|option| format!("--{}", option.name)).collect();
        format!("    \"{} \"*) words=\"{}\" ;;\n", command.name, options.join(" "))
    };
    let commands: String = COMMANDS.iter().map(of_command).collect();
    let of_group = |group: &&str| format!("    \"{group} \"*) words=\"{}\" ;;\n", next_words(&[group]).join(" "));
    let groups: String = groups().iter().map(of_group).collect();
    let (values, first) = (bash_values(), next_words(&[]).join(" "));
    format!(
        r#"_graftspindle() {{
  local current=${{COMP_WORDS[COMP_CWORD]}} words=
  case ${{COMP_WORDS[COMP_CWORD-1]}} in
{values}  esac
  if [ -z "$words" ]; then
    case "${{COMP_WORDS[*]:1:COMP_CWORD-1}} " in
{commands}{groups}    " ") words="{first} --version --help" ;;
    esac
  fi
  COMPREPLY=($(compgen -W "$words" -- "$current"))
  [ ${{#COMPREPLY[@]}} -gt 0 ] || COMPREPLY=($(compgen -f -- "$current"))
}}
complete -o filenames -F _graftspindle graftspindle
"#
    )
}

fn fish_option(condition: &str, option: &Opt) -> String {
    let value = match option.value {
        None => String::new(),
        Some((_, Kind::File)) => " -r -F".to_string(),
        Some((_, Kind::Text)) => " -x".to_string(),
        Some((_, Kind::OneOf(words))) => format!(" -x -a '{}'", words.join(" ")),
    };
    let about = option.about.replace('\'', "\\'");
    format!("complete -c graftspindle -n '{condition}' -l {}{value} -d '{about}'\n", option.name)
}

fn fish_command(command: &'static Command) -> String {
    let seen = |word: &str| format!("__fish_seen_subcommand_from {word}");
    let condition: Vec<String> = command.name.split(' ').map(seen).collect();
    takes(command).map(|option| fish_option(&condition.join("; and "), option)).collect()
}

fn fish() -> String {
    let first = next_words(&[]).join(" ");
    let names = format!("complete -c graftspindle -n __fish_use_subcommand -f -a '{first}'\n");
    let of_group = |group: &&str| {
        let (words, seen) = (next_words(&[group]).join(" "), format!("__fish_seen_subcommand_from {group}"));
        format!("complete -c graftspindle -n '{seen}; and not __fish_seen_subcommand_from {words}' -f -a '{words}'\n")
    };
    let groups: String = groups().iter().map(of_group).collect();
    names + &groups + &COMMANDS.iter().map(|command| fish_command(command)).collect::<String>()
}

fn run(_disk: &dyn Disk, given: &Arguments) -> Answer {
    let [shell] = given.rest()?;
    match shell.to_str() {
        Some("bash") => Ok(Told::new(bash())),
        Some("zsh") => Ok(Told::new(format!("autoload -U +X bashcompinit && bashcompinit\n{}", bash()))),
        Some("fish") => Ok(Told::new(fish())),
        _ => Err(Refusal::Fault(format!("{} is not bash, zsh or fish", shell.to_string_lossy()))),
    }
}
