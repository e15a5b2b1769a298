//! The words behind a command: options, with a value or without, and the rest.

use std::ffi::{OsStr, OsString};
use std::os::unix::ffi::OsStrExt;
use std::path::Path;
use std::time::Duration;

use super::help::usages;
use super::options::{Opt, JSON, WAIT};
use super::{Command, Refusal};

/// What was given behind a command.
pub struct Arguments {
    options: Vec<(&'static Opt, OsString)>,
    rest: Vec<OsString>,
    command: &'static Command,
}

/// `--NAME` or `--NAME=VALUE`, without the hyphens.
fn option(word: &OsStr) -> Option<(String, Option<OsString>)> {
    let text = word.as_bytes().strip_prefix(b"--")?;
    let mut parts = text.splitn(2, |&byte| byte == b'=');
    let name = String::from_utf8_lossy(parts.next()?).into_owned();
    Some((name, parts.next().map(|value| OsStr::from_bytes(value).to_os_string())))
}

/// `-x`: there are no options of one letter but `-h`. A hyphen alone is standard input.
fn is_short(word: &OsStr) -> bool {
    word.len() > 1 && word.as_bytes()[0] == b'-'
}

impl Arguments {
    /// Refused where an option is not the command's, stands twice or lacks its value, or where something stands beside one
    /// that suffices by itself.
    pub fn parse(command: &'static Command, given: &[OsString]) -> Result<Arguments, Refusal> {
        let mut parsed = Arguments { options: Vec::new(), rest: Vec::new(), command };
        let mut words = given.iter();
        while let Some(word) = words.next() {
            match option(word) {
                None if is_short(word) => return Err(parsed.fault(&format!("there is no option {}", word.display()))),
                None => parsed.rest.push(word.clone()),
                Some((name, None)) if name.is_empty() => parsed.rest.extend(words.by_ref().cloned()),
                Some((name, value)) => parsed.add(&name, value, &mut words)?,
            }
        }
        parsed.alone().map(|()| parsed)
    }

    /// The form of the answer may be asked for beside every option.
    fn alone(&self) -> Result<(), Refusal> {
        let Some(alone) = self.command.alone().find(|option| self.is_given(option)) else {
            return Ok(());
        };
        let others = self.options.iter().filter(|(option, _)| ![alone.name, JSON.name].contains(&option.name));
        match others.count() + self.rest.len() {
            0 => Ok(()),
            _ => Err(self.fault(&format!("beside --{} nothing else is taken", alone.name))),
        }
    }

    fn add<'a>(
        &mut self,
        name: &str,
        value: Option<OsString>,
        words: &mut impl Iterator<Item = &'a OsString>,
    ) -> Result<(), Refusal> {
        let known = self.command.takes().find(|option| option.name == name);
        let option = known.ok_or_else(|| self.fault(&format!("there is no option --{name}")))?;
        let value = match (option.value, value) {
            (None, None) => OsString::new(),
            (None, Some(_)) => return Err(self.fault(&format!("--{name} takes no value"))),
            (Some(_), Some(value)) => value,
            (Some(_), None) => {
                let next = words.next().filter(|word| self::option(word).is_none());
                next.cloned().ok_or_else(|| self.fault(&format!("--{name} lacks its value")))?
            }
        };
        if self.is_given(option) {
            return Err(self.fault(&format!("--{name} stands twice")));
        }
        self.options.push((option, value));
        Ok(())
    }

    fn fault(&self, words: &str) -> Refusal {
        let usages: Vec<String> = usages(self.command).map(|usage| format!("graftspindle {usage}")).collect();
        Refusal::Fault(format!("{words}; usage: {}", usages.join(", or ")))
    }

    fn value(&self, option: &Opt) -> Option<&OsStr> {
        self.options.iter().find(|(known, _)| known.name == option.name).map(|(_, value)| value.as_os_str())
    }

    fn needed(&self, option: &Opt) -> Result<&OsStr, Refusal> {
        self.value(option).ok_or_else(|| self.fault(&format!("--{} is missing", option.name)))
    }

    /// Whether the option is among them.
    pub fn is_given(&self, option: &Opt) -> bool {
        self.value(option).is_some()
    }

    /// Its value as a file's name; refused where it is missing.
    pub fn path(&self, option: &Opt) -> Result<&Path, Refusal> {
        self.needed(option).map(Path::new)
    }

    /// The same where it may be missing.
    pub fn path_if_given(&self, option: &Opt) -> Option<&Path> {
        self.value(option).map(Path::new)
    }

    /// Its value as text; refused where it is missing.
    pub fn text(&self, option: &Opt) -> Result<String, Refusal> {
        Ok(self.needed(option)?.to_string_lossy().into_owned())
    }

    /// The same where it may be missing.
    pub fn text_if_given(&self, option: &Opt) -> Option<String> {
        self.value(option).map(|value| value.to_string_lossy().into_owned())
    }

    /// How long another may be waited for; none is as long as it takes.
    pub fn wait(&self) -> Result<Option<Duration>, Refusal> {
        let seconds = |text: String| text.parse().map(Duration::from_secs).map_err(|_| text);
        let wait = self.text_if_given(&WAIT).map(seconds).transpose();
        wait.map_err(|text| self.fault(&format!("--wait {text} is not a number of seconds")))
    }

    /// What is no option: exactly so many words.
    pub fn rest<const N: usize>(&self) -> Result<[&OsStr; N], Refusal> {
        let words: Vec<&OsStr> = self.rest.iter().map(OsString::as_os_str).collect();
        words.try_into().map_err(|_| self.fault("a word is missing or too many"))
    }

    /// At most one word.
    pub fn rest_if_given(&self) -> Result<Option<&OsStr>, Refusal> {
        match &self.rest[..] {
            [] => Ok(None),
            [word] => Ok(Some(word)),
            _ => Err(self.fault("a word is too many")),
        }
    }
}
