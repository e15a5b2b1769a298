//! What the journal for the audit is told of a command that changes a register or copy, and what an import can tell from it.

use super::arguments::Arguments;
use super::json::{Fields, Json};
use super::options::JOURNAL;
use super::{clock, texts, warn, Answer, Refusal};
use crate::audit::{self, Journal};
use crate::digest;
use crate::files::{Fault, Held};

/// The line of one command, as far as it has come.
#[derive(Default)]
pub struct Entry<'a> {
    fields: Fields,
    journal: Option<Journal>,
    warnings: Vec<String>,
    /// Whose lock stays until the line is written, so that the lines are in the order of the imports.
    held: Option<Held<'a>>,
}

fn text(bytes: Vec<u8>) -> String {
    String::from_utf8_lossy(&bytes).into_owned()
}

impl<'a> Entry<'a> {
    pub fn hold(&mut self, held: Held<'a>) {
        self.held = Some(held);
    }

    /// Says this of the command; the last word on a field counts.
    pub fn say(&mut self, name: &'static str, value: impl Into<Json>) {
        self.fields.retain(|(known, _)| *known != name);
        self.fields.push((name, value.into()));
    }

    pub fn digest(&mut self, name: &'static str, bytes: &[u8]) {
        self.say(name, digest::of(bytes).to_string());
    }

    /// The register or copy as it is found; it stays so unless another digest follows.
    pub fn begin(&mut self, register: &str, bytes: &[u8]) {
        self.say("register", register);
        self.digest("before", bytes);
        self.digest("after", bytes);
    }

    pub fn hgv(&mut self, bytes: &[u8]) {
        self.say("sender", texts::sender(bytes));
        self.say("list", texts::list(bytes));
        self.say("previous", texts::previous(bytes));
        self.digest("hgv", bytes);
    }

    /// Makes the register or copy new, and says these counts where it then counts.
    pub fn replace(&mut self, held: Held<'a>, after: &[u8], counts: &[(&'static str, u64)]) -> Result<(), Fault> {
        let replaced = held.replace(after, None);
        if matches!(replaced, Ok(()) | Err(Fault::Counts(_))) {
            counts.iter().for_each(|&(name, count)| self.say(name, count));
            self.digest("after", after);
        }
        self.hold(held);
        replaced
    }

    fn told(&self, name: &str) -> &str {
        match self.fields.iter().find(|(known, _)| *known == name) {
            Some((_, Json::Text(text))) => text,
            _ => "",
        }
    }

    /// The lines of the journal that changed this register or copy.
    fn that_counted(&self, earlier: &str) -> Vec<String> {
        let counts = |line: &&str| matches!(audit::number(line, "status"), Some(0 | 2));
        let here = |line: &&str| audit::text(line, "register") == Some(self.told("register"));
        earlier.lines().filter(counts).filter(here).map(str::to_string).collect()
    }

    /// What the journal makes doubtful about the list. Nothing is refused for it.
    pub fn compare(&mut self) -> Result<(), Refusal> {
        let Some(journal) = &mut self.journal else {
            return Ok(());
        };
        let earlier = journal.read()?;
        let lines = self.that_counted(&earlier);
        let (sender, list, previous) = (self.told("sender"), self.told("list"), self.told("previous"));
        let of_sender = |line: &&str| audit::text(line, "sender") == Some(sender);
        let mut warnings = Vec::new();
        let of_sender: Vec<&str> = lines.iter().map(String::as_str).filter(of_sender).collect();
        if let Some(line) = of_sender.iter().find(|line| audit::text(line, "list") == Some(list)) {
            let at = audit::text(line, "at").unwrap_or_default();
            warnings.push(format!("the list {list} was imported before, at {at}"));
        }
        let last = of_sender.last().and_then(|line| audit::text(line, "list"));
        if let Some(last) = last.filter(|last| *last != previous) {
            warnings.push(format!("the list {list} follows {previous}, but the last one of {sender} was {last}"));
        }
        let known = lines.last().and_then(|line| audit::text(line, "after"));
        if known.is_some_and(|known| known != self.told("before")) {
            warnings.push("the register is not the one that the journal's last line left".to_string());
        }
        self.warnings = warnings;
        Ok(())
    }

    fn line(&self, command: &'static str, answer: &Answer) -> String {
        let (status, words) = match answer {
            Ok(_) => (0, None),
            Err(refusal) => (refusal.status(), Some(("words", refusal.words().into()))),
        };
        let mut fields: Fields = vec![("at", text(clock::now()).into()), ("command", command.into())];
        fields.push(("status", u64::from(status).into()));
        fields.extend(self.fields.clone());
        fields.extend(words);
        let warnings: Vec<Json> = self.warnings.iter().map(|words| words.as_str().into()).collect();
        fields.extend((!warnings.is_empty()).then_some(("warnings", Json::List(warnings))));
        Json::Object(fields).to_string()
    }
}

/// Does the work, with a line in the journal where one is given: the journal is opened before anything is done.
pub fn kept<'a>(given: &Arguments, command: &'static str, work: impl FnOnce(&mut Entry<'a>) -> Answer) -> Answer {
    let journal = given.path_if_given(&JOURNAL).map(Journal::open).transpose()?;
    let mut entry = Entry { journal, ..Entry::default() };
    let answer = work(&mut entry);
    if answer.is_ok() {
        entry.warnings.iter().for_each(|words| warn(words));
    }
    let line = entry.line(command, &answer);
    match (entry.journal.map_or(Ok(()), |mut journal| journal.append(&line)), answer) {
        (Ok(()), answer) => answer,
        (Err(fault), Ok(told)) => {
            let done = told.text.lines().next().unwrap_or("done");
            Err(Refusal::Counts(format!("{done}; but the journal has no line of it: {fault}")))
        }
        (Err(fault), Err(refusal)) => {
            warn(&format!("the journal has no line of this: {fault}"));
            Err(refusal)
        }
    }
}
