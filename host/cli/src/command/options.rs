//! The options of all commands, each once: parsing, help, the manual page and the shells' completions come from here.

/// What can be completed behind an option.
#[derive(Clone, Copy, Debug, PartialEq, Eq)]
pub enum Kind {
    /// A file's name.
    File,
    /// One of these words.
    OneOf(&'static [&'static str]),
    /// Nothing that a shell knows.
    Text,
}

/// An option, and what its value is called where it takes one.
#[derive(Debug)]
pub struct Opt {
    /// Without the hyphens.
    pub name: &'static str,
    /// What its value is called, and what it can be.
    pub value: Option<(&'static str, Kind)>,
    /// What it is for, in a sentence.
    pub about: &'static str,
}

/// How a command takes an option.
#[derive(Clone, Copy, Debug)]
pub enum Use {
    /// Without it the command is refused.
    Needed(&'static Opt),
    /// It may be missing.
    Optional(&'static Opt),
    /// It suffices by itself: beside it nothing is needed and nothing is taken.
    Alone(&'static Opt),
}

impl Use {
    /// The option itself.
    pub fn option(self) -> &'static Opt {
        let (Use::Needed(option) | Use::Optional(option) | Use::Alone(option)) = self;
        option
    }

    /// As the usage has it: `--hgc OUT`, `[--force]`; none where it has a usage of its own.
    pub fn usage(self) -> Option<String> {
        match self {
            Use::Needed(option) => Some(option.usage()),
            Use::Optional(option) => Some(format!("[{}]", option.usage())),
            Use::Alone(_) => None,
        }
    }
}

impl Opt {
    /// `--hgc OUT`.
    pub fn usage(&self) -> String {
        match self.value {
            Some((value, _)) => format!("--{} {value}", self.name),
            None => format!("--{}", self.name),
        }
    }
}

const MODES: &[&str] = &["incremental", "full"];
const MOMENT: &str = "YYYYMMDDhhmmss";

/// A row: the constant, the option's name, its value and what that can be where it takes one, and what it is for.
macro_rules! option {
    ($constant:ident, $name:literal, $about:literal) => {
        #[doc = $about]
        pub static $constant: Opt = Opt { name: $name, value: None, about: $about };
    };
    ($constant:ident, $name:literal, $value:expr, $kind:expr, $about:literal) => {
        #[doc = $about]
        pub static $constant: Opt = Opt { name: $name, value: Some(($value, $kind)), about: $about };
    };
}

option!(REGISTER, "register", "R", Kind::File, "The register.");
option!(COPY, "copy", "C", Kind::File, "The provider's copy of his part of the register.");
option!(ISSUERS, "issuers", "ROWS", Kind::File, "The issuer rows, 24 bytes each.");
option!(MODE, "mode", "incremental|full", Kind::OneOf(MODES), "The mode of the list.");
option!(RECEIVED, "received", MOMENT, Kind::Text, "The moment of reception, UTC; the present one unless given.");
option!(
    OFFSET,
    "offset",
    "+HH:MM",
    Kind::Text,
    "Local time less UTC, from -12:00 to +14:00, by which the HGC shows the reception; +00:00 unless given."
);
option!(HGC, "hgc", "OUT", Kind::File, "Where the confirmation is written.");
option!(AT, "at", MOMENT, Kind::Text, "The time that is asked for or swept at, UTC; the present one unless given.");
option!(SLOTS, "slots", "N", Kind::Text, "How many slots there are.");
option!(
    WAIT,
    "wait",
    "SECONDS",
    Kind::Text,
    "How long another command that holds the file is waited for; as long as it takes unless given."
);
option!(JOURNAL, "journal", "J", Kind::File, "The journal for the audit, which gets a line of JSON for this command.");
option!(SENDER, "sender", "S", Kind::Text, "The provider whose list it is: six digits.");
option!(VERSION, "version", "V", Kind::Text, "The version of the list: 120001 or 220001.");
option!(DATE, "date", "D", Kind::Text, "The date of the list, YYYYMMDD.");
option!(NUMBER, "number", "N", Kind::Text, "The number of the list within its date, 1 to 99.");
option!(PREVIOUS, "previous", "LIST", Kind::Text, "The list before it, as HGV9001232025031001; none unless given.");
option!(
    CREATED,
    "created",
    "T",
    Kind::Text,
    "The moment of creation, YYYYMMDDhhmmss; the present one, UTC, unless given."
);
option!(HGV, "hgv", "OUT", Kind::File, "Where the list is written.");
option!(TEMPLATE, "template", "Prints a CSV file to begin with: the names of the fields, and three accounts.");
option!(
    FORCE,
    "force",
    "Does what is refused without it: replaces a file of another kind, sweeps at a time that lies ahead."
);
option!(PLAIN, "plain", "Searches without an index: the same answer, register and HGC, later.");
option!(WEIGHTS, "weights", "Only the records whose weight a line of their tariff cannot have, as a list.");
option!(LISTS, "lists", "Counts the records by the list that touched each last.");
option!(REJECTED, "rejected", "Only the lines that were rejected.");
option!(LINE_NUMBER, "line", "N", Kind::Text, "That line alone, counted from 1.");
option!(DRY_RUN, "dry-run", "Says how many records would go, and changes nothing.");
option!(DISCARD, "discard", "Removes what was left, with an HGC that is still owed.");
option!(JSON, "json", "Answers by one line of JSON, at a refusal too.");
option!(HELP, "help", "Says what the command does; -h does too.");
