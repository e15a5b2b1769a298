//! What a command has to say: for people, and as fields for programs.

use super::json::{Fields, Json};
use super::Answer;

/// An answer in both forms.
#[derive(Clone, Debug, Default, PartialEq, Eq)]
pub struct Told {
    /// For people: lines.
    pub text: String,
    /// For programs.
    pub fields: Fields,
}

impl Told {
    /// Lines, without a field yet.
    pub fn new(text: String) -> Told {
        Told { text, fields: Fields::new() }
    }

    /// One line of JSON; where there are no fields, with what is for people.
    fn json(&self) -> Json {
        let beside = self.fields.is_empty().then(|| ("text", self.text.as_str().into()));
        Json::Object([("status", 0u64.into())].into_iter().chain(self.fields.clone()).chain(beside).collect())
    }

    /// One field more.
    pub fn with(mut self, name: &'static str, value: impl Into<Json>) -> Told {
        self.fields.push((name, value.into()));
        self
    }
}

/// What standard output gets: for people nothing at a refusal, which standard error has.
pub fn output(answer: &Answer, json: bool) -> String {
    match (answer, json) {
        (Ok(told), false) => told.text.clone(),
        (Err(_), false) => String::new(),
        (Ok(told), true) => format!("{}\n", told.json()),
        (Err(refusal), true) => {
            let status = Json::Number(u64::from(refusal.status()));
            format!("{}\n", Json::Object(vec![("status", status), ("words", refusal.words().into())]))
        }
    }
}
