//! The header, a line or the footer as it is shown: a ruler, the text, and a row for each field.

use super::table::{self, Field};
use crate::command::json::Json;

/// One of the three, and the fields that it has.
pub struct Part<'a> {
    pub heading: String,
    pub bytes: &'a [u8],
    pub fields: &'static [Field],
}

/// One column for each byte: LF has a sign of its own, and what cannot be shown is `?`.
fn visible(bytes: &[u8]) -> String {
    let show = |c: char| match c {
        '\n' => '␊',
        // The soft hyphen takes no column.
        '\u{ad}' => '?',
        c if c.is_control() => '?',
        c => c,
    };
    table::text(bytes).chars().map(show).collect()
}

/// Two lines over the text: the tens, each ending at its position, and the units.
fn ruler(length: usize) -> String {
    let tens: String = (1..=length / 10).map(|ten| format!("{:>10}", 10 * ten)).collect();
    let units: String = (1..=length).map(|position| (position % 10).to_string()).collect();
    format!("{tens}\n{units}\n")
}

/// `97-100`, or `48` alone, the first ending at the fourth column.
fn positions(field: &Field) -> String {
    let to = if field.from == field.to { String::new() } else { format!("-{}", field.to) };
    format!("{:>4}{to:<4}", field.from)
}

/// The widest of them, in columns.
fn widest(fields: &[Field], width: impl Fn(&Field) -> usize) -> usize {
    fields.iter().map(width).max().unwrap_or_default()
}

impl Part<'_> {
    fn row(&self, field: &Field) -> String {
        let name = widest(self.fields, |field| field.name.len());
        let value = widest(self.fields, |field| field.to + 1 - field.from);
        let words = field.words(self.bytes).unwrap_or_default();
        let shown = visible(field.value(self.bytes));
        let row = format!("{}  {:<name$}  {shown:<value$}  {words}", positions(field), field.name);
        format!("{}\n", row.trim_end())
    }

    /// For people.
    pub fn text(&self) -> String {
        let (ruler, line) = (ruler(self.bytes.len()), visible(self.bytes));
        let rows: String = self.fields.iter().map(|field| self.row(field)).collect();
        format!("{}\n{ruler}{line}\n{rows}\n", self.heading)
    }

    /// For programs: each field with its value as it is.
    pub fn json(&self) -> Json {
        let object = |field: &Field| {
            let words = field.words(self.bytes).map_or(Json::Nothing, Json::Text);
            Json::Object(vec![
                ("from", field.from.into()),
                ("to", field.to.into()),
                ("name", field.name.into()),
                ("value", table::text(field.value(self.bytes)).into()),
                ("words", words),
            ])
        };
        Json::List(self.fields.iter().map(object).collect())
    }
}
