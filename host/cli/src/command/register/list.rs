//! `register list`: the records as CSV.

use std::path::Path;

use super::show::is_active;
use crate::command::arguments::Arguments;
use crate::command::json::Json;
use crate::command::options::Use::Optional;
use crate::command::options::AT;
use crate::command::{beside, clock, hints, look, texts, Answer, Command, Refusal, Told};
use crate::files::Disk;
use graftspindle::Slot;

pub static LIST: Command = Command {
    name: "register list",
    options: &[Optional(&AT)],
    words: &["R"],
    help: "\
Lists the records of the register R as CSV, UTF-8, one line for each in the order of their slots, under a line of names.
Whether one is active is asked for the time, which is UTC and the present one unless it is given.
",
    run,
};

/// What is told of every record.
pub const NAMES: [&str; 9] = ["slot", "actor", "pan", "plate", "nationality", "context_mark", "obe", "end", "active"];

/// The same of this one.
pub fn row(place: usize, slot: Slot, time: &[u8]) -> Result<Vec<Json>, Refusal> {
    let record = slot.record();
    Ok(vec![
        place.into(),
        texts::actor(record).into(),
        texts::pan(record).into(),
        texts::plate(record).into(),
        texts::nationality(record).into(),
        texts::context_mark(record).into(),
        texts::obe(record).into(),
        texts::end(record).into(),
        is_active(slot, time).map_err(beside(texts::shown(time)))?.into(),
    ])
}

/// Rows under names.
pub struct Table {
    pub names: Vec<&'static str>,
    pub rows: Vec<Vec<Json>>,
}

impl Table {
    pub fn csv(&self) -> String {
        self.names.join(",") + "\n" + &self.rows.iter().map(|row| line(row)).collect::<String>()
    }

    pub fn json(self) -> Json {
        let object = |row: Vec<Json>| Json::Object(self.names.iter().copied().zip(row).collect());
        Json::List(self.rows.into_iter().map(object).collect())
    }
}

/// No field of a record in order has a comma, a quote or a line end.
fn line(row: &[Json]) -> String {
    let field = |value: &Json| match value {
        Json::Text(text) => text.clone(),
        other => other.to_string(),
    };
    row.iter().map(field).collect::<Vec<String>>().join(",") + "\n"
}

fn run(disk: &dyn Disk, given: &Arguments) -> Answer {
    let [path] = given.rest()?;
    let (register, name) = (look(disk, Path::new(path))?, Path::new(path).display());
    register.in_order().map_err(|_| hints::of_order(name, register.bytes()))?;
    let time = given.text_if_given(&AT).map_or_else(clock::now, String::into_bytes);
    let rows: Result<_, Refusal> =
        register.records().enumerate().map(|(place, slot)| row(place, slot, &time)).collect();
    let table = Table { names: NAMES.to_vec(), rows: rows? };
    Ok(Told::new(table.csv()).with("records", table.json()))
}
