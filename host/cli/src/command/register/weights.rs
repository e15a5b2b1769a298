//! `register show --weights`: the records with a tariff and a weight that no line can have together. Which these are is asked
//! of the writer.

use super::list::{row, Table, NAMES};
use crate::command::by_field::kilograms;
use crate::command::json::Json;
use crate::command::write::{Weights, TARIFF, WEIGHT};
use crate::command::{hints, texts, Answer, Refusal, Told};
use graftspindle::{Register, Slot};

/// What is told of such a record beside what is told of every record.
const BESIDE: [&str; 4] = ["tariff", "weight", "kg_from", "kg_to"];

fn beside(slot: Slot) -> [Json; 4] {
    let (tariff, weight) = (texts::shown(TARIFF.of(slot.record())), texts::shown(WEIGHT.of(slot.record())));
    let [from, to] = match kilograms(&weight) {
        Some((from, to)) => [from.into(), to.into()],
        None => [Json::Nothing, Json::Nothing],
    };
    [tariff.into(), weight.into(), from, to]
}

/// Every record has its row first, so that a time which is not real is refused here too.
fn listed(register: &Register, time: &[u8]) -> Result<Table, Refusal> {
    let (mut weights, mut rows) = (Weights::new(), Vec::new());
    for (place, slot) in register.records().enumerate() {
        let row = row(place, slot, time)?;
        if weights.are_refused(slot.record()) {
            rows.push(row.into_iter().chain(beside(slot)).collect());
        }
    }
    Ok(Table { names: NAMES.into_iter().chain(BESIDE).collect(), rows })
}

/// Of a register in order.
pub fn told(register: &Register, time: &[u8]) -> Answer {
    let (table, used) = (listed(register, time)?, register.records().count());
    let (records, count) = (hints::parts(used, "record"), table.rows.len());
    let text = match count {
        0 => format!("listed none of {records}: a line of the tariff can have the weight of each\n"),
        _ => format!("{}listed {count} of {records}: no line of the tariff can have the weight\n", table.csv()),
    };
    Ok(Told::new(text).with("used", used).with("listed", count).with("records", table.json()))
}
