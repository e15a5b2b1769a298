//! `register show --lists`: which list touched how many records.

use std::collections::BTreeMap;

use super::list::Table;
use crate::command::{texts, Told};
use graftspindle::Register;

const NAMES: [&str; 4] = ["list", "records", "first_received", "last_received"];

/// How many records, and the receptions of the first and of the last. A list that was imported twice has two.
type Touched = (usize, String, String);

/// By the list's sequence: so by its sender, its date and its number.
fn counted(register: &Register) -> BTreeMap<String, Touched> {
    let mut lists: BTreeMap<String, Touched> = BTreeMap::new();
    for slot in register.records() {
        let received = texts::shown(slot.received());
        let list = lists.entry(texts::shown(slot.list()));
        let (records, first, last) = list.or_insert((0, received.clone(), received.clone()));
        *records += 1;
        // For real times the order of texts is that of time.
        *first = first.clone().min(received.clone());
        *last = last.clone().max(received);
    }
    lists
}

/// Of a register in order.
pub fn told(register: &Register) -> Told {
    let row = |(list, (records, first, last)): (String, Touched)| {
        vec![list.into(), records.into(), first.into(), last.into()]
    };
    let rows = counted(register).into_iter().map(row).collect();
    let (table, used) = (Table { names: NAMES.to_vec(), rows }, register.records().count());
    let shown = if table.rows.is_empty() { String::new() } else { table.csv() };
    let text = format!("{shown}lists {}, records {used}\n", table.rows.len());
    Told::new(text).with("used", used).with("listed", table.rows.len()).with("lists", table.json())
}
