//! The accounts of a CSV file: each field by the name over its column, as the writer takes it. A refusal names the file's
//! line and the field.

use super::fields::{Field, Misfit, FIELDS, PAN};
use crate::command::input::Input;
use crate::command::Refusal;
use crate::csv::{self, Record};
use graftspindle::sizes::ACCOUNT;
use graftspindle::Number;

pub struct Accounts {
    /// What the file is called.
    pub name: String,
    /// One behind the other, as the writer takes them.
    pub bytes: Vec<u8>,
    records: Vec<Record>,
    /// Where each field stands in a record, in the order of `FIELDS`.
    places: Vec<usize>,
}

/// As many characters of a value are shown.
const SHOWN: usize = 40;

impl Accounts {
    /// Refused where it is no CSV file (1), or where a value has no place in its column (61).
    pub fn of(csv: &Input) -> Result<Accounts, Refusal> {
        let fault = |words: String| Refusal::Fault(format!("{}: {words}", csv.name));
        if csv.bytes.len() > csv::MOST {
            return Err(fault(format!("more than {} bytes are no list of accounts", csv::MOST)));
        }
        let mut records = csv::records(&csv.bytes).map_err(fault)?;
        if records.is_empty() {
            return Err(fault("there is no line with the names of the fields".to_string()));
        }
        let names = records.remove(0);
        let places = places(&names).map_err(fault)?;
        records.retain(|record| record.fields.iter().any(|value| !value.is_empty()));
        records.iter().try_for_each(|record| as_many(record, names.fields.len())).map_err(fault)?;
        let mut accounts = Accounts { name: csv.name.clone(), bytes: Vec::new(), records, places };
        accounts.bytes = accounts.filled()?;
        Ok(accounts)
    }

    fn filled(&self) -> Result<Vec<u8>, Refusal> {
        let mut bytes = Vec::with_capacity(self.records.len() * ACCOUNT);
        for account in 0..self.records.len() {
            for field in &FIELDS {
                let column = field.filled(self.value(account, field));
                bytes.extend(column.map_err(|misfit| self.misfit(account, field, misfit))?);
            }
        }
        Ok(bytes)
    }

    pub fn count(&self) -> usize {
        self.records.len()
    }

    /// The line of the file in which the account begins.
    pub fn line(&self, account: usize) -> usize {
        self.records[account].line
    }

    pub fn value(&self, account: usize, field: &Field) -> &str {
        let place = FIELDS.iter().position(|known| known.name == field.name);
        &self.records[account].fields[self.places[place.expect("it is a field of the table")]]
    }

    /// What is said of a field that breaks its rule: line, field, value, and what would be right.
    pub fn told(&self, account: usize, field: &Field) -> String {
        let (value, expected) = (self.value(account, field), field.expected());
        let at = format!("{} line {}, {} {}", self.name, self.line(account), field.name, shown(value));
        format!("{at}, expected in {expected}{}", hint(field, value))
    }

    fn misfit(&self, account: usize, field: &Field, misfit: Misfit) -> Refusal {
        let why = match misfit {
            Misfit::Long => "; it is longer than the column".to_string(),
            Misfit::Lacks(c) => format!("; ISO 8859-1 lacks the character {}", shown(&c.to_string())),
        };
        Refusal::Number(Number::Given, self.told(account, field) + &why)
    }
}

fn as_many(record: &Record, names: usize) -> Result<(), String> {
    match record.fields.len() {
        fields if fields == names => Ok(()),
        fields => Err(format!("line {} has {fields} fields, and the line of names {names}", record.line)),
    }
}

/// In quotes, on one line, and not endless.
fn shown(value: &str) -> String {
    let visible: String = value.chars().take(SHOWN).map(|c| if c.is_control() { '?' } else { c }).collect();
    let rest = if value.chars().count() > SHOWN { ".." } else { "" };
    format!("\"{visible}{rest}\"")
}

/// A spreadsheet takes a long number for a quantity, and rounds it. E is a digit of other fields than the PAN.
fn hint(field: &Field, value: &str) -> &'static str {
    let is_number = value.chars().all(|c| c.is_ascii_digit() || "+-.,Ee ".contains(c));
    let signs: &[char] = if field.name == PAN.name { &['.', ',', 'E', 'e'] } else { &['.', ',', '+'] };
    match is_number && value.contains(signs) {
        true => {
            "; a spreadsheet may have made a number of it, as 9.8E+15: give the column the format text and enter it anew"
        }
        false => "",
    }
}

/// The names without regard to capitals and to blanks around them.
fn names(record: &Record) -> Vec<String> {
    record.fields.iter().map(|name| name.trim().to_lowercase()).collect()
}

fn places(record: &Record) -> Result<Vec<usize>, String> {
    let names = names(record);
    let times = |field: &Field| names.iter().filter(|name| *name == field.name).count();
    let of_times =
        |wanted: fn(usize) -> bool| FIELDS.iter().filter(move |field| wanted(times(field))).map(|field| field.name);
    let unknown = names.iter().filter(|name| FIELDS.iter().all(|field| field.name != *name)).map(|name| shown(name));
    let faults = [
        ("names that are no fields", unknown.collect::<Vec<String>>()),
        ("fields that are missing", of_times(|times| times == 0).map(str::to_string).collect()),
        ("fields that stand more than once", of_times(|times| times > 1).map(str::to_string).collect()),
    ];
    let faults = faults.iter().filter(|(_, names)| !names.is_empty());
    let faults: Vec<String> = faults.map(|(words, names)| format!("{words}: {}", names.join(", "))).collect();
    if !faults.is_empty() {
        let template = "graftspindle write --template prints the names";
        return Err(format!("line {} must name each field once; {}; {template}", record.line, faults.join("; ")));
    }
    Ok(FIELDS.iter().filter_map(|field| names.iter().position(|name| name == field.name)).collect())
}
