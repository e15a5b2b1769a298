//! What is at fault where the writer refuses. Nothing is judged here: the writer is asked again with a list that it takes,
//! into which what was given is put piece by piece; the first piece with which it refuses is the one.

use super::accounts::Accounts;
use super::fields::{Field, FIELDS, PAN};
use super::model::{is_refused, row_of, Model, LIST};
use crate::command::input::Input;
use crate::command::options::{Opt, CREATED, DATE, NUMBER, PREVIOUS, SENDER, VERSION};
use crate::command::{hints, texts, Refusal};
use graftspindle::sizes::{ACCOUNT, LINES_MOST};
use graftspindle::{List, Number};

/// What can be said of the refusal.
pub fn explained(number: Number, list: &List, rows: &Input, accounts: &Accounts) -> Refusal {
    let words = match number {
        Number::SamePan => of_pans(list, accounts),
        _ => of_header(list).or_else(|| of_rows(list, rows)).unwrap_or_else(|| of_accounts(list, accounts)),
    };
    Refusal::Number(number, words)
}

fn of_header(list: &List) -> Option<String> {
    let (model_row, row) = (row_of(LIST.sender), row_of(list.sender));
    let version = List { version: list.version, rows: &model_row, ..LIST };
    let sender = List { sender: list.sender, rows: &row, ..version };
    let date = List { date: list.date, ..sender };
    let number = List { number: list.number, ..date };
    let previous = List { previous: list.previous, ..number };
    let creation = List { creation: list.creation, ..previous };
    let asked: [(List, &Opt, String, &str); 6] = [
        (version, &VERSION, list.version.to_string(), "120001 or 220001"),
        (sender, &SENDER, texts::shown(list.sender), "six digits"),
        (date, &DATE, texts::shown(list.date), "a real date YYYYMMDD"),
        (number, &NUMBER, list.number.to_string(), "1 to 99"),
        (
            previous,
            &PREVIOUS,
            texts::shown(list.previous),
            "a list of the same sender: HGV, the sender, a real date YYYYMMDD and 01 to 99; or HGV and 16 zeros for none",
        ),
        (creation, &CREATED, texts::shown(list.creation), "a real time YYYYMMDDhhmmss"),
    ];
    let fault = asked.into_iter().find(|(asked, ..)| is_refused(asked, Number::Given));
    fault.map(|(_, option, value, expected)| format!("--{} \"{value}\", expected: {expected}", option.name))
}

/// Their form is asked of the import, which has a number for it.
fn of_rows(list: &List, rows: &Input) -> Option<String> {
    if graftspindle::rows_in_form(list.rows).is_err() {
        return Some(format!("the issuer rows {} break their form", rows.name));
    }
    let (name, sender) = (&rows.name, texts::shown(list.sender));
    let without = List { accounts: b"", ..*list };
    let words = || format!("{name} has no row of {sender}, the sender; its actors: {}", hints::actors(rows));
    is_refused(&without, Number::Given).then(words)
}

/// The first account that is refused alone; where none is, there are too many.
fn of_accounts(list: &List, accounts: &Accounts) -> String {
    let alone = |account: &[u8]| is_refused(&List { accounts: account, ..*list }, Number::Given);
    match list.accounts.chunks(ACCOUNT).position(alone) {
        Some(account) => accounts.told(account, field(list, &list.accounts[account * ACCOUNT..][..ACCOUNT])),
        None => {
            let (name, count) = (&accounts.name, accounts.count());
            format!("{name} has {count} accounts, and no list has more than {LINES_MOST}")
        }
    }
}

/// The fields but for the PAN go into the model account, under its row, in their order: so what a weight or a separator has
/// to do with a field before it shows at the weight or the separator. Where the writer takes them all, it is the PAN.
fn field(list: &List, account: &[u8]) -> &'static Field {
    let mut model = Model::of(*list);
    let is_bad = |field: &&Field| {
        model.put(field, &account[field.column()]);
        model.is_refused()
    };
    FIELDS.iter().filter(|field| field.name != PAN.name).find(is_bad).unwrap_or(PAN)
}

/// The first account whose PAN stands before it, found by halving, and the one before it that has the same.
fn of_pans(list: &List, accounts: &Accounts) -> String {
    let same = |accounts: &[u8]| is_refused(&List { accounts, ..*list }, Number::SamePan);
    let all: Vec<usize> = (0..accounts.count()).collect();
    let account = |i: usize| &list.accounts[i * ACCOUNT..][..ACCOUNT];
    let second = all.partition_point(|&i| !same(&list.accounts[..(i + 1) * ACCOUNT]));
    let first = all.iter().position(|&i| same(&[account(i), account(second)].concat())).unwrap_or(second);
    let (name, pan) = (&accounts.name, accounts.value(second, PAN));
    format!("{name} lines {} and {}, pan \"{pan}\"", accounts.line(first), accounts.line(second))
}
