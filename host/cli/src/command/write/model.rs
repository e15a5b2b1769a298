//! A list that the writer takes, with one account in it. Columns are put into the account one by one, and the writer is asked
//! whether it refuses the list then. Nothing is judged here.

use super::fields::{self, Field};
use graftspindle::{List, Number, NO_LIST};

/// A list without accounts that the writer takes, but for its rows.
pub const LIST: List = List {
    version: 120001,
    sender: b"900123",
    date: b"20250310",
    number: 1,
    previous: NO_LIST,
    creation: b"20250310040000",
    rows: b"",
    accounts: b"",
};

/// The row for the model account, of this sender.
pub fn row_of(sender: &[u8]) -> Vec<u8> {
    [b"97990012      0816", sender].concat()
}

pub fn is_refused(list: &List, number: Number) -> bool {
    graftspindle::write(list) == Err(number)
}

/// The model account in a list, under its row.
pub struct Model<'a> {
    list: List<'a>,
    row: Vec<u8>,
    account: Vec<u8>,
}

impl<'a> Model<'a> {
    /// In a list whose header the writer takes.
    pub fn of(list: List<'a>) -> Model<'a> {
        Model { list, row: row_of(list.sender), account: fields::model() }
    }

    /// Puts this into the field's column.
    pub fn put(&mut self, field: &Field, column: &[u8]) {
        self.account[field.column()].copy_from_slice(column);
    }

    /// Whether what was put breaks a rule (61).
    pub fn is_refused(&self) -> bool {
        is_refused(&List { rows: &self.row, accounts: &self.account, ..self.list }, Number::Given)
    }
}
