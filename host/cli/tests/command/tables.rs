//! Accounts as the tests of the writer put them into CSV files.

use crate::common::*;
use crate::issuers::ROWS;

pub const NAMES: [&str; 16] = [
    "pan",
    "plate",
    "nationality",
    "tariff",
    "class",
    "axles",
    "context_mark",
    "obe_id",
    "emission",
    "fuel",
    "chargeable",
    "engine",
    "co2",
    "weight",
    "valid_to",
    "separator",
];

pub type Account = [&'static str; 16];

/// The accounts of `expected/accounts.hgv`, every digit given.
pub const ACCOUNTS: [Account; 3] = [
    [
        "9799001200000010",
        "ABC123",
        "NO",
        "12",
        "",
        "",
        "30C00B000503",
        "30C00B001222070321",
        "Euro6",
        "02",
        "N",
        "004",
        "00",
        "0180",
        "00000000000000",
        "30",
    ],
    [
        "9799001200000028",
        "ÄÖÜäü1",
        "SE",
        "31",
        "1",
        "3",
        "0123456789AB",
        "0123456789ABCDEF00",
        "0",
        "05",
        "Y",
        "255",
        "07",
        "1800",
        "20271231235959",
        "35",
    ],
    [
        "9799001200000002",
        "x",
        "DE",
        "71",
        "",
        "",
        "FFFFFFFFFFFF",
        "FFFFFFFFFFFFFFFFFF",
        "EEV",
        "15",
        "N",
        "000",
        "00",
        "0000",
        "00000000000000",
        "00",
    ],
];

pub const WRITE: &str = "write --issuers @rows --sender 900123 --version 120001 --date 20250310 --number 1 \
                         --created 20250310040000 --hgv @out @csv";

/// A line for each, the names in front.
pub fn table(accounts: &[Account]) -> String {
    [NAMES].iter().chain(accounts).map(|fields| fields.join(",") + "\n").collect()
}

/// The place of a field.
pub fn of(name: &str) -> usize {
    NAMES.iter().position(|known| *known == name).expect("a field")
}

/// The three accounts, a field of the second one changed.
pub fn with(name: &str, value: &str) -> String {
    let line = |(i, account): (usize, Account)| {
        let mut fields = account.map(str::to_string);
        if i == 1 {
            fields[of(name)] = format!("\"{value}\"");
        }
        fields.join(",") + "\n"
    };
    table(&[]) + &ACCOUNTS.into_iter().enumerate().map(line).collect::<String>()
}

/// A folder with the issuer rows of the demo and this CSV file.
pub fn given(csv: impl AsRef<[u8]>) -> Folder {
    let folder = Folder::new();
    folder.write("rows", ROWS);
    folder.write("csv", csv.as_ref());
    folder
}

/// A list that was expected, by its name.
pub fn expected(name: &str) -> Vec<u8> {
    let folder = concat!(env!("CARGO_MANIFEST_DIR"), "/tests/expected");
    std::fs::read(format!("{folder}/{name}")).expect("it is there")
}
