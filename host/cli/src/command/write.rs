//! `write`: a provider's accounts, from a spreadsheet, as an HGV.

mod accounts;
mod fault;
mod fields;
mod model;
mod weights;

use std::ffi::OsStr;
use std::path::Path;

use super::arguments::Arguments;
use super::kinds::{may_replace, must_be_apart, Kind};
use super::options::Use::{Alone, Needed, Optional};
use super::options::{Opt, CREATED, DATE, FORCE, HGV, ISSUERS, NUMBER, PREVIOUS, SENDER, TEMPLATE, VERSION, WAIT};
use super::{clock, hints, input, texts, Answer, Command, Refusal, Told};
use crate::csv;
use crate::files::{self, Disk, Place};
use accounts::Accounts;
pub use fields::{TARIFF, WEIGHT};
use graftspindle::sizes::{ROW, ROWS_MOST};
use graftspindle::{List, NO_LIST};
pub use weights::Weights;

pub static WRITE: Command = Command {
    name: "write",
    options: &[
        Needed(&ISSUERS),
        Needed(&SENDER),
        Needed(&VERSION),
        Needed(&DATE),
        Needed(&NUMBER),
        Optional(&PREVIOUS),
        Optional(&CREATED),
        Needed(&HGV),
        Optional(&WAIT),
        Optional(&FORCE),
        Alone(&TEMPLATE),
    ],
    words: &["ACCOUNTS.csv"],
    help: "\
Writes the accounts of a CSV file as a list of the sender, with a line for each in the order of the file, to OUT. Imported
as an incremental list under the same issuer rows it meets none of 25 to 32, and no line breaks a rule of its own. Where that
cannot be, nothing is written, and the refusal names the line of the CSV file, the field and what was expected. The first
line of the CSV file names the fields, in any order: --template prints them. It is UTF-8, with commas or semicolons. Zeros in
front of a number may be missing; class, axles, engine, co2, weight, valid_to and separator may be empty. A weight is a code:
w stands for 10w + 1 to 10w + 10 kg, so 349 for 3,491 to 3,500 kg. An HGV that is at OUT is replaced; a file of another kind
is not. ROWS or the CSV file may be -, standard input.
",
    run,
};

/// As the repository has it.
const TEXT: &str = include_str!("../../templates/accounts.csv");

fn number(given: &Arguments, option: &Opt) -> Result<u64, Refusal> {
    let text = given.text(option)?;
    text.parse().map_err(|_| Refusal::Fault(format!("--{} {text} is not a number", option.name)))
}

/// The HGV must not fall on what it is made from.
fn place_of_hgv(disk: &dyn Disk, given: &Arguments, csv: &OsStr) -> Result<Place, Refusal> {
    if input::is_standard(given.path(&HGV)?.as_os_str()) {
        let words = "--hgv - cannot be: an HGV is ISO 8859-1, and standard output gets text in UTF-8";
        return Err(Refusal::Fault(words.to_string()));
    }
    let hgv = Place::of_file(given.path(&HGV)?)?;
    must_be_apart(&HGV, &hgv, [given.path(&ISSUERS)?, Path::new(csv)])?;
    may_replace(disk, given, &hgv, Kind::Hgv)?;
    Ok(hgv)
}

fn run(disk: &dyn Disk, given: &Arguments) -> Answer {
    if given.is_given(&TEMPLATE) {
        return Ok(Told::new(TEXT.to_string()));
    }
    write(disk, given)
}

fn write(disk: &dyn Disk, given: &Arguments) -> Answer {
    let [csv] = given.rest()?;
    let rows = given.path(&ISSUERS)?.as_os_str();
    let (sender, date) = (given.text(&SENDER)?, given.text(&DATE)?);
    let (version, number) = (number(given, &VERSION)?, number(given, &NUMBER)?);
    let previous = given.text_if_given(&PREVIOUS).map_or_else(|| NO_LIST.to_vec(), String::into_bytes);
    let creation = given.text_if_given(&CREATED).map_or_else(clock::now, String::into_bytes);
    let place = place_of_hgv(disk, given, csv)?;
    input::at_most_one(&[rows, csv])?;
    let (rows, csv) = (input::read(disk, rows, ROWS_MOST * ROW)?, input::read(disk, csv, csv::MOST)?);
    let accounts = Accounts::of(&csv)?;
    let list = List {
        version,
        sender: sender.as_bytes(),
        date: date.as_bytes(),
        number,
        previous: &previous,
        creation: &creation,
        rows: &rows.bytes,
        accounts: &accounts.bytes,
    };
    let hgv = graftspindle::write(&list).map_err(|number| fault::explained(number, &list, &rows, &accounts))?;
    files::write_alone(disk, place.clone(), &hgv, given.wait()?)?;
    Ok(told(&hgv, accounts.count(), &place))
}

fn told(hgv: &[u8], accounts: usize, place: &Place) -> Told {
    let (out, list) = (place.path().display().to_string(), texts::list(hgv));
    let text = format!("{}; the HGV is {out}, list {list}\n", hints::parts(accounts, "account"));
    Told::new(text).with("accounts", accounts).with("length", hgv.len()).with("hgv", out).with("list", list)
}
