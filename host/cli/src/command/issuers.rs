//! `issuers from-ait`: the accepted issuer table as issuer rows.

use super::arguments::Arguments;
use super::kinds::{may_replace, Kind};
use super::options::Use::{Needed, Optional};
use super::options::{FORCE, ISSUERS, WAIT};
use super::{beside, input, Answer, Command, Refusal, Told};
use crate::ait;
use crate::files::{self, Disk, Place};

pub static FROM_AIT: Command = Command {
    name: "issuers from-ait",
    options: &[Needed(&ISSUERS), Optional(&WAIT), Optional(&FORCE)],
    words: &["AIT"],
    help: "\
Writes the issuer rows of the accepted issuer table AIT (AP-3.5) to ROWS, for import. Lines that give the same row give it
once. Issuer rows that are at ROWS are replaced; a file of another kind is not.
",
    run,
};

fn run(disk: &dyn Disk, given: &Arguments) -> Answer {
    let [path] = given.rest()?;
    let ait = input::read(disk, path, ait::MOST)?;
    let rows = ait::rows(&ait.bytes).map_err(|fault| Refusal::Fault(format!("{}: {fault}", ait.name)))?;
    graftspindle::rows_in_form(&rows.concat()).map_err(beside(format!("those of {}", ait.name)))?;
    if input::is_standard(given.path(&ISSUERS)?.as_os_str()) {
        let text = String::from_utf8_lossy(&rows.concat()).into_owned();
        return Ok(Told::new(text.clone()).with("rows", rows.len()).with("text", text));
    }
    let place = Place::of_file(given.path(&ISSUERS)?)?;
    may_replace(disk, given, &place, Kind::Rows)?;
    files::write_alone(disk, place, &rows.concat(), given.wait()?)?;
    Ok(Told::new(format!("{} rows\n", rows.len())).with("rows", rows.len()))
}
