//! `explain`: an HGV field by field under a ruler, and what each value says.

mod asked;
mod codes;
mod moments;
mod part;
mod sayings;
mod table;

use std::ffi::OsStr;

use super::arguments::Arguments;
use super::input::{self, Input};
use super::json::{Fields, Json};
use super::options::Use::Optional;
use super::options::{ISSUERS, LINE_NUMBER};
use super::{Answer, Command, Refusal, Told};
use crate::files::Disk;
use asked::Asked;
use graftspindle::sizes::{FOOTER, HEADER, HGV_MOST, LINE, ROW, ROWS_MOST};
use graftspindle::Verdict;
use part::Part;
pub use sayings::kilograms;

pub static EXPLAIN: Command = Command {
    name: "explain",
    options: &[Optional(&LINE_NUMBER), Optional(&ISSUERS)],
    words: &["HGV"],
    help: "\
Shows the HGV field by field: the header, each line and the footer, or line N alone. Over each stands a ruler that counts the
positions; under it each field has its positions, its name, its value and what the value says. The last line says whether an
import would refuse the file. With the issuer rows each line has its verdict too, as an import into an empty register gives
it. A file that an import would refuse is shown all the same, but for 25: then nobody knows where a line begins. HGV or ROWS
may be -, standard input.
",
    run,
};

/// The file and, where they are given, the issuer rows.
fn inputs(disk: &dyn Disk, given: &Arguments) -> Result<(Input, Option<Input>), Refusal> {
    let [hgv] = given.rest()?;
    let rows = given.path_if_given(&ISSUERS).map(|path| path.as_os_str());
    input::at_most_one(&rows.into_iter().chain([hgv]).collect::<Vec<&OsStr>>())?;
    let rows = rows.map(|rows| input::read(disk, rows, ROWS_MOST * ROW)).transpose()?;
    Ok((input::read(disk, hgv, HGV_MOST)?, rows))
}

/// Header, lines and footer of a file that is not refused by its length.
fn cut(hgv: &[u8]) -> (&[u8], Vec<&[u8]>, &[u8]) {
    let (header, rest) = hgv.split_at(HEADER);
    let (lines, footer) = rest.split_at(rest.len() - FOOTER);
    (header, lines.chunks(LINE).collect(), footer)
}

/// The line that is asked for, counted from 1; none is all of them.
fn wanted(given: &Arguments, hgv: &str, lines: usize) -> Result<Option<usize>, Refusal> {
    let Some(text) = given.text_if_given(&LINE_NUMBER) else {
        return Ok(None);
    };
    let has = match lines {
        0 => "no lines".to_string(),
        1 => "line 1 alone".to_string(),
        lines => format!("lines 1 to {lines}"),
    };
    let number = text.parse().ok().filter(|number| (1..=lines).contains(number));
    number.map(Some).ok_or_else(|| Refusal::Fault(format!("--line {text} is not there: {hgv} has {has}")))
}

fn line(number: usize, bytes: &[u8], verdict: Option<Verdict>) -> Part<'_> {
    let heading = match verdict {
        Some(verdict) => format!("line {number}: {verdict}"),
        None => format!("line {number}"),
    };
    Part { heading, bytes, fields: &table::LINE }
}

/// What JSON has of a line in front of its fields.
fn front(number: usize, verdict: Option<Verdict>) -> Fields {
    let judged = verdict.map(|verdict| match verdict {
        Verdict::Taken => [("taken", true.into()), ("reason", Json::Nothing)],
        Verdict::Rejected(reason) => [("taken", false.into()), ("reason", reason.number().into())],
    });
    [("line", number.into())].into_iter().chain(judged.into_iter().flatten()).collect()
}

/// All of them, or one, in both forms.
fn shown(lines: &[&[u8]], wanted: Option<usize>, asked: &Asked) -> (String, Json) {
    let (mut text, mut list) = (String::new(), Vec::new());
    for (number, bytes) in (1..).zip(lines).filter(|(number, _)| wanted.is_none_or(|wanted| wanted == *number)) {
        let verdict = asked.verdict(number);
        let part = line(number, bytes, verdict);
        text += &part.text();
        list.push(Json::Object([front(number, verdict), vec![("fields", part.json())]].concat()));
    }
    (text, Json::List(list))
}

fn run(disk: &dyn Disk, given: &Arguments) -> Answer {
    let (hgv, rows) = inputs(disk, given)?;
    let asked = Asked::of(&hgv, rows.as_ref())?;
    let (header, lines, footer) = cut(&hgv.bytes);
    let wanted = wanted(given, &hgv.name, lines.len())?;
    let (text, list) = shown(&lines, wanted, &asked);
    if wanted.is_some() {
        return Ok(asked.beside(Told::new(text).with("lines", list)));
    }
    let header = Part { heading: "header".to_string(), bytes: header, fields: &table::HEADER };
    let footer = Part { heading: "footer".to_string(), bytes: footer, fields: &table::FOOTER };
    let told = Told::new(header.text() + &text + &footer.text()).with("header", header.json());
    Ok(asked.beside(told.with("lines", list).with("footer", footer.json())))
}
