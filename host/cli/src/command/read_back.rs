//! `read-back`: what an HGC says of each line of its HGV.

use super::arguments::Arguments;
use super::json::Json;
use super::options::Use::Optional;
use super::options::REJECTED;
use super::{hints, input, texts, Answer, Command, Told};
use crate::files::Disk;
use graftspindle::sizes::{HEADER, LINE};
use graftspindle::Verdict;

pub static READ_BACK: Command = Command {
    name: "read-back",
    options: &[Optional(&REJECTED)],
    words: &["HGV", "HGC"],
    help: "Says of each line of the HGV, by its number, PAN and plate, what its confirmation HGC answers.\n",
    run,
};

/// The lines of an HGV in form, and its footer behind them.
fn lines(hgv: &[u8]) -> impl Iterator<Item = &[u8]> {
    hgv[HEADER..].chunks(LINE)
}

fn shown(number: usize, line: &[u8], verdict: Verdict) -> String {
    let (pan, plate) = (texts::pan(line), texts::plate(line));
    format!("{number:>5}  {pan:<19}  {plate:<10}  {verdict}\n")
}

fn fields(number: usize, line: &[u8], verdict: Verdict) -> Json {
    let reason = match verdict {
        Verdict::Taken => Json::Nothing,
        Verdict::Rejected(reason) => reason.number().into(),
    };
    let (pan, plate) = (texts::pan(line), texts::plate(line));
    Json::Object(vec![("line", number.into()), ("pan", pan.into()), ("plate", plate.into()), ("reason", reason)])
}

fn run(disk: &dyn Disk, given: &Arguments) -> Answer {
    let [hgv, hgc] = given.rest()?;
    let (hgv, hgc) = input::pair(disk, hgv, hgc)?;
    let read = graftspindle::read_back(&hgv.bytes, &hgc.bytes);
    let (counts, verdicts) = read.map_err(|number| hints::of_pair(number, &hgv, &hgc))?;
    let asked = |verdict: Verdict| verdict != Verdict::Taken || !given.is_given(&REJECTED);
    let lines = (1..).zip(lines(&hgv.bytes)).zip(verdicts).filter(|&(_, verdict)| asked(verdict));
    let lines: Vec<_> = lines.map(|((number, line), verdict)| (number, line, verdict)).collect();
    let text: String = lines.iter().map(|&(number, line, verdict)| shown(number, line, verdict)).collect();
    let list = lines.iter().map(|&(number, line, verdict)| fields(number, line, verdict)).collect();
    let told = Told::new(format!("{text}taken {}, rejected {}\n", counts.taken, counts.rejected));
    let told = told.with("taken", counts.taken).with("rejected", counts.rejected);
    Ok(told.with("lines", Json::List(list)))
}
