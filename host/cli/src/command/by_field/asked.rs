//! What is asked of the proved functions: whether an import would refuse the file, what it would say of each line, and
//! whether a time is real. Nothing of it is known here.

use crate::command::input::Input;
use crate::command::json::Json;
use crate::command::{hints, texts, Refusal, Told};
use graftspindle::{Import, Mode, Number, Offset, Register, Verdict};

const IN_FORM: &str =
    "an incremental import would not refuse this file for its form; with --issuers its lines are judged too";

const NOT_ASKED: &str = "the register was not asked whether it holds a PAN under another actor (L11)";

/// What they answer of a file that can be cut into header, lines and footer.
pub enum Asked {
    /// An import would refuse it.
    Refused(Refusal),
    /// Its form is right, and there are no issuer rows to judge more by.
    InForm,
    /// The verdict of each line.
    Judged(Vec<Verdict>),
}

impl Asked {
    /// Refused where the rows break their form, and where the file's length says that it cannot be cut.
    pub fn of(hgv: &Input, rows: Option<&Input>) -> Result<Asked, Refusal> {
        let named = |rows: &Input| Refusal::Number(Number::Rows, rows.name.clone());
        rows.map_or(Ok(()), |rows| graftspindle::rows_in_form(&rows.bytes).map_err(|_| named(rows)))?;
        // No HGC at all is 52, which comes behind every number of the HGV's own.
        match (graftspindle::read_back(&hgv.bytes, &[]), rows) {
            (Err(Number::HgvLength), _) => Err(hints::of_hgv(Number::HgvLength, hgv)),
            (Err(Number::Hgc) | Ok(_), None) => Ok(Asked::InForm),
            (Err(Number::Hgc) | Ok(_), Some(rows)) => Ok(judged(hgv, rows)),
            (Err(number), _) => Ok(Asked::Refused(hints::of_hgv(number, hgv))),
        }
    }

    /// Of the line with this number, counted from 1.
    pub fn verdict(&self, number: usize) -> Option<Verdict> {
        match self {
            Asked::Judged(verdicts) => verdicts.get(number - 1).copied(),
            Asked::Refused(_) | Asked::InForm => None,
        }
    }

    /// The same answer with what they say of the file behind it.
    pub fn beside(&self, told: Told) -> Told {
        let told = Told { text: format!("{}{}\n", told.text, self.words()), ..told };
        match self {
            Asked::Refused(refusal) => {
                let (number, words) = (u64::from(refusal.status()), refusal.words());
                told.with("refused", Json::Object(vec![("number", number.into()), ("words", words.into())]))
            }
            Asked::InForm => told.with("refused", Json::Nothing),
            Asked::Judged(verdicts) => {
                let (taken, rejected) = counts(verdicts);
                told.with("refused", Json::Nothing).with("taken", taken).with("rejected", rejected)
            }
        }
    }

    fn words(&self) -> String {
        match self {
            Asked::Refused(refusal) => format!("an import would refuse this file: {}", refusal.line()),
            Asked::InForm => IN_FORM.to_string(),
            Asked::Judged(verdicts) => {
                let (taken, rejected) = counts(verdicts);
                format!("taken {taken}, rejected {rejected} of the whole file; {NOT_ASKED}")
            }
        }
    }
}

/// Taken and rejected.
fn counts(verdicts: &[Verdict]) -> (usize, usize) {
    let taken = verdicts.iter().filter(|verdict| **verdict == Verdict::Taken).count();
    (taken, verdicts.len() - taken)
}

/// As an import into an empty register with room for every line answers, received when the file was made.
fn judged(hgv: &Input, rows: &Input) -> Asked {
    match verdicts(&hgv.bytes, &rows.bytes) {
        Ok(verdicts) => Asked::Judged(verdicts),
        Err(Number::Parties) => Asked::Refused(hints::of_parties(hgv, rows)),
        Err(number) => Asked::Refused(hints::of_hgv(number, hgv)),
    }
}

fn verdicts(hgv: &[u8], rows: &[u8]) -> Result<Vec<Verdict>, Number> {
    let ((_, lines, _), creation) = (super::cut(hgv), texts::creation(hgv));
    let (mode, offset) = (Mode::Incremental, Offset::UTC);
    let given = Import { mode, reception: creation.as_bytes(), offset, rows, hgv };
    let (_, hgc) = Register::free(lines.len())?.import(&given)?;
    graftspindle::read_back(hgv, &hgc).map(|(_, verdicts)| verdicts)
}

/// Whether a time is real.
pub fn is_real(time: &str) -> bool {
    graftspindle::seconds(time.as_bytes()).is_ok()
}
