//! Whatever `lists` has, tried in full: every value of a field as a line of a file and as a record of a register, every date
//! and every time; and an index of every length. An implementation is handed over as the function that is asked.

pub mod clocks;
pub mod fields;
pub mod indexes;
pub mod lookups;
pub mod pans;
pub mod plates;
pub mod seconds;
pub mod stamps;
pub mod sweeps;
pub mod times;

use crate::sample;

/// So many lines are tried in one file.
const LINES: usize = 256;

/// Texts that are put into a line, each from a position on.
type Puts = Vec<(usize, Vec<u8>)>;

/// The values of one field, each as a line and whether the lists allow it.
pub struct Trial {
    pub name: String,
    /// The reason of a line that the lists do not allow.
    reason: u8,
    /// The lists are for lines alone: a record may have every value.
    lines_alone: bool,
    all: Vec<(Vec<u8>, bool)>,
}

impl Trial {
    /// Each line of the trial has a PAN of its own.
    fn of(name: String, reason: u8, values: impl IntoIterator<Item = (Puts, bool)>) -> Trial {
        let lines = values.into_iter().enumerate().map(|(i, (puts, right))| (line(i, &puts), right));
        Trial { name, reason, lines_alone: false, all: lines.collect() }
    }

    fn of_lines_alone(self) -> Trial {
        Trial { lines_alone: true, ..self }
    }

    /// The first value that is answered otherwise, with every value in a file of lines that is judged as a whole. A byte
    /// below 32 in a line stops the file (32), so the values that have one are left out.
    pub fn as_lines(&self, verdicts: impl Fn(&[Vec<u8>]) -> Vec<u8>) -> Option<String> {
        let all: Vec<&(Vec<u8>, bool)> =
            self.all.iter().filter(|(line, _)| line[1..127].iter().all(|&b| b >= 32)).collect();
        for chunk in all.chunks(LINES) {
            let lines: Vec<Vec<u8>> = chunk.iter().map(|(line, _)| line.clone()).collect();
            let told = verdicts(&lines);
            assert_eq!(told.len(), lines.len(), "{}: a verdict for each line", self.name);
            for ((line, right), verdict) in chunk.iter().zip(told) {
                if verdict != if *right { 0 } else { self.reason } {
                    return Some(self.told(line, &format!("reason {verdict:02}")));
                }
            }
        }
        None
    }

    /// The same, with each value in a register of one record.
    pub fn as_records(&self, in_order: impl Fn(&[u8]) -> bool) -> Option<String> {
        let mut values = self.all.iter().map(|(line, right)| (line, *right || self.lines_alone));
        let other = values.find(|(line, right)| in_order(&sample::slot(line)) != *right);
        other.map(|(line, right)| self.told(line, if right { "refused" } else { "let in" }))
    }

    /// The same, with each value in an account of its own; what no account gives is left out.
    pub fn as_accounts(&self, number: impl Fn(&[u8]) -> u64) -> Option<String> {
        let front = sample::line(0).into_bytes();
        for (line, right) in &self.all {
            let account = sample::account_of(line);
            let given = sample::with_account(&front, &account) == *line;
            if given && number(&account) != if *right { 0 } else { 61 } {
                return Some(self.told(line, if *right { "refused" } else { "written" }));
            }
        }
        None
    }

    fn told(&self, line: &[u8], answer: &str) -> String {
        format!("{}: {answer}: {}", self.name, line.escape_ascii())
    }
}

/// The i-th line of a sample with these texts put into it.
fn line(i: usize, puts: &Puts) -> Vec<u8> {
    let mut line = sample::line(i).into_bytes();
    for (from, text) in puts {
        line[from - 1..from - 1 + text.len()].copy_from_slice(text);
    }
    line
}

/// All texts of so many digits.
fn digits(width: usize) -> impl Iterator<Item = String> {
    (0..10usize.pow(width as u32)).map(move |n| format!("{n:0width$}"))
}

/// Every trial that has lines, each made when it is asked for.
pub fn trials() -> impl Iterator<Item = Trial> {
    let of_fields = [fields::listed, fields::emissions, fields::bytes, fields::bytes_of_weight, fields::weights];
    let all = of_fields.into_iter().chain([plates::trials as fn() -> Vec<Trial>, times::trials, times::dates]);
    all.flat_map(|made| made())
}
