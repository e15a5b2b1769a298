//! What is written of a file of vectors beside what it has to be.

use super::{written, Ask, Samples};
use std::panic::{catch_unwind, AssertUnwindSafe};

/// The first line of `stdout` that is another, and the vector that it answers.
#[derive(Debug)]
pub struct Difference {
    /// The vector's line in `stdin`.
    pub line: usize,
    pub vector: String,
    /// The line in `stdout`.
    pub at: usize,
    pub expected: String,
    pub answered: String,
}

/// A panic is an answer too, and a wrong one.
fn answered(ask: Ask, samples: &mut Samples, line: &[u8]) -> Vec<u8> {
    let answer = catch_unwind(AssertUnwindSafe(|| written(ask, samples, line)));
    answer.unwrap_or_else(|_| [line, b" -> panics"].concat())
}

fn lines(text: &[u8]) -> Vec<&[u8]> {
    text.strip_suffix(b"\n").unwrap_or(text).split(|&b| b == b'\n').collect()
}

fn shown(text: &[u8]) -> String {
    text.escape_ascii().to_string()
}

/// The vectors of a program beside its `stdout`.
struct Comparison<'a> {
    ask: Ask,
    vectors: Vec<&'a [u8]>,
    expected: Vec<&'a [u8]>,
}

impl Comparison<'_> {
    /// What is written of a vector beside `stdout` from a line on, which counts from 0: the first that is another.
    fn one(&self, place: usize, answer: &[u8], from: usize) -> Option<Difference> {
        let mut lines = answer.split(|&b| b == b'\n').zip(from..);
        let right = |at: usize| self.expected.get(at).copied().unwrap_or(b"");
        let (line, at) = lines.find(|&(line, at)| line != right(at))?;
        let (vector, expected, answered) = (shown(self.vectors[place]), shown(right(at)), shown(line));
        Some(Difference { line: place + 1, vector, at: at + 1, expected, answered })
    }

    /// The vectors of one value each. Where each of `each` stands, which has one line, is handed back with the number of lines.
    fn single(&self) -> Result<(Vec<(usize, usize)>, usize), Difference> {
        let (mut samples, mut at, mut later) = (Samples::none(), 0, Vec::new());
        for (place, vector) in self.vectors.iter().enumerate() {
            if vector.starts_with(b"each ") {
                later.push((place, at));
                at += 1;
                continue;
            }
            let answer = answered(self.ask, &mut samples, vector);
            self.one(place, &answer, at).map_or(Ok(()), Err)?;
            at += answer.split(|&b| b == b'\n').count();
        }
        Ok((later, at))
    }

    /// The vectors of many values each, with the texts that stand before each.
    fn each(&self, later: &[(usize, usize)]) -> Option<Difference> {
        let (mut samples, mut from) = (Samples::none(), 0);
        later.iter().find_map(|&(place, at)| {
            let texts = self.vectors[from..place].iter().filter(|vector| vector.starts_with(b"text "));
            texts.for_each(|text| drop(written(self.ask, &mut samples, text)));
            from = place;
            self.one(place, &answered(self.ask, &mut samples, self.vectors[place]), at)
        })
    }

    /// A line of `stdout` that no vector writes.
    fn left(&self, at: usize) -> Option<Difference> {
        let (extra, line) = (self.expected.get(at)?, self.vectors.len() + 1);
        Some(Difference { line, vector: String::new(), at: at + 1, expected: shown(extra), answered: String::new() })
    }
}

/// The first vector that is not answered as `stdout` says, if there is one; those of one value before those of many.
pub fn first_difference(ask: Ask, stdin: &[u8], stdout: &[u8]) -> Option<Difference> {
    let all = Comparison { ask, vectors: lines(stdin), expected: lines(stdout) };
    match all.single() {
        Ok((later, at)) => all.each(&later).or_else(|| all.left(at)),
        Err(difference) => Some(difference),
    }
}
