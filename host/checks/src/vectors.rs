//! The vectors of the programs `cases_forms` and `cases_imports`, answered by `plain`: what the proved programs write of
//! their `stdin` is written here by another hand.

pub mod answer;
pub mod blocks;
pub mod compare;
pub mod each;
pub mod forms;
pub mod found;
pub mod given;
pub mod imports;
pub mod many;
pub mod numbered;
pub mod pairs;
pub mod sweeps;

pub use answer::Answer;
pub use blocks::Samples;
pub use compare::{first_difference, Difference};

use blocks::{field, marked, rest};

/// What a program answers of a vector: the texts by their letters, what is asked, and of what.
pub type Ask = fn(&Samples, &[u8], &[u8]) -> Option<Answer>;

/// The programs by the names of their crates.
pub const PROGRAMS: [(&str, Ask); 2] = [("cases_forms", forms::answer), ("cases_imports", imports::answer)];

/// A vector as it stands in `stdin`, and what the program writes of it, without the last end of a line.
pub fn written(ask: Ask, samples: &mut Samples, line: &[u8]) -> Vec<u8> {
    let vector = marked(line);
    let (tag, f) = (field(&vector, 1, 8), rest(&vector, 10));
    let answer = match tag {
        _ if line.starts_with(b"#") => None,
        b"text    " => {
            samples.keep(f);
            None
        }
        b"each    " => each::answer(ask, samples, f),
        _ => ask(samples, tag, f),
    };
    [line, &answer.map_or(Vec::new(), Answer::written)].concat()
}
