//! A vector answered once for each value of its wild characters: `#` for a digit, `@` for a capital, `?` for any byte.

use super::blocks::{field, rest};
use super::{Answer, Ask, Samples};

/// A run of wild characters, and the values that it takes in order.
struct Wild {
    from: usize,
    width: usize,
    kind: u8,
}

impl Wild {
    /// The first run in a text.
    fn find(text: &[u8]) -> Option<Wild> {
        let from = text.iter().position(|b| b"#@?".contains(b))?;
        let kind = text[from];
        let most = match kind {
            b'#' => 4,
            b'@' => 2,
            _ => 1,
        };
        let width = text[from..].iter().take(most).take_while(|&&b| b == kind).count();
        Some(Wild { from, width, kind })
    }

    /// The first character of a place, and how many it takes.
    fn alphabet(&self) -> (u8, usize) {
        match self.kind {
            b'#' => (b'0', 10),
            b'@' => (b'A', 26),
            _ => (0, 256),
        }
    }

    fn count(&self) -> usize {
        self.alphabet().1.pow(self.width as u32)
    }

    /// The value of this number, as it stands in the text.
    fn value(&self, mut number: usize) -> Vec<u8> {
        let (first, many) = self.alphabet();
        let mut value = vec![0; self.width];
        for place in value.iter_mut().rev() {
            *place = first + (number % many) as u8;
            number /= many;
        }
        value
    }

    /// The value of this number, as it is told.
    fn told(&self, number: usize) -> String {
        match self.kind {
            b'?' => number.to_string(),
            _ => String::from_utf8_lossy(&self.value(number)).into_owned(),
        }
    }

    /// Neighbouring values with the same answer.
    fn run(&self, from: usize, to: usize, answer: &str) -> String {
        match (self.told(from), self.told(to)) {
            (value, last) if value == last => format!("{value}: {answer}"),
            (first, last) => format!("{first}-{last}: {answer}"),
        }
    }
}

/// What is answered first for one value.
fn one(ask: Ask, samples: &Samples, inner: &[u8], wild: &Wild, number: usize) -> String {
    let mut text = rest(inner, 10).to_vec();
    text[wild.from..wild.from + wild.width].copy_from_slice(&wild.value(number));
    ask(samples, field(inner, 1, 8), &text).map_or(String::new(), |answer| answer.first)
}

pub fn answer(ask: Ask, samples: &Samples, inner: &[u8]) -> Option<Answer> {
    let wild = Wild::find(rest(inner, 10))?;
    let (mut runs, mut from) = (Vec::new(), 0);
    let mut before = one(ask, samples, inner, &wild, 0);
    for number in 1..wild.count() {
        let answer = one(ask, samples, inner, &wild, number);
        if answer != before {
            runs.push(wild.run(from, number - 1, &before));
            (from, before) = (number, answer);
        }
    }
    runs.push(wild.run(from, wild.count() - 1, &before));
    Answer::of(runs.join(", "))
}
