//! How long each function takes on full blocks: proved, of imports in both ways, in plain Rust, and in Rust with hashed searches,
//! beside copying the blocks that it is lent, which nothing that reads them all can beat. Same machine, same run, same bytes, all
//! built for release. It prints tables for docs/BENCHMARKS.md, and stops if two implementations differ in an answer or a byte. An
//! argument leaves only the calls whose names have it in them.

mod cases;
mod clock;
mod tables;

use cases::Case;
use graftspindle_checks::engines::{Engine, ENGINES};

const SIZES: [usize; 4] = [1024, 2048, 4096, 8192];

/// All calls are measured so often, one after the other, and the least counts: a processor may be slow for many seconds.
const PASSES: usize = 6;

/// Milliseconds of each implementation by its name, and of copying. What is no import is not timed by an index.
pub struct Measured {
    pub name: String,
    pub engines: Vec<(&'static str, f64)>,
    pub copying: f64,
}

fn measure(case: &Case) -> Measured {
    let run = |engine| clock::least(&case.written, |blocks| (case.call)(engine, case, blocks));
    let asked = ENGINES.iter().filter(|engine| case.is_import || engine.name != "indexed");
    let named = |engine: &'static Engine| {
        let (time, outcome) = run(engine);
        ((engine.name, time), outcome)
    };
    let (engines, outcomes): (Vec<_>, Vec<_>) = asked.map(named).unzip();
    assert!(outcomes.iter().all(|outcome| *outcome == outcomes[0]), "{}: two outcomes", case.name);
    assert_eq!(outcomes[0].0, case.expected, "{}", case.name);
    Measured { name: case.name.clone(), engines, copying: clock::copying(&case.written, &case.read) }
}

impl Measured {
    fn least(self, other: Measured) -> Measured {
        let engines = self.engines.iter().zip(&other.engines).map(|(a, b)| (a.0, a.1.min(b.1))).collect();
        Measured { name: self.name, engines, copying: self.copying.min(other.copying) }
    }

    /// The time of the implementation of this name, where it has one.
    pub fn of(&self, name: &str) -> Option<f64> {
        self.engines.iter().find(|(known, _)| *known == name).map(|(_, time)| *time)
    }
}

type Pass = Vec<Vec<Measured>>;

fn least(a: Pass, b: Pass) -> Pass {
    let of_size = |(a, b): (Vec<Measured>, Vec<Measured>)| a.into_iter().zip(b).map(|(a, b)| a.least(b)).collect();
    a.into_iter().zip(b).map(of_size).collect()
}

fn main() {
    let wanted = std::env::args().nth(1).unwrap_or_default();
    let cases = SIZES.map(|size| {
        let mut cases = cases::all(size);
        cases.retain(|case| case.name.contains(&wanted));
        cases
    });
    let pass = |n| {
        eprintln!("pass {n} of {PASSES}");
        cases.iter().map(|cases| cases.iter().map(measure).collect()).collect()
    };
    let by_size: Pass = (2..=PASSES).map(pass).fold(pass(1), least);
    let (largest, size) = (&by_size[SIZES.len() - 1], SIZES[SIZES.len() - 1]);
    println!("{size} lines and slots; times in ms.");
    tables::IMPORTS.print(largest);
    tables::OTHERS.print(largest);
    tables::growth("Proved", "proved", &by_size, &SIZES);
    tables::growth("Proved, by an index", "indexed", &by_size, &SIZES);
}
