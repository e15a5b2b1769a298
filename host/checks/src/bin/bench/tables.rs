//! The tables, as Markdown.

use super::Measured;

/// What a column shows of a call.
#[derive(Clone, Copy)]
enum Column {
    /// The time of an implementation.
    Time(&'static str),
    /// Copying.
    Copying,
    /// The time of one over that of another.
    Ratio(&'static str, &'static str),
    /// The time of one over copying.
    OverCopying(&'static str),
}

use Column::{Copying, OverCopying, Ratio, Time};

/// The columns by their heads, of the calls that have all of them.
pub struct Table {
    is_of_imports: bool,
    columns: &'static [(&'static str, Column)],
}

/// Of both imports; the plain engine is the proved one without an index.
pub const IMPORTS: Table = Table {
    is_of_imports: true,
    columns: &[
        ("Plain engine", Time("proved")),
        ("Indexed", Time("indexed")),
        ("Plain Rust", Time("plain")),
        ("Hashed Rust", Time("hashed")),
        ("Copying", Copying),
        ("Plain engine / indexed", Ratio("proved", "indexed")),
        ("Indexed / hashed", Ratio("indexed", "hashed")),
        ("Indexed / copying", OverCopying("indexed")),
    ],
};

/// Of all other calls.
pub const OTHERS: Table = Table {
    is_of_imports: false,
    columns: &[
        ("Proved", Time("proved")),
        ("Plain Rust", Time("plain")),
        ("Hashed Rust", Time("hashed")),
        ("Copying", Copying),
        ("Proved / plain", Ratio("proved", "plain")),
        ("Proved / hashed", Ratio("proved", "hashed")),
        ("Proved / copying", OverCopying("proved")),
    ],
};

impl Column {
    fn shown(self, m: &Measured) -> String {
        let time = |name| m.of(name).expect("it is timed");
        match self {
            Time(name) => format!("{:.2}", time(name)),
            Copying => format!("{:.3}", m.copying),
            Ratio(one, other) => format!("{:.2}", time(one) / time(other)),
            OverCopying(name) => format!("{:.2}", time(name) / m.copying),
        }
    }
}

fn head(columns: &[String]) {
    println!("\n| Call | {} |", columns.join(" | "));
    println!("|---|{}", "---|".repeat(columns.len()));
}

impl Table {
    /// Nothing where none of its calls is wanted.
    pub fn print(&self, measured: &[Measured]) {
        let mut rows = measured.iter().filter(|m| m.of("indexed").is_some() == self.is_of_imports).peekable();
        if rows.peek().is_none() {
            return;
        }
        head(&self.columns.iter().map(|(head, _)| head.to_string()).collect::<Vec<String>>());
        for m in rows {
            let cells: Vec<String> = self.columns.iter().map(|(_, column)| column.shown(m)).collect();
            println!("| {} | {} |", m.name, cells.join(" | "));
        }
    }
}

/// The times of one implementation from the smallest blocks to the largest, and how they grow.
pub fn growth(what: &str, name: &str, by_size: &[Vec<Measured>], sizes: &[usize]) {
    let of_call = |at: usize| by_size.iter().map(|measured| measured[at].of(name)).collect::<Option<Vec<f64>>>();
    let mut rows = (0..by_size[0].len()).filter_map(|at| Some((&by_size[0][at].name, of_call(at)?))).peekable();
    if rows.peek().is_none() {
        return;
    }
    println!("\n{what}, ms, and the last over the first.");
    head(&sizes.iter().map(|size| format!("{size} lines")).chain(["Growth".to_string()]).collect::<Vec<String>>());
    for (call, times) in rows {
        let shown: Vec<String> = times.iter().map(|time| format!("{time:.2}")).collect();
        println!("| {call} | {} | {:.0} |", shown.join(" | "), times[times.len() - 1] / times[0]);
    }
}
