//! What is said beside the answer.

use std::io::Write;

/// A line on standard error. Where nobody takes it, nothing else changes.
pub fn warn(line: &str) {
    let _ = writeln!(std::io::stderr(), "graftspindle: {line}");
}
