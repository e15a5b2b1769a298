//! A line's verdict: 0 if taken, else the reason as a number. The rule is found first and
//! kept apart from its reason, as several rules share one.

use super::line::*;
use super::rows;

/// The first of L1 to L10 that fits, or 0. `rows` are the sender's.
pub fn rule_l1_to_l10(line: &[u8], sender: &[u8], rows: &[&[u8]]) -> u8 {
    let digits = pan_digits(line);
    let begun: Vec<&&[u8]> = rows.iter().filter(|row| rows::begins(row, digits)).collect();
    let fits = [
        breaks_l1(line),
        actor(line) != sender,
        begun.is_empty(),
        !begun.iter().any(|row| rows::has_length(row, digits)),
        breaks_l5(line),
        breaks_l6(line),
        breaks_l7(line),
        breaks_l8(line),
        breaks_l9(line),
        breaks_l10(line),
    ];
    fits.iter().position(|&fit| fit).map_or(0, |place| place as u8 + 1)
}

/// The reason a rule gives; L7 has one for a missing nationality and one for a wrong one.
pub fn reason_of(rule: u8, line: &[u8]) -> u8 {
    match rule {
        0 => 0,
        1 | 4 => 3,
        2 | 3 | 11 => 4,
        5 => 2,
        6 => 9,
        7 => reason_of_l7(line),
        8 => 8,
        9 => 5,
        10 => 12,
        _ => 1,
    }
}

/// L11: the register, as it is before the file, holds this PAN under another actor.
fn breaks_l11(line: &[u8], used: &[&[u8]]) -> bool {
    used.iter().any(|slot| pan(slot) == pan(line) && actor(slot) != actor(line))
}

/// L12: a rejected line is no earlier entry.
fn breaks_l12(line: &[u8], taken: &[&[u8]]) -> bool {
    taken.iter().any(|earlier| pan(earlier) == pan(line))
}

/// The rule each line breaks first, 0 for a taken one, in file order.
pub fn rules(lines: &[&[u8]], sender: &[u8], rows: &[u8], used: &[&[u8]]) -> Vec<u8> {
    let rows = rows::rows_of(rows, sender);
    let mut taken: Vec<&[u8]> = Vec::new();
    let mut rules = Vec::new();
    for line in lines {
        let rule = match rule_l1_to_l10(line, sender, &rows) {
            0 if breaks_l11(line, used) => 11,
            0 if breaks_l12(line, &taken) => 12,
            rule => rule,
        };
        if rule == 0 {
            taken.push(line);
        }
        rules.push(rule);
    }
    rules
}

/// One verdict per line, in file order.
pub fn verdicts(lines: &[&[u8]], rules: &[u8]) -> Vec<u8> {
    lines.iter().zip(rules).map(|(line, &rule)| reason_of(rule, line)).collect()
}

/// The lines whose verdict is 0, in file order.
pub fn taken_lines<'a>(lines: &[&'a [u8]], verdicts: &[u8]) -> Vec<&'a [u8]> {
    lines.iter().zip(verdicts).filter(|(_, &v)| v == 0).map(|(line, _)| *line).collect()
}
