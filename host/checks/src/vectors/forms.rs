//! The vectors on the forms of fields, issuer rows, lines and HGVs, and on the writer.

use super::blocks::{change, field, number, rest, LINE};
use super::{given, Answer, Samples};
use crate::plain::words::{is_digit, is_real_date, is_real_time, leading, seconds};
use crate::plain::{hgv, line, register, rows, verdict};

const SENDER: &[u8] = b"900123";
const ROW: &[u8] = b"97990012      0816900123";

/// What a program answers of what it does not know.
const UNKNOWN: u64 = 255;

fn is_luhn(f: &[u8]) -> bool {
    line::luhn_sum(&f[..leading(f, is_digit)]).is_multiple_of(10)
}

/// A plate, and the separator behind it.
fn is_separator(f: &[u8]) -> bool {
    let k = leading(field(f, 1, 10), line::is_plate_character);
    line::separator_right(rest(f, 11), k as u64)
}

/// The number, and the seconds behind it.
fn of_seconds(f: &[u8]) -> Option<Answer> {
    let done = seconds(f);
    Some(Answer { first: done.number.to_string(), behind: format!(" {}", done.seconds).into_bytes() })
}

/// The reason of a line by itself, 0 for none.
fn fault(text: &[u8], of: &[u8]) -> u64 {
    let rules = verdict::rules(&[text], SENDER, of, &[]);
    u64::from(verdict::reason_of(rules[0], text))
}

fn of_line(samples: &Samples, tag: &[u8], f: &[u8]) -> Option<Answer> {
    let mut text = samples.laid(LINE, b"X");
    if tag == b"under   " {
        return Answer::number(fault(&text, f));
    }
    change(&mut text, f);
    match tag {
        b"line    " => Answer::number(fault(&text, ROW)),
        b"record  " => Answer::truth(register::holds_as_record(&text)),
        _ => of_file(samples, tag, f),
    }
}

/// An HGV of one line with one place changed.
fn of_file(samples: &Samples, tag: &[u8], f: &[u8]) -> Option<Answer> {
    let mut file = samples.hgv(b"1X");
    change(&mut file, f);
    Answer::truth(match tag {
        b"header  " => !hgv::is_26(&file),
        b"version " => !hgv::is_27(&file),
        b"receiver" => !hgv::is_29_receiver(&file),
        b"count   " => !hgv::is_30(&file),
        b"footer  " => !hgv::is_31(&file),
        b"frames  " => !hgv::is_32(&file),
        b"length  " => !hgv::is_25(&vec![0; number(field(f, 1, 3))]),
        _ => return Answer::number(UNKNOWN),
    })
}

pub fn answer(samples: &Samples, tag: &[u8], f: &[u8]) -> Option<Answer> {
    Answer::truth(match tag {
        b"luhn    " => is_luhn(f),
        b"pan     " => line::is_pan(f),
        b"rows    " => rows::rows_right(f),
        b"plate   " => line::is_plate(f),
        b"nation  " => line::is_nationality(f),
        b"separate" => is_separator(f),
        b"time    " => is_real_time(f),
        b"date    " => is_real_date(f),
        b"seconds " => return of_seconds(f),
        b"write   " | b"account " | b"written " | b"kept    " | b"answered" => return given::answer(samples, tag, f),
        b"copies  " => return given::of_copies(samples, f),
        _ => return of_line(samples, tag, f),
    })
}
