//! ISO 8859-1 in and out, and the fields of a line or record that are shown.

use super::Refusal;

/// A word of the command line as the bytes of a field, padded with blanks.
pub fn field(word: &str, width: usize) -> Result<Vec<u8>, Refusal> {
    let byte = |c: char| u8::try_from(u32::from(c)).ok();
    let bytes: Option<Vec<u8>> = word.chars().map(byte).collect();
    let mut bytes = bytes.ok_or_else(|| Refusal::Fault(format!("{word} cannot be written in ISO 8859-1")))?;
    bytes.resize(width.max(bytes.len()), b' ');
    Ok(bytes)
}

/// What can be shown of bytes: a control character becomes `?`.
pub fn shown(bytes: &[u8]) -> String {
    let show = |&byte: &u8| Some(char::from(byte)).filter(|c| !c.is_control()).unwrap_or('?');
    bytes.iter().map(show).collect::<String>().trim_end().to_string()
}

fn positions(line: &[u8], from: usize, to: usize) -> String {
    shown(&line[from - 1..to])
}

pub fn actor(line: &[u8]) -> String {
    positions(line, 2, 7)
}

pub fn pan(line: &[u8]) -> String {
    positions(line, 14, 32)
}

pub fn plate(line: &[u8]) -> String {
    positions(line, 33, 42)
}

pub fn nationality(line: &[u8]) -> String {
    positions(line, 43, 45)
}

pub fn context_mark(record: &[u8]) -> String {
    positions(record, 50, 61)
}

pub fn obe(record: &[u8]) -> String {
    positions(record, 62, 79)
}

/// Of a file's header, as far as it reaches.
fn of_header(file: &[u8], from: usize, to: usize) -> String {
    shown(file.get(from - 1..to).unwrap_or_default())
}

pub fn sender(hgv: &[u8]) -> String {
    of_header(hgv, 2, 7)
}

pub fn receiver(hgv: &[u8]) -> String {
    of_header(hgv, 8, 13)
}

pub fn list(hgv: &[u8]) -> String {
    of_header(hgv, 14, 32)
}

pub fn previous(hgv: &[u8]) -> String {
    of_header(hgv, 33, 51)
}

/// Of an HGC: by local time.
pub fn reception(hgc: &[u8]) -> String {
    of_header(hgc, 33, 46)
}

/// Without the zeros in front.
pub fn count(hgv: &[u8]) -> String {
    let digits = of_header(hgv, 66, 80);
    match digits.trim_start_matches('0') {
        "" => "0".to_string(),
        rest => rest.to_string(),
    }
}

pub fn creation(hgv: &[u8]) -> String {
    of_header(hgv, 81, 94)
}

pub fn version(hgv: &[u8]) -> String {
    of_header(hgv, 95, 100)
}

pub fn end(record: &[u8]) -> String {
    positions(record, 101, 114)
}

/// The keys of the lookup by plate, as they stand.
pub fn plate_key(record: &[u8]) -> (&[u8], &[u8]) {
    (&record[32..42], &record[42..45])
}
