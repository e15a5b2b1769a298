//! CSV as spreadsheets write it: UTF-8, commas or semicolons between the fields, quotes around those that need them. What
//! the fields mean is not judged here.

use graftspindle::sizes::LINES_MOST;

/// No longer file is read: two KiB for each account that a list can have.
pub const MOST: usize = LINES_MOST * 2048;

/// The byte order mark that some spreadsheets put in front.
const MARK: &[u8] = b"\xEF\xBB\xBF";

/// The fields of a record, and the line of the file in which it begins, from 1.
#[derive(Clone, Debug, PartialEq, Eq)]
pub struct Record {
    /// From 1.
    pub line: usize,
    /// Without the quotes around them.
    pub fields: Vec<String>,
}

/// The records, in their order. An empty line is none. The separator is a semicolon where the first record has one.
pub fn records(bytes: &[u8]) -> Result<Vec<Record>, String> {
    let text = text(bytes.strip_prefix(MARK).unwrap_or(bytes))?;
    let first = Reader::new(text, ';').next();
    let semicolons = matches!(first, Some(Ok(first)) if first.fields.len() > 1);
    Reader::new(text, if semicolons { ';' } else { ',' }).collect()
}

fn text(bytes: &[u8]) -> Result<&str, String> {
    std::str::from_utf8(bytes).map_err(|fault| {
        let line = 1 + bytes[..fault.valid_up_to()].iter().filter(|&&byte| byte == b'\n').count();
        format!("line {line} is not UTF-8")
    })
}

/// What is still to be read, and the line in which it begins.
struct Reader<'a> {
    rest: &'a str,
    line: usize,
    separator: char,
}

impl<'a> Reader<'a> {
    fn new(text: &'a str, separator: char) -> Reader<'a> {
        Reader { rest: text, line: 1, separator }
    }

    /// So many bytes; the lines that end in them are counted.
    fn take(&mut self, length: usize) -> &'a str {
        let (taken, rest) = self.rest.split_at(length);
        self.rest = rest;
        self.line += taken.matches('\n').count();
        taken
    }

    /// Between quotes anything may stand; two quotes are one.
    fn quoted(&mut self) -> Result<String, String> {
        let (begin, mut field) = (self.line, String::new());
        self.take(1);
        loop {
            let end = self.rest.find('"').ok_or_else(|| format!("line {begin}: a quote has no end"))?;
            field += self.take(end);
            self.take(1);
            if !self.rest.starts_with('"') {
                return Ok(field);
            }
            field += self.take(1);
        }
    }

    fn unquoted(&mut self) -> String {
        let end = self.rest.find([self.separator, '\n']).unwrap_or(self.rest.len());
        let end = if self.rest[..end].ends_with('\r') && self.rest[end..].starts_with('\n') { end - 1 } else { end };
        self.take(end).to_string()
    }

    /// Whether a field follows; else the line's end is taken.
    fn goes_on(&mut self) -> Result<bool, String> {
        if self.rest.starts_with(self.separator) {
            self.take(1);
            return Ok(true);
        }
        match ["\r\n", "\n"].into_iter().find(|end| self.rest.starts_with(end)) {
            Some(end) => self.take(end.len()),
            None if self.rest.is_empty() => "",
            None => return Err(format!("line {}: something stands behind a closing quote", self.line)),
        };
        Ok(false)
    }

    fn record(&mut self) -> Result<Record, String> {
        let mut record = Record { line: self.line, fields: Vec::new() };
        loop {
            let quoted = self.rest.starts_with('"');
            record.fields.push(if quoted { self.quoted()? } else { self.unquoted() });
            if !self.goes_on()? {
                return Ok(record);
            }
        }
    }
}

impl Iterator for Reader<'_> {
    type Item = Result<Record, String>;

    fn next(&mut self) -> Option<Result<Record, String>> {
        while !self.rest.is_empty() {
            match self.record() {
                Ok(record) if record.fields == [""] => (),
                other => return Some(other),
            }
        }
        None
    }
}
