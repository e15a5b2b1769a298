//! The accepted issuer table, AP-3.5: header 128, lines of 106, footer 64; and the issuer rows in it. Whether the rows are
//! in form is not judged here.

const HEADER: usize = 128;
const LINE: usize = 106;
const FOOTER: usize = 64;
const LF: u8 = 10;

/// No longer table is read: AP-3.5 has no limit, and this is a thousand lines for each row that an import can take.
pub const MOST: usize = HEADER + 64_000 * LINE + FOOTER;

/// AP-3.5 says 502401 of the file's name and 500001 of the header.
const VERSIONS: [&[u8]; 2] = [b"500001", b"502401"];

/// Positions count from 1.
fn positions(text: &[u8], from: usize, to: usize) -> &[u8] {
    &text[from - 1..to]
}

fn count(header: &[u8]) -> Option<usize> {
    std::str::from_utf8(positions(header, 66, 80)).ok()?.parse().ok()
}

fn header_fault(header: &[u8], lines: usize) -> Option<String> {
    let version = positions(header, 95, 100);
    let faults = [
        (header[0] != b'0' || header[127] != LF, "the header lacks 0 in front or LF at its end"),
        (positions(header, 14, 16) != b"AIT", "the header's list sequence does not begin with AIT"),
        (!VERSIONS.contains(&version), "the header's version is neither 500001 nor 502401"),
        (count(header) != Some(lines), "the header's number of records differs from the lines"),
    ];
    faults.into_iter().find(|(broken, _)| *broken).map(|(_, words)| words.to_string())
}

fn line_fault(number: usize, line: &[u8]) -> Option<String> {
    let framed = line[0] == b'1' && line[LINE - 1] == LF;
    (!framed).then(|| format!("line {number} lacks 1 in front or LF at its end"))
}

fn footer_fault(footer: &[u8]) -> Option<String> {
    let framed = footer[0] == b'2' && footer[FOOTER - 1] == LF;
    let filled = positions(footer, 2, 63).iter().all(|&byte| byte == b'0');
    (!framed || !filled).then(|| "the footer is not 2, 62 zeros and LF".to_string())
}

/// BIN, BIN extension and both lengths (2-19), and the actor (23-28).
fn row(line: &[u8]) -> Vec<u8> {
    [positions(line, 2, 19), positions(line, 23, 28)].concat()
}

/// Each row once, in the table's order: several context marks may share one.
pub fn rows(ait: &[u8]) -> Result<Vec<Vec<u8>>, String> {
    let body = ait.len().checked_sub(HEADER + FOOTER).filter(|body| body % LINE == 0);
    let body = body.ok_or("the length is not that of a header, lines of 106 and a footer")?;
    let lines: Vec<&[u8]> = ait[HEADER..HEADER + body].chunks(LINE).collect();
    let of_lines = || lines.iter().enumerate().find_map(|(i, line)| line_fault(i + 1, line));
    let fault = header_fault(&ait[..HEADER], lines.len()).or_else(of_lines);
    if let Some(fault) = fault.or_else(|| footer_fault(&ait[HEADER + body..])) {
        return Err(fault);
    }
    let mut rows: Vec<Vec<u8>> = Vec::new();
    for row in lines.into_iter().map(row) {
        if !rows.contains(&row) {
            rows.push(row);
        }
    }
    Ok(rows)
}
