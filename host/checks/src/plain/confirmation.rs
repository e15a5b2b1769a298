//! The HGC: header 110, 130 per rejected line, footer 64.

use super::hgv;
use super::line;
use super::words::*;

pub const HEADER: usize = 110;
pub const LINE: usize = 130;
pub const FOOTER: usize = 64;

fn header(hgv: &[u8], reception: &[u8], taken: usize, rejected: usize) -> Vec<u8> {
    let mut header = Vec::new();
    header.extend(b"0000002");
    header.extend(hgv::sender(hgv));
    header.extend(hgv::list_sequence(hgv));
    header.extend(reception);
    header.extend(format!("{taken:015}{rejected:015}").bytes());
    header.extend(b"120001");
    header.extend([b'0'; 25]);
    header.extend(if rejected == 0 { b"00" } else { b"01" });
    header.push(LF);
    header
}

/// Positions 2-127 as sent: Valid to is not the stored end.
fn rejected_line(sent: &[u8], reason: u8) -> Vec<u8> {
    let mut line = vec![b'1'];
    line.extend(line::text(sent));
    line.extend(format!("{reason:02}").bytes());
    line.push(LF);
    line
}

/// The HGV has the same footer.
pub fn footer() -> Vec<u8> {
    [&b"2"[..], &[b'0'; 62], &[LF]].concat()
}

pub fn confirmation(hgv: &[u8], reception: &[u8], verdicts: &[u8]) -> Vec<u8> {
    let taken = verdicts.iter().filter(|&&v| v == 0).count();
    let mut hgc = header(hgv, reception, taken, verdicts.len() - taken);
    for (line, &verdict) in hgv::lines(hgv).iter().zip(verdicts) {
        if verdict != 0 {
            hgc.extend(rejected_line(line, verdict));
        }
    }
    hgc.extend(footer());
    hgc
}

pub fn length_right(hgc: &[u8]) -> bool {
    hgc.len() >= HEADER + FOOTER && (hgc.len() - HEADER - FOOTER).is_multiple_of(LINE)
}

/// Wants a right length, as all that follow.
pub fn lines(hgc: &[u8]) -> Vec<&[u8]> {
    hgc[HEADER..hgc.len() - FOOTER].chunks(LINE).collect()
}

pub fn receiver(hgc: &[u8]) -> &[u8] {
    positions(hgc, 8, 13)
}

pub fn list_sequence(hgc: &[u8]) -> &[u8] {
    positions(hgc, 14, 32)
}

pub fn reception(hgc: &[u8]) -> &[u8] {
    positions(hgc, 33, 46)
}

pub fn taken(hgc: &[u8]) -> Option<u64> {
    number_of(positions(hgc, 47, 61))
}

pub fn rejected(hgc: &[u8]) -> Option<u64> {
    number_of(positions(hgc, 62, 76))
}

pub fn acceptance(hgc: &[u8]) -> &[u8] {
    positions(hgc, 108, 109)
}

pub fn reason(line: &[u8]) -> Option<u64> {
    number_of(positions(line, 128, 129))
}

fn header_right(hgc: &[u8]) -> bool {
    hgc[0] == b'0'
        && positions(hgc, 2, 7) == b"000002"
        && taken(hgc).is_some()
        && rejected(hgc).is_some()
        && positions(hgc, 77, 82) == b"120001"
        && all_zeros(positions(hgc, 83, 107))
        && matches!(acceptance(hgc), b"00" | b"01")
        && hgc[109] == LF
}

fn line_right(line: &[u8]) -> bool {
    line[0] == b'1' && line[129] == LF
}

/// The form of the fields that no other clause of 52 binds.
pub fn fields_right(hgc: &[u8]) -> bool {
    header_right(hgc) && lines(hgc).into_iter().all(line_right) && hgv::footer_right(&hgc[hgc.len() - FOOTER..])
}
