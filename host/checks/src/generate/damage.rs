//! Damage: one thing wrong at a time, so that a stop is reached and not an earlier one.

use super::line::put;
use super::rng::Rng;

pub fn change_one_byte(rng: &mut Rng, block: &mut [u8]) {
    if !block.is_empty() {
        let at = rng.below(block.len());
        block[at] = rng.other_byte(block[at]);
    }
}

/// Another length: cut or longer, by a byte, by a slot, by anything.
pub fn change_length(rng: &mut Rng, block: &mut Vec<u8>, unit: usize) {
    let by = [1, unit - 1, unit, unit + 1, rng.between(1, 300)][rng.below(5)];
    if rng.one_in(2) {
        block.truncate(block.len().saturating_sub(by));
    } else {
        block.resize(block.len() + by, b'0');
    }
}

pub fn wrong_mode(rng: &mut Rng) -> u64 {
    [0, 3, (1 << 32) + 1, (1 << 32) + 2, u64::MAX, 12][rng.below(6)]
}

pub fn wrong_time(rng: &mut Rng) -> Vec<u8> {
    let wrong: [&[u8]; 13] = [
        b"",
        b"2025031005000",
        b"202503100500000",
        b"20230229000000",
        b"19000229000000",
        b"20250310240000",
        b"20250310236000",
        b"20250310235960",
        b"00000101000000",
        b"20250001000000",
        b"20251301000000",
        b"2025031005000A",
        b"00000000000000",
    ];
    rng.pick(&wrong).to_vec()
}

const WRONG_ROWS: [&[u8]; 12] = [
    b"97990       0616900123  ",
    b"97990         0516900123",
    b"97990012      0516900123",
    b"97990012      0916900123",
    b"97990012      0808900123",
    b"97990012      0820900123",
    b"97990012      081690012A",
    b"97990012      6 16900123",
    b"97990012      08 9900123",
    b"9799001 2     0716900123",
    b" 7990012      0616900123",
    b"97990012345678151690012\x30",
];

pub fn damage_rows(rng: &mut Rng, rows: &mut Vec<u8>) {
    match rng.below(4) {
        0 => change_one_byte(rng, rows),
        1 => change_length(rng, rows, 24),
        2 => rows.extend(b"97990012      0816900123".repeat(65)),
        _ => rows.extend(rng.pick(&WRONG_ROWS)),
    }
}

/// A header field that breaks its form: where it begins, and what stands there.
const WRONG_HEADER: [(usize, &[&[u8]]); 12] = [
    (1, &[b"1", b"2", b" "]),
    (2, &[b"A", b" ", b"\xB2"]),
    (8, &[b"00000A", b"     2", b"00002 "]),
    (14, &[b"HGW", b"hgv", b"HGC", b"   "]),
    (17, &[b"999998"]),
    (23, &[b"20230229", b"19000229", b"00000101", b"20251301", b"20250300", b"2025031A"]),
    (31, &[b"00", b"0A", b" 1", b"1 "]),
    (
        33,
        &[
            b"HGV9999982025030901",
            b"HGV0000000000000001",
            b"HGW0000000000000000",
            b"0000000000000000000",
            b"                   ",
        ],
    ),
    (52, &[b"00000000000001", b"20250310050000", b"              "]),
    (66, &[b"              0", b"00000000000000A", b"-00000000000001"]),
    (81, &[b"00000000000000", b"20230229000000", b"20250310240000", b"2025031005000 "]),
    (101, &[b"1", b" ", b"000000000000000000000000001", b"000000000000000000000000000\r"]),
];

pub fn damage_header(rng: &mut Rng, hgv: &mut [u8]) {
    if rng.one_in(4) {
        return change_one_byte(rng, &mut hgv[..128]);
    }
    let (from, wrong) = WRONG_HEADER[rng.below(WRONG_HEADER.len())];
    put(hgv, from, rng.pick(wrong));
}

pub fn damage_version(rng: &mut Rng, hgv: &mut [u8]) {
    let wrong: [&[u8]; 6] = [b"120000", b"220002", b"500001", b"12\n001", b"      ", b"020001"];
    put(hgv, 95, rng.pick(&wrong));
}

pub fn damage_receiver(rng: &mut Rng, hgv: &mut [u8]) {
    put(hgv, 8, rng.pick(&[b"000001", b"000003", b"900123", b"200000"]));
}

pub fn damage_count(rng: &mut Rng, hgv: &mut [u8]) {
    let n = (hgv.len() - 192) as u64 / 128;
    let wrong = [n + 1, n.wrapping_sub(1) % 1_000_000, n + (1 << 32), 999_999_999_999_999];
    put(hgv, 66, format!("{:015}", wrong[rng.below(4)]).as_bytes());
}

pub fn damage_footer(rng: &mut Rng, hgv: &mut [u8]) {
    let from = hgv.len() - 64;
    match rng.below(4) {
        0 => hgv[from + 1..from + 63].fill(0),
        1 => hgv[from + 63] = rng.other_byte(b'\n'),
        2 => hgv[from] = rng.other_byte(b'2'),
        _ => change_one_byte(rng, &mut hgv[from..]),
    }
}

/// One line without `1` in front, without LF at its end, or with a byte below 32.
pub fn damage_line(rng: &mut Rng, hgv: &mut [u8]) {
    let n = (hgv.len() - 192) / 128;
    if n == 0 {
        return;
    }
    let from = 128 + 128 * rng.below(n);
    match rng.below(3) {
        0 => hgv[from] = rng.other_byte(b'1'),
        1 => hgv[from + 127] = rng.other_byte(b'\n'),
        _ => hgv[from + rng.between(1, 126)] = [31, 0, 9, 10, 13][rng.below(5)],
    }
}

pub fn damage_length(rng: &mut Rng, hgv: &mut Vec<u8>) {
    match rng.below(8) {
        0 => hgv.truncate(191),
        1 => hgv.clear(),
        2 if rng.one_in(20) => hgv.resize(192 + 128 * 8193, b'0'),
        _ => change_length(rng, hgv, 128),
    }
}
