//! Body lines that break no rule of their own, with values from both ends of each range.

use super::rng::Rng;
use super::world::{padded, World};

pub const PLATE_CHARACTERS: &[u8] =
    b"ABCDEFGHIJKLMNOPQRSTUVWXYZ0123456789abcdefghijklmnopqrstuvwxyz\xC4\xD6\xDC\xE4\xFC";
const HEX: &[u8] = b"0123456789ABCDEF";
const NATIONALITIES: [&[u8]; 5] = [b"NO ", b"SE ", b"DK ", b"AA ", b"ZZ "];
const TARIFFS: [&[u8]; 8] = [b"12", b"22", b"31", b"32", b"41", b"51", b"63", b"71"];
/// The tariffs that have a limit of weight.
const LIMITED: [&[u8]; 6] = [b"12", b"22", b"31", b"32", b"41", b"51"];
/// Both sides of each limit, and both ends; 0 is missing.
const WEIGHTS: [usize; 7] = [0, 1, 349, 350, 1199, 1200, 9999];
const EMISSIONS: [&[u8]; 9] = [b"0", b"EEV", b"Euro1", b"Euro2", b"Euro3", b"Euro4", b"Euro5", b"Euro6", b"Euro7"];
const FUELS: [&[u8]; 16] =
    [b"01", b"02", b"03", b"04", b"05", b"06", b"09", b"10", b"11", b"12", b"13", b"14", b"15", b"20", b"21", b"22"];
const ENGINES: [&[u8]; 7] = [b"000", b"001", b"006", b"009", b"051", b"052", b"255"];
pub const TIMES: [&[u8]; 8] = [
    b"00010101000000",
    b"20000229000000",
    b"20240229235959",
    b"20250101000000",
    b"20261231235959",
    b"24000229000000",
    b"20991130120000",
    b"99991231235959",
];

/// Writes a field from a position, which counts from 1.
pub fn put(text: &mut [u8], from: usize, field: &[u8]) {
    text[from - 1..from - 1 + field.len()].copy_from_slice(field);
}

/// A reception with room for a second on both sides.
pub fn reception(rng: &mut Rng) -> Vec<u8> {
    let year = rng.between(2024, 2026);
    let (month, day) = (rng.between(1, 12), rng.between(1, 28));
    let (hour, minute, second) = (rng.below(24), rng.below(60), rng.between(1, 58));
    format!("{year:04}{month:02}{day:02}{hour:02}{minute:02}{second:02}").into_bytes()
}

/// The last digits moved by one second, for a time that has room for it.
pub fn second_beside(time: &[u8], later: bool) -> Vec<u8> {
    let mut beside = time.to_vec();
    let second = (time[12] - b'0') * 10 + (time[13] - b'0');
    let second = if later { (second + 1).min(59) } else { second.saturating_sub(1) };
    put(&mut beside, 13, format!("{second:02}").as_bytes());
    beside
}

pub fn time_around(rng: &mut Rng, reception: &[u8]) -> Vec<u8> {
    match rng.below(6) {
        0 => reception.to_vec(),
        1 => second_beside(reception, true),
        2 => second_beside(reception, false),
        _ => rng.pick(&TIMES).to_vec(),
    }
}

pub fn plate(rng: &mut Rng) -> Vec<u8> {
    let known: [&[u8]; 5] = [b"ABC123", b"A", b"ABC123B", b"ABCDEFGHIJ", b"AB"];
    if rng.one_in(2) {
        return rng.pick(&known).to_vec();
    }
    let k = match rng.below(3) {
        0 => 1,
        1 => 10,
        _ => rng.between(1, 10),
    };
    rng.from_alphabet(PLATE_CHARACTERS, k)
}

/// All right separators of a plate of k characters, spelled out from the sentence.
pub fn right_separators(k: usize) -> Vec<[u8; 2]> {
    let mut right = vec![*b"00"];
    for p in 2..=9u8 {
        if usize::from(p) <= k {
            right.push([b'0' + p, b'0']);
        }
        for q in p + 2..=9 {
            if usize::from(q) <= k + 1 {
                right.push([b'0' + p, b'0' + q]);
            }
        }
    }
    right
}

pub fn wrong_separators(k: usize) -> Vec<[u8; 2]> {
    let right = right_separators(k);
    let all = (0..100u8).map(|pq| [b'0' + pq / 10, b'0' + pq % 10]);
    all.filter(|pq| !right.contains(pq)).collect()
}

/// The least and the most weight that a right line gives.
pub fn weights(tariff: &[u8]) -> (usize, usize) {
    match tariff {
        b"12" | b"22" => (1, 349),
        b"31" | b"32" => (350, 9999),
        b"41" => (350, 1199),
        b"51" => (1200, 9999),
        _ => (1, 9999),
    }
}

fn put_weight(line: &mut [u8], weight: usize) {
    put(line, 97, format!("{weight:04}").as_bytes());
}

/// A weight that the tariff allows, half of them beside a limit or missing.
fn put_right_weight(rng: &mut Rng, line: &mut [u8], tariff: &[u8]) {
    let (least, most) = weights(tariff);
    let mut edges = WEIGHTS.to_vec();
    edges.retain(|weight| *weight == 0 || (least..=most).contains(weight));
    let weight = if rng.one_in(2) { edges[rng.below(edges.len())] } else { rng.between(least, most) };
    put_weight(line, weight);
}

/// A weight on the wrong side of its tariff's limit. A line that was taken when 0350 counted as 3,500 kg is among these.
pub fn put_wrong_weight(rng: &mut Rng, line: &mut [u8]) {
    let tariff: &[u8] = rng.pick(&LIMITED);
    let (least, most) = weights(tariff);
    let mut edges = WEIGHTS.to_vec();
    edges.retain(|weight| *weight != 0 && !(least..=most).contains(weight));
    put(line, 46, tariff);
    put_weight(line, edges[rng.below(edges.len())]);
}

fn engine(rng: &mut Rng) -> Vec<u8> {
    if rng.one_in(2) {
        return rng.pick(&ENGINES).to_vec();
    }
    format!("{:03}", rng.below(53)).into_bytes()
}

pub fn valid_to(rng: &mut Rng, reception: &[u8]) -> Vec<u8> {
    if rng.one_in(3) {
        return vec![b'0'; 14];
    }
    time_around(rng, reception)
}

fn put_vehicle(rng: &mut Rng, line: &mut [u8]) {
    let plate = plate(rng);
    let separators = right_separators(plate.len());
    put(line, 33, &padded(&plate, 10));
    put(line, 43, rng.pick(&NATIONALITIES));
    put(line, 48, &rng.from_alphabet(b"0123456789 ", 2));
    put(line, 115, &separators[rng.below(separators.len())]);
}

fn put_equipment(rng: &mut Rng, line: &mut [u8]) {
    let tariff: &[u8] = rng.pick(&TARIFFS);
    put(line, 46, tariff);
    put(line, 50, &rng.from_alphabet(HEX, 12));
    put(line, 62, &rng.from_alphabet(HEX, 18));
    put(line, 80, &padded(rng.pick(&EMISSIONS), 6));
    put(line, 86, rng.pick(&FUELS));
    put(line, 88, &rng.from_alphabet(b"YN", 1));
    put(line, 92, &engine(rng));
    put(line, 95, &rng.digits(2));
    put_right_weight(rng, line, tariff);
}

/// A line that breaks none of L1 to L10 for its actor.
pub fn right_line(rng: &mut Rng, world: &World, actor: &[u8], reception: &[u8]) -> Vec<u8> {
    let mut line = vec![b' '; 128];
    put(&mut line, 1, b"1");
    put(&mut line, 2, actor);
    put(&mut line, 14, &world.pan(rng, actor, 4));
    put_vehicle(rng, &mut line);
    put_equipment(rng, &mut line);
    put(&mut line, 101, &valid_to(rng, reception));
    put(&mut line, 117, &[b'0'; 11]);
    put(&mut line, 128, b"\n");
    line
}

/// Field values just outside their sets: position and what stands there. Rule L10.
pub const WRONG_FIELDS: [(usize, &[&[u8]]); 14] = [
    (8, &[b"900123", b"     0", b"0     ", b"000000", b"\xA0     "]),
    (46, &[b"11", b"13", b"21", b"23", b"33", b"42", b"52", b"61", b"72", b"00", b"  ", b"1 "]),
    (48, &[b"A", b"-", b"\xB2", b"/", b":", b"\xA0"]),
    (49, &[b"A", b"-", b"\xB3", b"/", b":", b"\xA0"]),
    (
        80,
        &[
            b"Euro0 ", b"Euro8 ", b"Euro9 ", b"EURO6 ", b" Euro6", b"000000", b"00    ", b"EEV 1 ", b"eev   ",
            b"      ", b"Euro66", b"Euro  ", b"     0",
        ],
    ),
    (86, &[b"00", b"07", b"08", b"16", b"19", b"23", b"  ", b"1 ", b" 1", b"0A"]),
    (88, &[b" ", b"y", b"n", b"X", b"0"]),
    (89, &[b"000", b"  0", b"0  ", b" A "]),
    (92, &[b"053", b"254", b"256", b"600", b"999", b"   ", b"5  ", b" 52", b"-01"]),
    (95, &[b"  ", b"A1", b"1 ", b" 1"]),
    (97, &[b"    ", b"035O", b" 350", b"350 ", b"0.35"]),
    (
        101,
        &[
            b"00000000000001",
            b"              ",
            b"20230229000000",
            b"20250310240000",
            b"20251301000000",
            b"20250431000000",
            b"20250310235960",
            b"20250310236000",
            b"00000101000000",
            b"19000229000000",
            b"20250300000000",
            b"2025031005000 ",
        ],
    ),
    (115, &[b"  ", b"3 ", b" 3", b"0 ", b"A0"]),
    (117, &[b"00000000001", b"10000000000", b"           ", b"0000 000000"]),
];

const WRONG_PANS: [&[u8]; 5] = [
    b"                   ",
    b" 9799001200000002  ",
    b"97990012 00000002  ",
    b"979900120000000\xB2   ",
    b"9799001200000002\xA0  ",
];
const WRONG_ACTORS: [&[u8]; 5] = [b"90012A", b"      ", b"900129", b"90012 ", b"000003"];
const WRONG_PLATES: [&[u8]; 8] = [
    b"          ",
    b" ABC123   ",
    b"AB C123   ",
    b"ABC-123   ",
    b"ABC12\xF6    ",
    b"ABC12\xF9    ",
    b"ABC12\xDF    ",
    b"ABC123\xA0   ",
];
const WRONG_NATIONALITIES: [&[u8]; 8] = [b"   ", b"no ", b" NO", b"NO1", b"NOR", b"N  ", b"NO\xA0", b"\xC4X "];

/// Breaks L1 to L10 of a right line; 11 and 12 need the register or an earlier line.
pub fn break_rule(rng: &mut Rng, world: &World, line: &mut [u8], rule: usize) {
    match rule {
        1 => put(line, 14, rng.pick(&WRONG_PANS)),
        2 => put(line, 2, rng.pick(&WRONG_ACTORS)),
        3 => break_l3(rng, line),
        4 => break_l4(rng, world, line),
        5 => break_l5(rng, line),
        6 => put(line, 33, rng.pick(&WRONG_PLATES)),
        7 => put(line, 43, rng.pick(&WRONG_NATIONALITIES)),
        8 => break_hex(rng, line, 50, 12),
        9 => break_hex(rng, line, 62, 18),
        _ => break_l10(rng, line),
    }
}

fn digits_of(line: &[u8]) -> usize {
    line[13..32].iter().take_while(|b| b.is_ascii_digit()).count()
}

/// A BIN nobody has, or a PAN shorter than any BIN ID.
fn break_l3(rng: &mut Rng, line: &mut [u8]) {
    let k = digits_of(line);
    let (front, length): (&[u8], usize) = match rng.below(3) {
        0 => (b"", rng.between(1, 6)),
        _ => (b"123456", k),
    };
    put(line, 14, &padded(&super::world::pan_of(front, length, 7), 19));
}

/// Its own BIN, one digit more or less than the row says.
fn break_l4(rng: &mut Rng, world: &World, line: &mut [u8]) {
    let row = world.row_of(rng, &line[1..7]);
    let length = if row.pan < 19 && rng.one_in(2) { row.pan + 1 } else { row.pan - 1 };
    let pan = super::world::pan_of(&row.bin[..row.bin_id], length, rng.below(4));
    put(line, 14, &padded(&pan, 19));
}

/// A line broken before may have no digit in front any more.
fn break_l5(rng: &mut Rng, line: &mut [u8]) {
    let k = digits_of(line);
    if k > 0 {
        let last = 13 + k - 1;
        line[last] = b'0' + (line[last] - b'0' + rng.between(1, 9) as u8) % 10;
    }
}

fn break_hex(rng: &mut Rng, line: &mut [u8], from: usize, width: usize) {
    let wrong = rng.from_alphabet(b"abcfGgZ /:@\x7F\xB2 ", 1);
    if rng.one_in(6) {
        put(line, from, &vec![b' '; width]);
    } else {
        put(line, from + rng.below(width), &wrong);
    }
}

fn break_l10(rng: &mut Rng, line: &mut [u8]) {
    match rng.below(WRONG_FIELDS.len() + 6) {
        0..=3 => break_separator(rng, line),
        4 | 5 => put_wrong_weight(rng, line),
        field => {
            let (from, wrong) = WRONG_FIELDS[field - 6];
            put(line, from, rng.pick(wrong));
        }
    }
}

/// The wrong separators next to a right one, as far as digits reach.
fn separators_beside(k: usize) -> Vec<[u8; 2]> {
    let mut pairs = vec![(1, 0), (1, 3), (0, 2), (0, k), (k + 1, 0), (2, k + 2), (3, k + 2)];
    pairs.extend((2..=8).map(|p| (p, p + 1)));
    pairs.extend((2..=9).map(|p| (p, p)));
    let digits = pairs.into_iter().filter(|&(p, q)| p <= 9 && q <= 9);
    let wrong = wrong_separators(k);
    digits.map(|(p, q)| [b'0' + p as u8, b'0' + q as u8]).filter(|pq| wrong.contains(pq)).collect()
}

fn break_separator(rng: &mut Rng, line: &mut [u8]) {
    let k = line[32..42].iter().take_while(|&&b| b != b' ').count();
    let wrong = if rng.one_in(3) { wrong_separators(k) } else { separators_beside(k) };
    put(line, 115, &wrong[rng.below(wrong.len())]);
}
