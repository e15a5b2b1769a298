//! One fault in what a list is written from: each cause of 61, and of 62.

use super::damage::{change_one_byte, damage_rows, wrong_time};
use super::giving::{Giving, ACCOUNT};
use super::line::{break_rule, put};
use super::rng::Rng;
use super::world::World;
use crate::sample::{account_of, with_account};

const WRONG_VERSIONS: [u64; 12] = [
    0,
    1,
    20_001,
    120_000,
    120_002,
    220_000,
    220_002,
    500_001,
    1_120_001,
    (1 << 32) + 120_001,
    (1 << 32) + 220_001,
    u64::MAX,
];
const WRONG_NUMBERS: [u64; 6] = [0, 100, 257, 101, (1 << 32) + 1, u64::MAX];
const WRONG_SENDERS: [&[u8]; 7] = [b"", b"90012", b"9001233", b"90012A", b"      ", b"90012\xB2", b"999998"];
const WRONG_DATES: [&[u8]; 10] = [
    b"",
    b"2025031",
    b"202503100",
    b"20230229",
    b"19000229",
    b"00000101",
    b"20251301",
    b"20250300",
    b"2025031A",
    b"00000000",
];

/// A previous list of no or another sender, or no list's name.
fn wrong_previous(rng: &mut Rng, sender: &[u8]) -> Vec<u8> {
    let of_sender = |front: &[u8], back: &[u8]| [front, sender, back].concat();
    match rng.below(9) {
        0 => of_sender(b"HGV", b"2025030900"),
        1 => of_sender(b"HGV", b"2023022901"),
        2 => of_sender(b"HGV", rng.pick(&[b"202503090A", b"20250309 1", b"2025A30901"])),
        3 => of_sender(b"HGV", b"0000000000"),
        4 => of_sender(rng.pick(&[b"HGW", b"hgv", b"HGC", b"   "]), b"2025030901"),
        5 => of_sender(b"HGV", rng.pick::<[u8]>(&[b"202503090", b"20250309011", b""])),
        6 => rng.pick(&[b"HGV9999982025030901", b"HGV99999A2025030901"]).to_vec(),
        7 => rng.pick(&[b"HGV0000000000000001", b"HGW0000000000000000", b"0000000000000000000"]).to_vec(),
        _ => rng.pick::<[u8]>(&[b"", b"HGV", b"HGV000000000000000", b"HGV00000000000000000"]).to_vec(),
    }
}

fn damage_head(rng: &mut Rng, giving: &mut Giving) {
    match rng.below(6) {
        0 => giving.version = WRONG_VERSIONS[rng.below(WRONG_VERSIONS.len())],
        1 => giving.sender = rng.pick(&WRONG_SENDERS).to_vec(),
        2 => giving.date = rng.pick(&WRONG_DATES).to_vec(),
        3 => giving.number = WRONG_NUMBERS[rng.below(WRONG_NUMBERS.len())],
        4 => giving.previous = wrong_previous(rng, &giving.sender),
        _ => giving.creation = wrong_time(rng),
    }
}

fn forget_sender(giving: &mut Giving) {
    let others = giving.rows.chunks(24).filter(|row| row.get(18..) != Some(&giving.sender));
    giving.rows = others.flatten().copied().collect();
}

/// A length that is no multiple of 100: an account cut, or something behind the last.
fn damage_length(rng: &mut Rng, accounts: &mut Vec<u8>) {
    let by = [1, 99, 50, rng.between(1, 99)][rng.below(4)];
    if rng.one_in(2) {
        accounts.truncate(accounts.len().saturating_sub(by));
    } else {
        accounts.resize(accounts.len() + by, b'0');
    }
}

/// One column of one account wrong. A fault that stands outside of the account's columns is lost.
fn damage_account(rng: &mut Rng, world: &World, giving: &mut Giving) {
    let n = giving.accounts.len() / ACCOUNT;
    if n == 0 {
        return;
    }
    let from = ACCOUNT * rng.below(n);
    let account = &mut giving.accounts[from..from + ACCOUNT];
    let mut line = with_account(&[b'0'; 128], account);
    put(&mut line, 2, giving.sender.get(..6).unwrap_or(b"900123"));
    let rule = rng.between(1, 18).min(10);
    break_rule(rng, world, &mut line, rule);
    account.copy_from_slice(&account_of(&line));
}

/// A PAN of any provider's row: where it is another's, the sender has no row for it.
fn foreign_pan(rng: &mut Rng, world: &World, accounts: &mut [u8]) {
    let n = accounts.len() / ACCOUNT;
    if n > 0 {
        let (issuer, from) = (world.actor(rng), ACCOUNT * rng.below(n));
        accounts[from..from + 19].copy_from_slice(&world.pan(rng, &issuer, 4));
    }
}

/// An account more, with a PAN that stands before: in the same account, or in another.
fn double_pan(rng: &mut Rng, accounts: &mut Vec<u8>) {
    let n = accounts.len() / ACCOUNT;
    if n == 0 {
        return;
    }
    let (of, from) = (ACCOUNT * rng.below(n), ACCOUNT * rng.below(n));
    let again = [&accounts[of..of + 19], &accounts[from + 19..from + ACCOUNT]].concat();
    let at = ACCOUNT * rng.below(n + 1);
    accounts.splice(at..at, again);
}

/// One account more than there may be. All are right ones.
fn too_many(giving: &mut Giving) {
    if giving.accounts.len() >= ACCOUNT {
        giving.accounts = giving.accounts[..ACCOUNT].repeat(8193);
    }
}

pub fn damage(rng: &mut Rng, world: &World, giving: &mut Giving) {
    match rng.below(13) {
        0..=3 => damage_head(rng, giving),
        4 => damage_rows(rng, &mut giving.rows),
        5 => forget_sender(giving),
        6 if rng.one_in(20) => too_many(giving),
        6 => damage_length(rng, &mut giving.accounts),
        7 => change_one_byte(rng, &mut giving.accounts),
        8 | 9 => double_pan(rng, &mut giving.accounts),
        10 => foreign_pan(rng, world, &mut giving.accounts),
        _ => damage_account(rng, world, giving),
    }
}
