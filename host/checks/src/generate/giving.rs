//! What a list is written from: accounts of the sender's rows, faults in some, and a buffer.

use std::collections::HashSet;

use super::file::{header, Header};
use super::giving_faults::damage;
use super::line::{put, reception, right_line};
use super::rng::Rng;
use super::world::World;
use crate::sample::account_of;
use graftspindle::raw::List;

pub const ACCOUNT: usize = 100;

/// Enough account numbers for the largest list.
const ACCOUNTS: usize = 20_000;

#[derive(Debug, Clone, PartialEq, Eq)]
pub struct Giving {
    pub version: u64,
    pub sender: Vec<u8>,
    pub date: Vec<u8>,
    pub number: u64,
    pub previous: Vec<u8>,
    pub creation: Vec<u8>,
    pub rows: Vec<u8>,
    pub accounts: Vec<u8>,
    /// The bytes of the buffer.
    pub room: usize,
    /// For each account the actor under whom a register holds its PAN, if one does.
    pub holders: Vec<Option<Vec<u8>>>,
}

impl Giving {
    pub fn list(&self) -> List<'_> {
        List {
            version: self.version,
            sender: &self.sender,
            date: &self.date,
            number: self.number,
            previous: &self.previous,
            creation: &self.creation,
            rows: &self.rows,
            accounts: &self.accounts,
        }
    }
}

/// A line that breaks none of L1 to L10. Its PAN is one of many, so that most are different.
fn line(rng: &mut Rng, world: &World, sender: &[u8], time: &[u8]) -> Vec<u8> {
    let mut line = right_line(rng, world, sender, time);
    put(&mut line, 14, &world.pan(rng, sender, ACCOUNTS));
    line
}

/// Accounts with different PANs, up to so many.
fn accounts(rng: &mut Rng, world: &World, sender: &[u8], most: usize) -> Vec<u8> {
    let time = reception(rng);
    let mut accounts: Vec<Vec<u8>> = Vec::new();
    for _ in 0..rng.below(most + 1) {
        let account = account_of(&line(rng, world, sender, &time));
        if accounts.iter().all(|other| other[..19] != account[..19]) {
            accounts.push(account);
        }
    }
    accounts.concat()
}

fn value(digits: &[u8]) -> u64 {
    digits.iter().fold(0, |n, digit| 10 * n + u64::from(digit - b'0'))
}

fn right_giving(rng: &mut Rng, world: &World) -> Giving {
    let sender = world.actor(rng);
    let Header { list, previous, creation, version, .. } = header(rng, &sender);
    let most = if rng.one_in(40) { 60 } else { 9 };
    let accounts = accounts(rng, world, &sender, most);
    Giving {
        version: value(&version),
        date: list[9..17].to_vec(),
        number: if rng.one_in(2) { value(&list[17..]) } else { rng.between(1, 99) as u64 },
        previous,
        creation,
        rows: world.bytes(),
        room: 192 + accounts.len() / ACCOUNT * 128,
        accounts,
        sender,
        holders: Vec::new(),
    }
}

/// The buffer is exact, one short, shorter, or longer.
fn set_room(rng: &mut Rng, giving: &mut Giving) {
    let exact = 192 + giving.accounts.len() / ACCOUNT * 128;
    giving.room = match rng.below(12) {
        0 | 1 => exact - 1,
        2 => rng.below(exact),
        3..=5 => exact,
        _ => exact + rng.below(300),
    };
}

/// A third of the PANs is held by another actor, a sixth by the sender.
fn holder(rng: &mut Rng, sender: &[u8]) -> Option<Vec<u8>> {
    match rng.below(6) {
        0 | 1 => Some(rng.pick(&[b"999999", b"900777"]).to_vec()),
        2 => Some(sender.to_vec()),
        _ => None,
    }
}

/// Half of the givings are right, a third has one fault, the rest has two; the buffer aside.
pub fn giving(seed: u64) -> Giving {
    let mut rng = Rng::new(seed);
    let world = World::new(&mut rng);
    let mut giving = right_giving(&mut rng, &world);
    let damages = [0, 0, 0, 1, 1, 2][rng.below(6)];
    for _ in 0..damages {
        damage(&mut rng, &world, &mut giving);
    }
    set_room(&mut rng, &mut giving);
    let n = giving.accounts.len() / ACCOUNT;
    giving.holders = (0..n).map(|_| holder(&mut rng, &giving.sender)).collect();
    giving
}

/// Thousands of accounts in no order, a PAN twice in some.
pub fn large_giving(seed: u64) -> Giving {
    let mut rng = Rng::new(seed);
    let world = World::new(&mut rng);
    let mut giving = right_giving(&mut rng, &world);
    let most = if rng.one_in(2) { 8192 } else { rng.between(500, 8192) };
    let (time, mut pans) = (reception(&mut rng), HashSet::new());
    let drawn = (0..2 * most).map(|_| account_of(&line(&mut rng, &world, &giving.sender, &time)));
    let different = drawn.filter(|account| pans.insert(account[..19].to_vec()));
    let mut accounts: Vec<Vec<u8>> = different.take(most).collect();
    if rng.one_in(2) {
        let (from, to) = (rng.below(accounts.len()), rng.below(accounts.len()));
        accounts[to] = accounts[from].clone();
    }
    giving.accounts = accounts.concat();
    giving.room = 192 + 128 * accounts.len();
    giving
}
