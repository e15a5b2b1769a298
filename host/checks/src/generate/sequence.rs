//! Imports by several providers into one register, one after the other, each by the provider's clock, and sweeps of it in
//! between.

use super::case::{lines, repeat_held};
use super::damage::{change_one_byte, wrong_mode, wrong_time};
use super::file::{header, hgv, register, slots};
use super::full::{full_list, pans_of};
use super::line::reception;
use super::offset::{edge, either, wrong_offset, Clocks};
use super::rng::Rng;
use super::sweeping::time;
use super::world::World;
use crate::plain;

/// What is handed over beside the register.
#[derive(Debug, Clone, PartialEq, Eq)]
pub struct Import {
    pub mode: u64,
    pub reception: Vec<u8>,
    pub offset: i64,
    pub rows: Vec<u8>,
    pub hgv: Vec<u8>,
    pub hgc_len: usize,
}

impl Import {
    pub fn sender(&self) -> &[u8] {
        &self.hgv[1..7]
    }
}

#[derive(Debug, Clone, PartialEq, Eq)]
pub enum Event {
    Import(Import),
    /// At this time.
    Sweep(Vec<u8>),
}

impl Event {
    pub fn import(&self) -> Option<&Import> {
        match self {
            Event::Import(import) => Some(import),
            Event::Sweep(_) => None,
        }
    }

    /// The register after it.
    fn happen(&self, register: &mut [u8]) {
        match self {
            Event::Import(Import { mode, reception, offset, rows, hgv, hgc_len }) => {
                plain::import(*mode, reception, *offset, register, rows, hgv, &mut vec![0; *hgc_len]);
            }
            Event::Sweep(time) => {
                plain::sweep(register, time);
            }
        }
    }
}

/// A full list of a sender who has records has mostly their accounts, or some of them.
fn import(rng: &mut Rng, world: &World, clocks: &mut Clocks, register: &[u8]) -> Import {
    let sender = world.actor(rng);
    let reception = if rng.one_in(20) { edge(rng) } else { reception(rng) };
    let offset = clocks.next(rng, &sender);
    let around = either(rng, &reception, offset);
    let mut header = header(rng, &sender);
    let mode = rng.between(1, 2) as u64;
    if mode == 2 && !rng.one_in(10) {
        header.version = b"120001".to_vec();
    }
    let mut lines = match mode == 2 && pans_of(register, &sender).len() > 1 && !rng.one_in(3) {
        true => full_list(rng, world, &sender, &around, register),
        false => lines(rng, world, &sender, &around, 7),
    };
    if mode == 1 {
        repeat_held(rng, &mut lines, register, &sender);
    }
    let hgc_len = 174 + 130 * lines.len();
    Import { mode, reception, offset, rows: world.bytes(), hgv: hgv(&header, &lines), hgc_len }
}

/// A few imports that are refused, each for one thing.
fn spoil(rng: &mut Rng, import: &mut Import) {
    match rng.below(6) {
        0 => import.mode = wrong_mode(rng),
        1 => import.reception = wrong_time(rng),
        2 => import.rows.truncate(import.rows.len() - 1),
        3 => change_one_byte(rng, &mut import.hgv),
        4 => import.offset = wrong_offset(rng),
        _ => import.hgc_len = rng.below(import.hgc_len),
    }
}

fn event(rng: &mut Rng, world: &World, clocks: &mut Clocks, register: &[u8]) -> Event {
    if rng.one_in(4) {
        return Event::Sweep(if rng.one_in(6) { wrong_time(rng) } else { time(rng, register) });
    }
    let mut import = import(rng, world, clocks, register);
    if rng.one_in(6) {
        spoil(rng, &mut import);
    }
    Event::Import(import)
}

/// The register that a sequence begins with: free, or with records of before, some of which are over a limit of weight. It has
/// few slots, so that 33 happens.
pub fn start(seed: u64) -> Vec<u8> {
    let world = World::new(&mut Rng::new(seed));
    let mut rng = Rng::new(seed ^ 0xABCD);
    let all = [0, 1, 4, 8, 16, 40][rng.below(6)];
    let most = if rng.one_in(2) { all / 2 } else { 0 };
    let used = slots(&mut rng, &world, most, None);
    register(&used, all - used.len())
}

/// The rows change on the way: an issuer may lose one or gain one.
pub fn sequence(seed: u64) -> Vec<Event> {
    let mut rng = Rng::new(seed);
    let mut world = World::new(&mut rng);
    let (mut events, mut register, mut clocks) = (Vec::new(), start(seed), Clocks::default());
    for _ in 0..rng.between(1, 18) {
        let event = event(&mut rng, &world, &mut clocks, &register);
        event.happen(&mut register);
        events.push(event);
        if rng.one_in(8) && world.rows.len() > 1 {
            let gone = rng.below(world.rows.len());
            world.rows.remove(gone);
        }
    }
    events
}
