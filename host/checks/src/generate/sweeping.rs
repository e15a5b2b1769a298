//! A register and the time of a sweep.

use super::damage::wrong_time;
use super::disorder::damage_register;
use super::file::{register, slots, used};
use super::line::{reception, second_beside, TIMES};
use super::rng::Rng;
use super::world::World;

#[derive(Debug, Clone, PartialEq, Eq)]
pub struct Sweeping {
    pub register: Vec<u8>,
    pub time: Vec<u8>,
}

/// The ends of the records that have one.
fn ends(register: &[u8]) -> Vec<&[u8]> {
    used(register).map(|slot| &slot[100..114]).filter(|end| *end != [b'0'; 14]).collect()
}

/// An end that stands in the register, a second beside it, or any time.
pub fn time(rng: &mut Rng, register: &[u8]) -> Vec<u8> {
    let ends = ends(register);
    if ends.is_empty() || rng.one_in(4) {
        return if rng.one_in(2) { rng.pick(&TIMES).to_vec() } else { reception(rng) };
    }
    let end = rng.pick(&ends);
    match rng.below(3) {
        0 => end.to_vec(),
        beside => second_beside(end, beside == 1),
    }
}

/// Most are done; the others are refused for the time, for the register, or for both.
pub fn sweeping(seed: u64) -> Sweeping {
    let mut rng = Rng::new(seed);
    let world = World::new(&mut rng);
    let used = slots(&mut rng, &world, 16, None);
    let mut time = time(&mut rng, &used.concat());
    let mut register = register(&used, rng.below(4));
    if rng.one_in(4) {
        damage_register(&mut rng, &world, &mut register);
    }
    if rng.one_in(8) {
        time = wrong_time(&mut rng);
    }
    Sweeping { register, time }
}
