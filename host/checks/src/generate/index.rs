//! Indexes that are lent to an import: how many numbers beside the slots, and which.

use super::rng::Rng;

/// How long an index is.
#[derive(Clone, Copy, Debug, PartialEq, Eq, PartialOrd, Ord)]
pub enum Length {
    Empty,
    OneLess,
    Fewer,
    Exact,
    OneMore,
    More,
    /// More than 16 bits count.
    Far,
}

/// What an index holds.
#[derive(Clone, Copy, Debug, PartialEq, Eq, PartialOrd, Ord)]
pub enum State {
    Zeros,
    /// 65,535 in each place.
    Highest,
    /// Any numbers.
    Any,
    /// The slots' numbers in their order.
    Places,
    /// The same from the last to the first.
    Backwards,
    /// The same in any order.
    Shuffled,
    /// One slot's number in each place.
    OnePlace,
    /// The number of slots in each place: the least that is none of theirs.
    Behind,
}

pub const LONG_ENOUGH: [Length; 4] = [Length::Exact, Length::OneMore, Length::More, Length::Far];

pub const STATES: [State; 8] = [
    State::Zeros,
    State::Highest,
    State::Any,
    State::Places,
    State::Backwards,
    State::Shuffled,
    State::OnePlace,
    State::Behind,
];

#[derive(Clone, Debug, PartialEq, Eq)]
pub struct Index {
    pub length: Length,
    pub state: State,
    pub numbers: Vec<u16>,
}

/// Where there are no slots, none is short.
fn count(rng: &mut Rng, length: Length, slots: usize) -> usize {
    match length {
        Length::Empty => 0,
        Length::OneLess => slots - 1,
        Length::Fewer => rng.below(slots),
        Length::Exact => slots,
        Length::OneMore => slots + 1,
        Length::More => slots + rng.between(2, 40),
        Length::Far => slots + (1 << 16) - rng.below(2),
    }
}

fn shuffle(rng: &mut Rng, numbers: &mut [u16]) {
    for last in (1..numbers.len()).rev() {
        numbers.swap(last, rng.below(last + 1));
    }
}

fn numbers(rng: &mut Rng, state: State, slots: usize, count: usize) -> Vec<u16> {
    let place = rng.below(slots.max(1));
    let number = |rng: &mut Rng, at: usize| match state {
        State::Zeros => 0,
        State::Highest => usize::from(u16::MAX),
        State::Any => rng.below(1 << 16),
        State::Places | State::Shuffled => at,
        State::Backwards => count - 1 - at,
        State::OnePlace => place,
        State::Behind => slots,
    };
    let mut numbers: Vec<u16> = (0..count).map(|at| number(rng, at) as u16).collect();
    if state == State::Shuffled {
        shuffle(rng, &mut numbers);
    }
    numbers
}

/// An index of this length and state for so many slots.
pub fn index_of(rng: &mut Rng, length: Length, state: State, slots: usize) -> Index {
    let count = count(rng, length, slots);
    Index { length, state, numbers: numbers(rng, state, slots, count) }
}

/// Three of four are long enough.
pub fn index(rng: &mut Rng, slots: usize) -> Index {
    let length = match rng.below(40) {
        0..2 if slots > 0 => Length::Empty,
        2..7 if slots > 0 => Length::OneLess,
        7..10 if slots > 0 => Length::Fewer,
        10..15 => Length::OneMore,
        15..20 => Length::More,
        20 => Length::Far,
        _ => Length::Exact,
    };
    let state = STATES[rng.below(STATES.len())];
    index_of(rng, length, state, slots)
}
