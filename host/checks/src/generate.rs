//! Inputs from a seed: right ones, both sides of each limit, and damaged ones.

pub mod case;
pub mod damage;
pub mod disorder;
pub mod file;
pub mod full;
pub mod giving;
pub mod giving_faults;
pub mod index;
pub mod large;
pub mod line;
pub mod offset;
pub mod pair;
pub mod question;
pub mod rng;
pub mod sequence;
pub mod sweeping;
pub mod world;

pub use case::{case, Case};
pub use giving::{giving, large_giving, Giving};
pub use index::{index, index_of, Index};
pub use large::large;
pub use pair::{pair, Pair};
pub use question::{question, Question};
pub use sequence::{sequence, start, Event, Import};
pub use sweeping::{sweeping, Sweeping};
