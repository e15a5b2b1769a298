//! The definition, plainly: linear searches, slices compared with `==`.

pub mod clock;
pub mod confirmation;
pub mod hgv;
pub mod import;
pub mod line;
pub mod lookup;
pub mod pairing;
pub mod provider;
pub mod register;
pub mod rows;
pub mod sweep;
pub mod verdict;
pub mod words;
pub mod writer;

pub use import::{import, import_indexed, rules_broken};
pub use lookup::{by_pan, by_plate};
pub use pairing::{Clause, CLAUSES};
pub use provider::{clauses_of_52, read_back, update};
pub use register::in_order;
pub use sweep::sweep;
pub use words::seconds;
pub use writer::{causes_of_61, write, Cause};
