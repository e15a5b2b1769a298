//! Whether a line could have the tariff and the weight of a record. The writer is asked, which takes an account exactly where
//! its line breaks no rule of its own.

use super::fields::{TARIFF, WEIGHT};
use super::model::{Model, LIST};

/// The model account, in which nothing but the tariff and the weight can be at fault.
pub struct Weights(Model<'static>);

impl Weights {
    pub fn new() -> Weights {
        Weights(Model::of(LIST))
    }

    /// Of a record in order: its tariff is one of the list and its weight four digits, so that what is refused is the one
    /// beside the other.
    pub fn are_refused(&mut self, record: &[u8]) -> bool {
        for field in [TARIFF, WEIGHT] {
            self.0.put(field, field.of(record));
        }
        self.0.is_refused()
    }
}
