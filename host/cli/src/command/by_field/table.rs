//! The fields of an HGV's header, lines and footer: the names of the definition and the positions of AP-3.1.

use super::{codes, moments, sayings};
use crate::command::texts;

/// What says a value in words.
pub enum Words {
    /// The value alone.
    OfValue(fn(&str) -> Option<String>),
    /// The value and its line's plate.
    BesidePlate(fn(&str, &str) -> Option<String>),
}

/// A field; its positions count from 1, and both belong to it.
pub struct Field {
    pub name: &'static str,
    pub from: usize,
    pub to: usize,
    words: Words,
}

const fn field(from: usize, to: usize, name: &'static str, words: fn(&str) -> Option<String>) -> Field {
    Field { name, from, to, words: Words::OfValue(words) }
}

pub static HEADER: [Field; 11] = [
    field(1, 1, "register identifier", codes::identifier),
    field(2, 7, "sender", sayings::sender),
    field(8, 13, "receiver", codes::receiver),
    field(14, 32, "list sequence", moments::sequence),
    field(33, 51, "previous sequence", moments::previous),
    field(52, 65, "activation", sayings::activation),
    field(66, 80, "count", sayings::count),
    field(81, 94, "creation", moments::creation),
    field(95, 100, "version", codes::version),
    field(101, 127, "filler", sayings::filler),
    field(128, 128, "line end", sayings::line_end),
];

pub static LINE: [Field; 22] = [
    field(1, 1, "register identifier", codes::identifier),
    field(2, 7, "actor", sayings::actor),
    field(8, 13, "shadow", sayings::shadow),
    field(14, 32, "PAN", sayings::pan),
    field(33, 42, "plate", sayings::plate),
    field(43, 45, "nationality", codes::nationality),
    field(46, 47, "tariff", codes::tariff),
    field(48, 48, "class", sayings::class),
    field(49, 49, "axles", sayings::axles),
    field(50, 61, "context mark", sayings::context_mark),
    field(62, 79, "OBE ID", sayings::obe_id),
    field(80, 85, "emission", codes::emission),
    field(86, 87, "fuel", codes::fuel),
    field(88, 88, "chargeable", codes::chargeable),
    field(89, 91, "rest of product code", sayings::rest_of_product_code),
    field(92, 94, "engine", codes::engine),
    field(95, 96, "CO2", sayings::co2),
    field(97, 100, "weight", sayings::weight),
    field(101, 114, "Valid to", moments::valid_to),
    Field { name: "separator", from: 115, to: 116, words: Words::BesidePlate(sayings::separator) },
    field(117, 127, "filler", sayings::filler),
    field(128, 128, "line end", sayings::line_end),
];

pub static FOOTER: [Field; 3] = [
    field(1, 1, "register identifier", codes::identifier),
    field(2, 63, "filler", sayings::filler),
    field(64, 64, "line end", sayings::line_end),
];

/// ISO 8859-1 as it is, control characters too.
pub fn text(bytes: &[u8]) -> String {
    bytes.iter().map(|&byte| char::from(byte)).collect()
}

impl Field {
    /// The bytes at its positions.
    pub fn value<'a>(&self, part: &'a [u8]) -> &'a [u8] {
        &part[self.from - 1..self.to]
    }

    /// What its value says; nothing where no table has it.
    pub fn words(&self, part: &[u8]) -> Option<String> {
        let value = text(self.value(part));
        match self.words {
            Words::OfValue(words) => words(&value),
            Words::BesidePlate(words) => words(&value, &texts::plate(part)),
        }
    }
}
