//! A slot of a register, by its parts.

use crate::sizes::{LIST, RECORD, SLOT, TIME};

/// A slot where it stands in its register: a record, and the stamp of the file that touched it last. A free one is zero bytes.
#[derive(Clone, Copy, Debug, PartialEq, Eq)]
pub struct Slot<'a>(&'a [u8; SLOT]);

impl<'a> Slot<'a> {
    pub(crate) fn at(bytes: &'a [u8; SLOT]) -> Slot<'a> {
        Slot(bytes)
    }

    /// All of it: the register's own bytes.
    pub fn bytes(self) -> &'a [u8] {
        self.0
    }

    /// The taken line with its end, `1` in front and LF behind: positions 1 to 128.
    pub fn record(self) -> &'a [u8] {
        &self.0[..RECORD]
    }

    /// The list sequence of the file whose line was taken last for this account: positions 129 to 147.
    pub fn list(self) -> &'a [u8] {
        &self.0[RECORD..RECORD + LIST]
    }

    /// When that file was received, UTC, `YYYYMMDDhhmmss`: positions 148 to 161.
    pub fn received(self) -> &'a [u8] {
        &self.0[RECORD + LIST..RECORD + LIST + TIME]
    }
}
