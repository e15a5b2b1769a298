//! The two modes of a list.

/// What a list does to the records that are held for its sender.
#[derive(Clone, Copy, Debug, PartialEq, Eq, Hash)]
pub enum Mode {
    /// A taken line replaces the record with its PAN, or takes the next free slot; all other records stay.
    Incremental = 1,
    /// The sender's records go, and the taken lines follow: an account whose line was rejected is gone.
    Full = 2,
}

impl Mode {
    /// The definition's number of the mode.
    pub fn number(self) -> u64 {
        self as u64
    }
}
