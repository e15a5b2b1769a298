//! What the functions of the definition answer. All but the number are 0 at a stop.

/// The answer of an import.
#[derive(Clone, Copy, Debug, Default, PartialEq, Eq)]
pub struct Imported {
    /// 0, or the number of the stop.
    pub number: u64,
    /// The lines taken.
    pub taken: u64,
    /// The lines rejected.
    pub rejected: u64,
    /// The bytes of the HGC, at the beginning of its buffer.
    pub length: u64,
}

/// The answer of reading back and of an update.
#[derive(Clone, Copy, Debug, Default, PartialEq, Eq)]
pub struct Counted {
    /// 0, or the number of the stop.
    pub number: u64,
    /// The lines taken.
    pub taken: u64,
    /// The lines rejected.
    pub rejected: u64,
}

/// The answer of the writer.
#[derive(Clone, Copy, Debug, Default, PartialEq, Eq)]
pub struct Written {
    /// 0, or the number of the refusal.
    pub number: u64,
    /// The bytes of the HGV, at the beginning of its buffer.
    pub length: u64,
}

/// The answer of a sweep.
#[derive(Clone, Copy, Debug, Default, PartialEq, Eq)]
pub struct Swept {
    /// 0, or the number of the refusal.
    pub number: u64,
    /// How many records went.
    pub removed: u64,
}

/// The answer of the time check.
#[derive(Clone, Copy, Debug, Default, PartialEq, Eq)]
pub struct Timed {
    /// 0, or 22 where the time is not real.
    pub number: u64,
    /// The seconds since 00010101000000.
    pub seconds: u64,
}
