//! The register of a road, or a provider's copy of his part of it, as one value.

use std::ops::Range;

use crate::number::unless_refused;
use crate::sizes::SLOT;
use crate::{raw, Mode, Number, Offset, Slot};

/// What is handed over with a register to import an HGV into it.
#[derive(Clone, Copy, Debug)]
pub struct Import<'a> {
    /// Whether the list is an incremental or a full one.
    pub mode: Mode,
    /// The moment at which the HGV was received, UTC, `YYYYMMDDhhmmss`.
    pub reception: &'a [u8],
    /// By how much the HGC shows that moment later, in local time. Ends and stamps are UTC.
    pub offset: Offset,
    /// The issuer rows, 24 bytes each.
    pub rows: &'a [u8],
    /// The whitelist, from the first byte of its header to the last of its footer.
    pub hgv: &'a [u8],
}

/// How many lines of an HGV were taken and rejected.
#[derive(Clone, Copy, Debug, PartialEq, Eq)]
pub struct Counts {
    /// The lines that break no rule.
    pub taken: u64,
    /// The lines that the HGC returns with their reasons.
    pub rejected: u64,
}

/// A register: slots in one block, the used ones in front.
#[derive(Clone, Debug, PartialEq, Eq)]
pub struct Register(Vec<u8>);

/// A key that is in form, so that only the register is judged.
const ANY_PAN: &[u8; 19] = b"0                  ";

/// More slots than any register has.
const TOO_MANY: usize = 1 << 16;

impl Register {
    /// A register of so many free slots.
    pub fn free(slots: usize) -> Result<Register, Number> {
        // So many at the most are made to be judged: where there are too many, these are too many already.
        let register = Register(vec![0; slots.min(TOO_MANY) * SLOT]);
        register.in_order().map(|()| register)
    }

    /// Takes any bytes: what is not in order is refused by each call.
    pub fn from_bytes(bytes: Vec<u8>) -> Register {
        Register(bytes)
    }

    /// The block, to be kept.
    pub fn bytes(&self) -> &[u8] {
        &self.0
    }

    /// Whether the register is in order, 23 where it is not.
    pub fn in_order(&self) -> Result<(), Number> {
        match self.by_pan(ANY_PAN) {
            Err(Number::Order) => Err(Number::Order),
            _ => Ok(()),
        }
    }

    /// Imports an HGV: the counts, and the HGC for its sender. Register and HGC belong together, so keep both or neither.
    pub fn import(&mut self, given: &Import) -> Result<(Counts, Vec<u8>), Number> {
        // A number for each slot, so that none is short (36). It is proved that any numbers do: zeros are as good as what a call
        // before has left, and nothing is read from them afterwards.
        let mut index = vec![0; self.0.len() / SLOT];
        let Import { mode, reception, offset, rows, hgv } = *given;
        let (mode, offset, register) = (mode.number(), offset.minutes(), &mut self.0);
        confirmed(hgv, |hgc| raw::import_indexed(mode, reception, offset, register, rows, hgv, hgc, &mut index))
    }

    /// The same, with a search over everything for every line: it is proved that both answer alike and leave the same register
    /// and the same HGC. For who compares the two; on large files it takes many times as long.
    pub fn import_plain(&mut self, given: &Import) -> Result<(Counts, Vec<u8>), Number> {
        let Import { mode, reception, offset, rows, hgv } = *given;
        let (mode, offset, register) = (mode.number(), offset.minutes(), &mut self.0);
        confirmed(hgv, |hgc| raw::import(mode, reception, offset, register, rows, hgv, hgc))
    }

    /// The slot itself that holds the PAN: 19 bytes, digits and then blanks.
    pub fn by_pan(&self, pan: &[u8]) -> Result<Slot<'_>, Number> {
        self.found(raw::by_pan(&self.0, pan))
    }

    /// The slot itself, of the one record with the plate (10 bytes) and the nationality (3) that is active at the time.
    pub fn by_plate(&self, plate: &[u8], nationality: &[u8], time: &[u8]) -> Result<Slot<'_>, Number> {
        self.found(raw::by_plate(&self.0, plate, nationality, time))
    }

    fn found(&self, (number, part): (u64, Range<usize>)) -> Result<Slot<'_>, Number> {
        unless_refused(number, ())?;
        Ok(Slot::at(self.0[part].try_into().expect("it is proved that a lookup answers a whole slot")))
    }

    /// The provider's update of this copy of his: applies the lines of the HGV that its HGC says were taken. Mode and offset are
    /// those of the import; with another offset ends and stamps are others than ours.
    pub fn update(&mut self, mode: Mode, offset: Offset, hgv: &[u8], hgc: &[u8]) -> Result<Counts, Number> {
        let done = raw::update(mode.number(), offset.minutes(), &mut self.0, hgv, hgc);
        unless_refused(done.number, Counts { taken: done.taken, rejected: done.rejected })
    }

    /// Removes every record that has ended by the time, `YYYYMMDDhhmmss`, and says how many went: those whose end is not zeros
    /// and not later. The others close up in order, and the freed slots are the next import's. Every provider sweeps his copy
    /// at the same time, between the same lists of his, or it no longer holds what is held for him.
    pub fn sweep(&mut self, time: &[u8]) -> Result<u64, Number> {
        let done = raw::sweep(&mut self.0, time);
        unless_refused(done.number, done.removed)
    }

    /// All slots, used and free, of a register in order.
    pub fn slots(&self) -> impl Iterator<Item = Slot<'_>> {
        self.0.as_chunks().0.iter().map(Slot::at)
    }

    /// The slots that are not free, of a register in order.
    pub fn records(&self) -> impl Iterator<Item = Slot<'_>> {
        self.slots().take_while(|slot| slot.bytes()[0] != 0)
    }
}

/// The counts and the HGC of an import, which is lent room enough for it: an HGC is never twice as long as its HGV.
fn confirmed(hgv: &[u8], import: impl FnOnce(&mut [u8]) -> raw::Imported) -> Result<(Counts, Vec<u8>), Number> {
    let mut hgc = vec![0; 2 * hgv.len()];
    let done = import(&mut hgc);
    hgc.truncate(done.length as usize);
    unless_refused(done.number, (Counts { taken: done.taken, rejected: done.rejected }, hgc))
}

/// Whether issuer rows are in form, 24 where they are not: an import judges them before it looks at the HGV, and no HGV is
/// empty.
pub fn rows_in_form(rows: &[u8]) -> Result<(), Number> {
    unless_refused_by(Number::Rows, &Import { rows, ..NOTHING })
}

/// Whether an offset is in range, 22 where it is not: an import judges it beside its reception, which here is far from both ends
/// of the calendar.
pub fn offset_in_range(offset: Offset) -> Result<(), Number> {
    unless_refused_by(Number::Time, &Import { offset, ..NOTHING })
}

/// What no import takes, though not for what stands in front of the HGV.
const NOTHING: Import =
    Import { mode: Mode::Incremental, reception: b"20000101000000", offset: Offset::UTC, rows: &[], hgv: &[] };

/// Whether an import into no slots is refused by this number.
fn unless_refused_by(number: Number, given: &Import) -> Result<(), Number> {
    match Register(Vec::new()).import(given) {
        Err(refused) if refused == number => Err(number),
        _ => Ok(()),
    }
}
