//! A register and its HGC on disk: they stand or fall together, since a provider applies what the HGC says.
//!
//! Both are written beside their places and synced first. The rename of the register is the moment at which the import
//! counts. What a stop in between leaves is undone before that moment and finished after it, by the next start; the HGC
//! is kept beside the register until it stands where it belongs.

pub mod disk;
pub mod fault;
mod holder;
pub mod left;
pub mod lock;
pub mod note;
pub mod place;
pub mod private;
pub mod replacing;
mod words;

use std::io;
use std::time::Duration;

use crate::say::warn;
pub use disk::{Disk, Real};
pub use fault::Fault;
use graftspindle::sizes::REGISTER_MOST;
use lock::Lock;
pub use place::Place;

/// How long another may be waited for; none is as long as it takes.
pub type Wait = Option<Duration>;

/// A register's place, locked, with nothing left over from an earlier stop.
pub struct Held<'a> {
    disk: &'a dyn Disk,
    place: Place,
    recovered: left::Done,
    _lock: Lock,
}

impl<'a> Held<'a> {
    /// Waits while another holds it, so long at the most where a time is given.
    pub fn take(disk: &'a dyn Disk, place: Place, wait: Wait) -> Result<Held<'a>, Fault> {
        let lock = lock::take(&place, wait)?;
        let recovered = recover_and_say(disk, &place)?;
        Ok(Held { disk, place, recovered, _lock: lock })
    }

    /// Whether the HGC of an earlier import was written to this place just now, by taking the register.
    pub fn has_written(&self, out: &Place) -> bool {
        matches!(&self.recovered, left::Done::Written(written) if written == out.path())
    }

    /// The register's bytes.
    pub fn read(&self) -> io::Result<Vec<u8>> {
        self.disk.read(self.place.path(), REGISTER_MOST + 1)
    }

    /// Whether there is a file at the place.
    pub fn is_there(&self) -> io::Result<bool> {
        self.disk.exists(self.place.path())
    }

    /// Makes register and HGC new, or leaves both as they were.
    pub fn replace(&self, register: &[u8], hgc: Option<replacing::Hgc>) -> Result<(), Fault> {
        replacing::replace(self.disk, &self.place, register, hgc)
    }
}

/// An import that was stopped is known to nobody: that it counts is said by who finds it.
fn recover_and_say(disk: &dyn Disk, place: &Place) -> Result<left::Done, Fault> {
    let done = left::recover(disk, place)?;
    if let left::Done::Written(out) = &done {
        let (name, out) = (place.path().display(), out.display());
        warn(&format!("an import of {name} was stopped before its end; it counts, and its HGC is {out}"));
    }
    Ok(done)
}

/// Finishes or undoes what a stop left, for one who only reads. The register is whole at any moment, so that he needs
/// no lock: where another holds it, that other is at work and nothing was left.
pub fn tidy(disk: &dyn Disk, place: &Place) -> Result<(), Fault> {
    if !left::is_left(disk, place)? {
        return Ok(());
    }
    match lock::try_take(place)? {
        Some(_lock) => recover_and_say(disk, place).map(|_| ()),
        None => Ok(()),
    }
}

/// The same by hand, with the HGC to another place if that is wanted.
pub fn recover(disk: &dyn Disk, place: &Place, out: Option<&Place>, wait: Wait) -> Result<left::Done, Fault> {
    let _lock = lock::take(place, wait)?;
    left::recover_by_hand(disk, place, out)
}

/// Removes what a stop left.
pub fn discard(disk: &dyn Disk, place: &Place, wait: Wait) -> Result<left::Done, Fault> {
    let _lock = lock::take(place, wait)?;
    left::discard(disk, place)
}

/// Whole or not at all, with nothing that stands or falls with it.
pub fn write_alone(disk: &dyn Disk, place: Place, bytes: &[u8], wait: Wait) -> Result<(), Fault> {
    Held::take(disk, place, wait)?.replace(bytes, None)
}
