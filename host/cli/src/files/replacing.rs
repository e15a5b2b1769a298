//! A register replaced together with its HGC.
//!
//! The order, each step on the disk before the next: the register on its way; the note, with the HGC in it; the HGC on its
//! way, which shows that its place takes it; the rename of the register, from which on the import counts; the rename of the
//! HGC; the note removed. What a stop in between leaves is the next start's (`left`).

use std::io;
use std::path::Path;

use super::disk::{Disk, Like};
use super::fault::Fault;
use super::left;
use super::note::Note;
use super::place::Place;
use super::words::counts;
use crate::digest;
use graftspindle::sizes::REGISTER_MOST;

/// An HGC and where it belongs.
pub type Hgc<'a> = (&'a Place, &'a [u8]);

/// Makes both new, or leaves both as they were.
pub fn replace(disk: &dyn Disk, register: &Place, bytes: &[u8], hgc: Option<Hgc>) -> Result<(), Fault> {
    let prepared = prepare(disk, register, bytes, hgc);
    if let Err(fault) = prepared.and_then(|()| disk.rename(&register.pending(), register.path())) {
        // What cannot be undone now is undone by the next start.
        let _ = left::recover(disk, register);
        return Err(fault.into());
    }
    finish(disk, register, hgc.map(|(place, _)| place)).map_err(|fault| counts(register, hgc, &fault))
}

fn prepare(disk: &dyn Disk, register: &Place, bytes: &[u8], hgc: Option<Hgc>) -> io::Result<()> {
    if let Some((place, _)) = hgc {
        // A name that cannot be is refused here: once noted it would stand in the way of every later start.
        disk.exists(&place.pending_for(register))?;
    }
    disk.write(&register.pending(), bytes, Like::Whole(register.path()))?;
    disk.sync_folder(register.folder())?;
    if let Some((place, text)) = hgc {
        disk.write(&register.note(), &note(disk, register, bytes, (place, text))?, Like::ButOwner(register.path()))?;
        disk.sync_folder(register.folder())?;
        disk.write(&place.pending_for(register), text, Like::Whole(place.path()))?;
    }
    Ok(())
}

fn note(disk: &dyn Disk, register: &Place, bytes: &[u8], (place, text): Hgc) -> io::Result<Vec<u8>> {
    let note = Note {
        out: place.path().to_path_buf(),
        folder: disk.number_of(place.folder())?,
        before: digest::of(&disk.read(register.path(), REGISTER_MOST + 1)?),
        after: digest::of(bytes),
        hgc: text.to_vec(),
    };
    Ok(note.bytes())
}

/// The HGC moves only once the register's rename is on the disk.
fn finish(disk: &dyn Disk, register: &Place, hgc: Option<&Place>) -> io::Result<()> {
    disk.sync_folder(register.folder())?;
    if let Some(place) = hgc {
        disk.rename(&place.pending_for(register), place.path())?;
        disk.sync_folder(place.folder())?;
        remove(disk, &register.note())?;
    }
    Ok(())
}

/// Where the name cannot be, its folder being none or gone, nothing is there.
fn is_there(disk: &dyn Disk, path: &Path) -> io::Result<bool> {
    use io::ErrorKind::{InvalidFilename, NotADirectory, NotFound};
    match disk.exists(path) {
        Err(fault) if matches!(fault.kind(), InvalidFilename | NotADirectory | NotFound) => Ok(false),
        answer => answer,
    }
}

/// Removes what has the name, and sees that it stays so.
pub fn remove(disk: &dyn Disk, path: &Path) -> io::Result<()> {
    let folder = path.parent().unwrap_or(Path::new("/"));
    if is_there(disk, path)? {
        disk.remove(path)?;
        return disk.sync_folder(folder);
    }
    // Removed before, perhaps by one who was stopped here; or never made, in a folder that takes no file and may not sync.
    let _ = disk.sync_folder(folder);
    Ok(())
}
