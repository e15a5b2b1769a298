//! What a stop left beside a register, undone where the import does not count and finished where it does.
//!
//! The import counts where the register is the one of after, by its digest; where the import changes no byte of it, where
//! no register is on its way any more. A register that is neither of the two, with none on its way, is not the note's: it
//! was perhaps restored from a backup, and the note's HGC would confirm what it does not hold.

use std::io;
use std::path::{Path, PathBuf};

use super::disk::{Disk, Like};
use super::fault::Fault;
use super::note::Note;
use super::place::Place;
use super::replacing::remove;
use super::words::{foreign, owed, stuck};
use crate::digest;
use graftspindle::sizes::{HGC_MOST, REGISTER_MOST};

/// What there was to do, and is done.
#[derive(Debug, PartialEq, Eq)]
pub enum Done {
    /// Nothing was left.
    Nothing,
    /// It did not count.
    Undone,
    /// Without a look at whether it counts.
    Discarded,
    /// The HGC stands there.
    Written(PathBuf),
}

/// What was found.
enum Left {
    Nothing,
    /// With the note, where that was written whole.
    ToUndo(Option<Note>),
    /// With the note's writer.
    ToFinish(Note, u32),
    /// The note is of another register.
    Foreign(Note),
}

/// More than any note has: the longest path of the system is 4,096 bytes.
const NOTE_MOST: usize = HGC_MOST + (1 << 16);

/// Whether a stop may have left something; an import that is at work has the same files.
pub fn is_left(disk: &dyn Disk, register: &Place) -> io::Result<bool> {
    Ok(disk.exists(&register.pending())? || disk.exists(&register.note())?)
}

/// The note's bytes and its writer: ours, the administrator's, or the register owner's. Others may have made it to have us
/// write where they may not.
fn believed(disk: &dyn Disk, register: &Place) -> Result<(Vec<u8>, u32), Fault> {
    let (note, words) = (register.note(), "it is neither the register owner's nor ours");
    let found = disk.read_owned(&note, NOTE_MOST).and_then(|(bytes, writer)| {
        let known = writer == 0 || disk.user().is_ok_and(|user| writer == user);
        match known || writer == disk.owner(register.path())? {
            true => Ok((bytes, writer)),
            false => Err(io::Error::other(words)),
        }
    });
    found.map_err(|fault| stuck(register, &format!("{} is not believed: {fault}", note.display())))
}

fn found(disk: &dyn Disk, register: &Place) -> Result<Left, Fault> {
    let on_its_way = disk.exists(&register.pending())?;
    if !disk.exists(&register.note())? {
        return Ok(if on_its_way { Left::ToUndo(None) } else { Left::Nothing });
    }
    let (bytes, writer) = believed(disk, register)?;
    let Some(note) = Note::read(&bytes) else {
        let damaged = || stuck(register, &format!("{} is damaged", register.note().display()));
        return if on_its_way { Ok(Left::ToUndo(None)) } else { Err(damaged()) };
    };
    let is_after = match disk.read(register.path(), REGISTER_MOST + 1) {
        Err(fault) if fault.kind() != io::ErrorKind::NotFound => return Err(fault.into()),
        now => now.is_ok_and(|bytes| digest::of(&bytes) == note.after),
    };
    Ok(match is_after && (note.before != note.after || !on_its_way) {
        true => Left::ToFinish(note, writer),
        false if on_its_way => Left::ToUndo(Some(note)),
        false => Left::Foreign(note),
    })
}

/// What a stop left, in words, if it left something. Nothing is changed.
pub fn state(disk: &dyn Disk, register: &Place) -> Result<Option<String>, Fault> {
    Ok(match found(disk, register)? {
        Left::Nothing => None,
        Left::ToUndo(_) => Some("an import was stopped before it counts, and the next command undoes it".to_string()),
        Left::ToFinish(note, _) => {
            Some(format!("an import counts, and its HGC for {} is still owed: register recover", note.out.display()))
        }
        Left::Foreign(note) => return Err(foreign(register, &note)),
    })
}

/// Undoes what does not count, and finishes what does.
pub fn recover(disk: &dyn Disk, register: &Place) -> Result<Done, Fault> {
    match found(disk, register)? {
        Left::Nothing => Ok(Done::Nothing),
        Left::ToUndo(note) => undo(disk, register, note),
        Left::ToFinish(note, writer) => {
            may_write(disk, register, &note, writer).map_err(|fault| owed(register, &note, &fault))?;
            finish(disk, register, &note, &note.out)
        }
        Left::Foreign(note) => Err(foreign(register, &note)),
    }
}

/// The same for one who says so, with the HGC to another place if he wants: also where the HGC's folder is another, or the
/// note another register's.
pub fn recover_by_hand(disk: &dyn Disk, register: &Place, out: Option<&Place>) -> Result<Done, Fault> {
    match (found(disk, register)?, out) {
        (Left::ToFinish(note, writer), None) => {
            is_the_writers(disk, register, &note, writer).map_err(|fault| owed(register, &note, &fault))?;
            finish(disk, register, &note, &note.out)
        }
        (Left::ToFinish(note, _) | Left::Foreign(note), Some(out)) => finish(disk, register, &note, out.path()),
        (Left::Foreign(note), None) => Err(foreign(register, &note)),
        (Left::ToUndo(note), _) => undo(disk, register, note),
        (Left::Nothing, _) => Ok(Done::Nothing),
    }
}

/// Removes what was left, with an HGC that is still owed.
pub fn discard(disk: &dyn Disk, register: &Place) -> Result<Done, Fault> {
    if !is_left(disk, register)? {
        return Ok(Done::Nothing);
    }
    let note = believed(disk, register).ok().and_then(|(bytes, _)| Note::read(&bytes));
    undo(disk, register, note).map(|_| Done::Discarded)
}

/// Where the note is another user's, the HGC on its way has to be his too: so he could write there himself.
fn is_the_writers(disk: &dyn Disk, register: &Place, note: &Note, writer: u32) -> io::Result<()> {
    let user = disk.user();
    if writer == 0 || user.as_ref().is_ok_and(|&user| user == writer) {
        return Ok(());
    }
    let owner = disk.owner(&Place::at(&note.out).pending_for(register))?;
    match owner == writer || user.is_ok_and(|user| user == owner) {
        true => Ok(()),
        false => Err(io::Error::other(format!("user {writer} began it, and has to finish it"))),
    }
}

fn may_write(disk: &dyn Disk, register: &Place, note: &Note, writer: u32) -> io::Result<()> {
    let out = Place::at(&note.out);
    if disk.number_of(out.folder())? != note.folder {
        return Err(io::Error::other(format!("{} is another folder than it was", out.folder().display())));
    }
    is_the_writers(disk, register, note, writer)
}

/// The register on its way goes last: without it the note's import would seem to count. What is left of the HGC on its
/// way, where it cannot be removed, is in nobody's way.
fn undo(disk: &dyn Disk, register: &Place, note: Option<Note>) -> Result<Done, Fault> {
    if let Some(note) = note {
        let _ = remove(disk, &Place::at(&note.out).pending_for(register));
    }
    remove(disk, &register.note())?;
    remove(disk, &register.pending())?;
    Ok(Done::Undone)
}

/// The HGC is written anew from the note, unless it stands there already.
fn finish(disk: &dyn Disk, register: &Place, note: &Note, out: &Path) -> Result<Done, Fault> {
    let written = disk.sync_folder(register.folder()).and_then(|()| write(disk, register, &note.hgc, &Place::at(out)));
    written.map_err(|fault| owed(register, note, &fault))?;
    if disk.exists(&register.pending())? {
        remove(disk, &register.pending())?;
    }
    if out != note.out {
        let _ = remove(disk, &Place::at(&note.out).pending_for(register));
    }
    remove(disk, &register.note())?;
    Ok(Done::Written(out.to_path_buf()))
}

fn write(disk: &dyn Disk, register: &Place, hgc: &[u8], out: &Place) -> io::Result<()> {
    let pending = out.pending_for(register);
    if disk.read(out.path(), hgc.len() + 1).is_ok_and(|there| there == hgc) {
        remove(disk, &pending)?;
    } else {
        disk.write(&pending, hgc, Like::Whole(out.path()))?;
        disk.rename(&pending, out.path())?;
    }
    disk.sync_folder(out.folder())
}
