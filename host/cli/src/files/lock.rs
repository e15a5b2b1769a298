//! The lock that keeps two imports of one register apart. It goes with the process that holds it, however that ends; its
//! file stays, since a lock on a removed file would lock nothing. Whoever may read or write the register may lock it: the
//! lock's file has the register's permissions and group, and is opened for writing where that is allowed.

use std::fs::{self, File, OpenOptions, Permissions, TryLockError};
use std::io;
use std::os::unix::fs::{fchown, MetadataExt, OpenOptionsExt, PermissionsExt};
use std::path::Path;
use std::time::{Duration, Instant};

use super::disk::told;
use super::fault::Fault;
use super::holder;
use super::place::Place;
use crate::say::warn;

/// Held as long as the value is there.
pub struct Lock(File);

impl Drop for Lock {
    /// Not left to the closing of the file: a process that this one is just starting has it open for a moment too.
    fn drop(&mut self) {
        let _ = self.0.unlock();
    }
}

/// None where nothing has the name. A link or a pipe is not opened.
fn open(path: &Path) -> io::Result<Option<File>> {
    match path.symlink_metadata() {
        Err(fault) if fault.kind() == io::ErrorKind::NotFound => return Ok(None),
        Err(fault) => return Err(fault),
        Ok(known) if !known.is_file() => return Err(io::Error::other("it is no plain file")),
        Ok(_) => (),
    }
    let opened = OpenOptions::new().read(true).write(true).open(path);
    opened.or_else(|_| File::open(path)).map(Some)
}

/// A second one who makes it at the same moment is let in front, and what he made is opened.
fn make(path: &Path, register: &Path) -> io::Result<File> {
    let made = OpenOptions::new().read(true).write(true).create_new(true).mode(0o640).open(path);
    let file = match made {
        Err(fault) if fault.kind() == io::ErrorKind::AlreadyExists => return open(path)?.ok_or(fault),
        made => made?,
    };
    if let Ok(known) = fs::metadata(register) {
        let _ = fchown(&file, None, Some(known.gid()));
        file.set_permissions(Permissions::from_mode(known.mode() & 0o666))?;
    }
    Ok(file)
}

fn file(place: &Place) -> io::Result<File> {
    let path = place.lock();
    let opened = open(&path).and_then(|opened| opened.map_or_else(|| make(&path, place.path()), Ok));
    opened.map_err(told("make the lock", &path))
}

/// How long nothing is said.
const QUIET: Duration = Duration::from_secs(1);
const TURN: Duration = Duration::from_millis(10);

/// Waits until it is free, or so long at the most, and says for whom.
pub fn take(place: &Place, wait: Option<Duration>) -> Result<Lock, Fault> {
    let (file, began, mut said) = (file(place)?, Instant::now(), false);
    while !is_locked(&file, place)? {
        let waited = began.elapsed();
        if wait.is_some_and(|wait| waited >= wait) {
            let words = format!("{} is in use by {}", place.path().display(), holder::of(&file));
            return Err(Fault::Busy(words));
        }
        if waited >= QUIET && !said {
            warn(&format!("waiting for {}, which holds {}", holder::of(&file), place.path().display()));
            said = true;
        }
        std::thread::sleep(TURN);
    }
    Ok(Lock(file))
}

/// None where another holds it.
pub fn try_take(place: &Place) -> io::Result<Option<Lock>> {
    let file = file(place)?;
    Ok(is_locked(&file, place)?.then_some(Lock(file)))
}

/// Who holds it, if someone does; nothing is made where there is no lock's file.
pub fn held_by(place: &Place) -> io::Result<Option<String>> {
    let Some(file) = open(&place.lock()).map_err(told("open the lock", &place.lock()))? else {
        return Ok(None);
    };
    match is_locked(&file, place)? {
        true => file.unlock().map(|()| None),
        false => Ok(Some(holder::of(&file))),
    }
}

fn is_locked(file: &File, place: &Place) -> io::Result<bool> {
    match file.try_lock() {
        Ok(()) => Ok(true),
        Err(TryLockError::WouldBlock) => Ok(false),
        Err(TryLockError::Error(fault)) => Err(told("lock", &place.lock())(fault)),
    }
}
