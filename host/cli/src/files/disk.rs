//! The steps on files that keeping takes, apart from what they are used for: tests stop or fail each of them.

use std::fs::{self, File, Metadata, OpenOptions};
use std::io::{self, Read, Write};
use std::os::unix::fs::{fchown, MetadataExt, OpenOptionsExt};
use std::path::Path;

/// The file whose permissions and group a new one gets, where it is there; and its owner, or that of the process.
#[derive(Clone, Copy)]
pub enum Like<'a> {
    /// With its owner, where root runs the command.
    Whole(&'a Path),
    /// The owner is who runs the command.
    ButOwner(&'a Path),
}

/// What keeping files asks of a file system.
pub trait Disk {
    /// At most so many bytes from the file's beginning.
    fn read(&self, path: &Path, most: usize) -> io::Result<Vec<u8>>;
    /// Whether something has the name: a file, a folder, a link wherever it leads.
    fn exists(&self, path: &Path) -> io::Result<bool>;
    /// Makes the file: what had the name goes, and no link is followed. The bytes are on the disk when it returns; the
    /// file's name is only after `sync_folder`.
    fn write(&self, path: &Path, bytes: &[u8], like: Like) -> io::Result<()>;
    /// What had the other name is replaced at one stroke.
    fn rename(&self, from: &Path, to: &Path) -> io::Result<()>;
    /// A link goes itself, not what it leads to.
    fn remove(&self, path: &Path) -> io::Result<()>;
    /// The names in the folder are on the disk when it returns.
    fn sync_folder(&self, folder: &Path) -> io::Result<()>;
    /// Whose file it is; a fault where it is no plain file.
    fn owner(&self, path: &Path) -> io::Result<u32>;
    /// At most so many bytes of a plain file, and whose it is: of one and the same file, and of no link.
    fn read_owned(&self, path: &Path, most: usize) -> io::Result<(Vec<u8>, u32)>;
    /// Who runs the command; a fault where the system does not say.
    fn user(&self) -> io::Result<u32>;
    /// By which a folder is known again.
    fn number_of(&self, folder: &Path) -> io::Result<u64>;
}

/// The file system that there is.
pub struct Real;

/// What holds PANs is nobody's but the owner's and the group's, unless the file was there and is otherwise.
const PRIVATE: u32 = 0o640;

/// The fault with what was tried, its kind kept.
pub fn told(what: &str, path: &Path) -> impl FnOnce(io::Error) -> io::Error {
    let tried = format!("cannot {what} {}", path.display());
    move |fault| io::Error::new(fault.kind(), format!("{tried}: {fault}"))
}

fn read_at_most(path: &Path, most: usize) -> io::Result<Vec<u8>> {
    let mut bytes = Vec::new();
    File::open(path)?.take(most as u64).read_to_end(&mut bytes)?;
    Ok(bytes)
}

/// Only root can give a file to another owner; for anyone else the new file is his own.
fn keep(file: &File, known: &Metadata, owner: bool) -> io::Result<()> {
    let made = file.metadata()?;
    if made.gid() != known.gid() {
        let words = |fault| io::Error::other(format!("its group {} cannot be kept: {fault}", known.gid()));
        fchown(file, None, Some(known.gid())).map_err(words)?;
    }
    file.set_permissions(known.permissions())?;
    if owner && made.uid() != known.uid() {
        let _ = fchown(file, Some(known.uid()), None);
    }
    Ok(())
}

fn write_and_sync(path: &Path, bytes: &[u8], like: Like) -> io::Result<()> {
    match fs::remove_file(path) {
        Err(fault) if fault.kind() != io::ErrorKind::NotFound => return Err(fault),
        _ => (),
    }
    let mut file = OpenOptions::new().write(true).create_new(true).mode(PRIVATE).open(path)?;
    let (Like::Whole(known) | Like::ButOwner(known)) = like;
    if let Ok(known) = fs::metadata(known) {
        keep(&file, &known, matches!(like, Like::Whole(_)))?;
    }
    file.write_all(bytes)?;
    file.sync_all()
}

fn plain(path: &Path) -> io::Result<Metadata> {
    let known = path.symlink_metadata()?;
    if !known.is_file() {
        return Err(io::Error::other("it is no plain file"));
    }
    Ok(known)
}

fn read_owned(path: &Path, most: usize) -> io::Result<(Vec<u8>, u32)> {
    let named = plain(path)?;
    let file = File::open(path)?;
    let known = file.metadata()?;
    if (named.dev(), named.ino()) != (known.dev(), known.ino()) {
        return Err(io::Error::other("it was exchanged meanwhile"));
    }
    let mut bytes = Vec::new();
    file.take(most as u64).read_to_end(&mut bytes)?;
    Ok((bytes, known.uid()))
}

impl Disk for Real {
    fn read(&self, path: &Path, most: usize) -> io::Result<Vec<u8>> {
        read_at_most(path, most).map_err(told("read", path))
    }

    fn exists(&self, path: &Path) -> io::Result<bool> {
        match path.symlink_metadata() {
            Err(fault) if fault.kind() == io::ErrorKind::NotFound => Ok(false),
            found => found.map(|_| true).map_err(told("look for", path)),
        }
    }

    fn write(&self, path: &Path, bytes: &[u8], like: Like) -> io::Result<()> {
        write_and_sync(path, bytes, like).map_err(told("write", path))
    }

    fn rename(&self, from: &Path, to: &Path) -> io::Result<()> {
        fs::rename(from, to).map_err(told("write", to))
    }

    fn remove(&self, path: &Path) -> io::Result<()> {
        fs::remove_file(path).map_err(told("remove", path))
    }

    fn sync_folder(&self, folder: &Path) -> io::Result<()> {
        File::open(folder).and_then(|folder| folder.sync_all()).map_err(told("sync", folder))
    }

    fn owner(&self, path: &Path) -> io::Result<u32> {
        plain(path).map(|known| known.uid()).map_err(told("believe", path))
    }

    fn read_owned(&self, path: &Path, most: usize) -> io::Result<(Vec<u8>, u32)> {
        read_owned(path, most).map_err(told("believe", path))
    }

    fn user(&self) -> io::Result<u32> {
        Ok(fs::metadata("/proc/self")?.uid())
    }

    fn number_of(&self, folder: &Path) -> io::Result<u64> {
        fs::metadata(folder).map(|known| known.ino()).map_err(told("find", folder))
    }
}
