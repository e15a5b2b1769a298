//! The real disk with a hook before each step that changes something. A write has two steps: in between, a part of the bytes
//! is there.

use graftspindle_cli::files::disk::Like;
use graftspindle_cli::files::{Disk, Real};
use std::io;
use std::path::Path;

pub struct Hooked<F: Fn() -> io::Result<()>>(pub F);

impl<F: Fn() -> io::Result<()>> Disk for Hooked<F> {
    fn read(&self, path: &Path, most: usize) -> io::Result<Vec<u8>> {
        Real.read(path, most)
    }
    fn exists(&self, path: &Path) -> io::Result<bool> {
        Real.exists(path)
    }
    fn write(&self, path: &Path, bytes: &[u8], like: Like) -> io::Result<()> {
        (self.0)()?;
        Real.write(path, &bytes[..bytes.len() / 2], like)?;
        (self.0)()?;
        Real.write(path, bytes, like)
    }
    fn rename(&self, from: &Path, to: &Path) -> io::Result<()> {
        (self.0)()?;
        Real.rename(from, to)
    }
    fn remove(&self, path: &Path) -> io::Result<()> {
        (self.0)()?;
        Real.remove(path)
    }
    fn sync_folder(&self, folder: &Path) -> io::Result<()> {
        (self.0)()?;
        Real.sync_folder(folder)
    }
    fn owner(&self, path: &Path) -> io::Result<u32> {
        Real.owner(path)
    }
    fn read_owned(&self, path: &Path, most: usize) -> io::Result<(Vec<u8>, u32)> {
        Real.read_owned(path, most)
    }
    fn user(&self) -> io::Result<u32> {
        Real.user()
    }
    fn number_of(&self, folder: &Path) -> io::Result<u64> {
        Real.number_of(folder)
    }
}

/// The real disk, on which nothing can be renamed to one place.
pub struct Shut(pub std::path::PathBuf);

impl Disk for Shut {
    fn read(&self, path: &Path, most: usize) -> io::Result<Vec<u8>> {
        Real.read(path, most)
    }
    fn exists(&self, path: &Path) -> io::Result<bool> {
        Real.exists(path)
    }
    fn write(&self, path: &Path, bytes: &[u8], like: Like) -> io::Result<()> {
        Real.write(path, bytes, like)
    }
    fn rename(&self, from: &Path, to: &Path) -> io::Result<()> {
        match to == self.0 {
            true => Err(io::Error::from(io::ErrorKind::PermissionDenied)),
            false => Real.rename(from, to),
        }
    }
    fn remove(&self, path: &Path) -> io::Result<()> {
        Real.remove(path)
    }
    fn sync_folder(&self, folder: &Path) -> io::Result<()> {
        Real.sync_folder(folder)
    }
    fn owner(&self, path: &Path) -> io::Result<u32> {
        Real.owner(path)
    }
    fn read_owned(&self, path: &Path, most: usize) -> io::Result<(Vec<u8>, u32)> {
        Real.read_owned(path, most)
    }
    fn user(&self) -> io::Result<u32> {
        Real.user()
    }
    fn number_of(&self, folder: &Path) -> io::Result<u64> {
        Real.number_of(folder)
    }
}
