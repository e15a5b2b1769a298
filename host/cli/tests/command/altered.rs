//! The model of a disk, on which some steps do nothing or fail.

use crate::model::Model;
use graftspindle_cli::files::disk::Like;
use graftspindle_cli::files::Disk;
use std::io;
use std::path::Path;

/// Whether a step is a sync of a folder, which some tests leave out.
#[derive(Clone, Copy, PartialEq, Eq)]
pub enum Step {
    Sync,
    Other,
}

/// What becomes of a step.
pub enum Becomes {
    Done,
    /// It says that it was done.
    LeftOut,
    /// Nothing is there.
    Missing,
}

pub struct Altered<'a, F: Fn(Step, &Path) -> Becomes>(pub &'a Model, pub F);

impl<F: Fn(Step, &Path) -> Becomes> Altered<'_, F> {
    fn changed(&self, step: Step, path: &Path, done: impl FnOnce() -> io::Result<()>) -> io::Result<()> {
        match (self.1)(step, path) {
            Becomes::Done => done(),
            Becomes::LeftOut => Ok(()),
            Becomes::Missing => Err(io::Error::from(io::ErrorKind::NotFound)),
        }
    }

    fn asked<T>(&self, path: &Path, asked: impl FnOnce() -> io::Result<T>) -> io::Result<T> {
        self.changed(Step::Other, path, || Ok(())).and_then(|()| asked())
    }
}

impl<F: Fn(Step, &Path) -> Becomes> Disk for Altered<'_, F> {
    fn read(&self, path: &Path, most: usize) -> io::Result<Vec<u8>> {
        self.asked(path, || self.0.read(path, most))
    }
    fn exists(&self, path: &Path) -> io::Result<bool> {
        match self.asked(path, || self.0.exists(path)) {
            Err(missing) if missing.kind() == io::ErrorKind::NotFound => Ok(false),
            answer => answer,
        }
    }
    fn write(&self, path: &Path, bytes: &[u8], like: Like) -> io::Result<()> {
        self.changed(Step::Other, path, || self.0.write(path, bytes, like))
    }
    fn rename(&self, from: &Path, to: &Path) -> io::Result<()> {
        self.changed(Step::Other, from, || self.0.rename(from, to))
    }
    fn remove(&self, path: &Path) -> io::Result<()> {
        self.changed(Step::Other, path, || self.0.remove(path))
    }
    fn sync_folder(&self, folder: &Path) -> io::Result<()> {
        self.changed(Step::Sync, folder, || self.0.sync_folder(folder))
    }
    fn owner(&self, path: &Path) -> io::Result<u32> {
        self.asked(path, || self.0.owner(path))
    }
    fn read_owned(&self, path: &Path, most: usize) -> io::Result<(Vec<u8>, u32)> {
        self.asked(path, || self.0.read_owned(path, most))
    }
    fn user(&self) -> io::Result<u32> {
        self.0.user()
    }
    fn number_of(&self, folder: &Path) -> io::Result<u64> {
        self.asked(folder, || self.0.number_of(folder))
    }
}
