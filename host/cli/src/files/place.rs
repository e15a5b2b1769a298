//! Where a file stands, links resolved, and the names beside it.

use std::ffi::OsString;
use std::io;
use std::path::{Path, PathBuf};

use super::disk::told;
use crate::digest;

const ENDING: &str = ".graftspindle-";

/// A file's name without links.
#[derive(Clone, Debug, PartialEq, Eq)]
pub struct Place(PathBuf);

fn fault(path: &Path, words: &str) -> io::Error {
    io::Error::new(io::ErrorKind::InvalidInput, format!("{} {words}", path.display()))
}

/// The place of a file that is not there yet.
fn of_missing(path: &Path) -> io::Result<PathBuf> {
    let name = path.file_name().ok_or_else(|| fault(path, "does not name a file"))?;
    let folder = match path.parent() {
        Some(folder) if folder != Path::new("") => folder,
        _ => Path::new("."),
    };
    Ok(folder.canonicalize().map_err(told("find the folder", folder))?.join(name))
}

impl Place {
    /// A file that is there.
    pub fn of_known(path: &Path) -> io::Result<Place> {
        let real = path.canonicalize().map_err(told("find", path))?;
        if real.is_file() {
            Ok(Place(real))
        } else {
            Err(fault(path, "is not a file"))
        }
    }

    /// A file that is there or that is to be made.
    pub fn of_file(path: &Path) -> io::Result<Place> {
        if path.file_name().is_some_and(|name| name.to_string_lossy().contains(ENDING)) {
            return Err(fault(path, "has a name that is kept for files on their way"));
        }
        match path.symlink_metadata() {
            Err(missing) if missing.kind() == io::ErrorKind::NotFound => of_missing(path).map(Place),
            _ => Place::of_known(path),
        }
    }

    /// A path that is taken as it is.
    pub fn at(path: impl Into<PathBuf>) -> Place {
        Place(path.into())
    }

    /// The name.
    pub fn path(&self) -> &Path {
        &self.0
    }

    /// The folder that it stands in.
    pub fn folder(&self) -> &Path {
        self.0.parent().unwrap_or(Path::new("/"))
    }

    fn beside(&self, name: &str) -> PathBuf {
        let mut path = OsString::from(&self.0);
        path.push(ENDING);
        path.push(name);
        path.into()
    }

    /// The register on its way.
    pub fn pending(&self) -> PathBuf {
        self.beside("new")
    }

    /// The HGC on its way, under a name that no other register's import uses.
    pub fn pending_for(&self, register: &Place) -> PathBuf {
        let digest = digest::of(register.0.as_os_str().as_encoded_bytes()).to_string();
        self.beside(&digest[..16])
    }

    /// The note of an import that is on its way.
    pub fn note(&self) -> PathBuf {
        self.beside("note")
    }

    /// The file that is locked.
    pub fn lock(&self) -> PathBuf {
        self.beside("lock")
    }
}
