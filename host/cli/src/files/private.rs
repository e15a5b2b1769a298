//! A folder for a while that is nobody else's: made by this process, under a name that nobody can know before.

use std::collections::hash_map::RandomState;
use std::fs::{self, DirBuilder};
use std::hash::BuildHasher;
use std::io;
use std::os::unix::fs::DirBuilderExt;
use std::path::{Path, PathBuf};

use super::disk::told;

/// It goes with the value.
pub struct Private(PathBuf);

/// How often a name may be taken already.
const TRIES: u32 = 16;

impl Private {
    /// In the folder for such files.
    pub fn new() -> io::Result<Private> {
        let above = std::env::temp_dir();
        let above = above.canonicalize().map_err(told("find", &above))?;
        let mut made = Err(io::Error::from(io::ErrorKind::AlreadyExists));
        for turn in 0..TRIES {
            // The keys of a new state of this kind are random.
            let path = above.join(format!("graftspindle-{:016x}", RandomState::new().hash_one(turn)));
            made = DirBuilder::new().mode(0o700).create(&path).map(|()| Private(path));
            if made.as_ref().err().map(io::Error::kind) != Some(io::ErrorKind::AlreadyExists) {
                break;
            }
        }
        made.map_err(told("make a folder in", &above))
    }

    /// Its name.
    pub fn path(&self) -> &Path {
        &self.0
    }
}

impl Drop for Private {
    fn drop(&mut self) {
        let _ = fs::remove_dir_all(&self.0);
    }
}
