//! The note beside a register: where the HGC of the import on its way belongs, the HGC itself, and by which digests the
//! register of before and of after are known. It ends in a digest of its own, so that a note that was not written whole is
//! known as such.

use std::ffi::OsString;
use std::os::unix::ffi::{OsStrExt, OsStringExt};
use std::path::PathBuf;

use crate::digest::{self, Digest};

/// What is known of an import that is on its way.
#[derive(Clone, Debug, PartialEq, Eq)]
pub struct Note {
    /// Where the HGC belongs.
    pub out: PathBuf,
    /// The number of its folder: where a disk was unmounted another folder has the name.
    pub folder: u64,
    /// The register of before.
    pub before: Digest,
    /// The register of after.
    pub after: Digest,
    /// The HGC's bytes.
    pub hgc: Vec<u8>,
}

const HEAD: &[u8] = b"graftspindle note 2";

/// A path has no byte 0.
const END: u8 = 0;

impl Note {
    /// As it stands in its file.
    pub fn bytes(&self) -> Vec<u8> {
        let mut bytes = Vec::new();
        let folder = self.folder.to_string();
        for text in [HEAD, self.out.as_os_str().as_bytes(), folder.as_bytes()] {
            bytes.extend(text);
            bytes.push(END);
        }
        bytes.extend(self.before.0);
        bytes.extend(self.after.0);
        bytes.extend(&self.hgc);
        bytes.extend(digest::of(&bytes).0);
        bytes
    }

    /// None where it was not written whole.
    pub fn read(bytes: &[u8]) -> Option<Note> {
        let (text, told) = bytes.split_last_chunk::<32>()?;
        if digest::of(text).0 != *told {
            return None;
        }
        let mut texts = text.splitn(4, |&byte| byte == END);
        let (head, out, folder, rest) = (texts.next()?, texts.next()?, texts.next()?, texts.next()?);
        let folder = std::str::from_utf8(folder).ok()?.parse().ok().filter(|_| head == HEAD)?;
        let (before, rest) = rest.split_first_chunk::<32>()?;
        let (after, hgc) = rest.split_first_chunk::<32>()?;
        let out = PathBuf::from(OsString::from_vec(out.to_vec()));
        Some(Note { out, folder, before: Digest(*before), after: Digest(*after), hgc: hgc.to_vec() })
    }
}
