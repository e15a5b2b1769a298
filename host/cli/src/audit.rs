//! The journal for the audit: a line of JSON for each import, update, sweep and refusal, appended and synced.

use std::fs::{File, OpenOptions};
use std::io::{self, Read, Seek, SeekFrom, Write};
use std::os::unix::fs::OpenOptionsExt;
use std::path::{Path, PathBuf};

use crate::files::disk::told;

/// A journal that takes lines.
pub struct Journal {
    path: PathBuf,
    file: File,
}

/// What each line begins with.
const BEGIN: u8 = b'{';

fn options() -> OpenOptions {
    let mut options = OpenOptions::new();
    options.read(true).append(true).mode(0o640);
    options
}

/// The name is on the disk when this returns.
fn made(path: &Path) -> io::Result<File> {
    let file = options().create_new(true).open(path)?;
    let folder = path.parent().filter(|folder| *folder != Path::new("")).unwrap_or(Path::new("."));
    File::open(folder)?.sync_all()?;
    Ok(file)
}

/// No link is followed.
fn known(path: &Path) -> io::Result<File> {
    match path.symlink_metadata()?.is_file() {
        true => options().open(path),
        false => Err(io::Error::other("it is no plain file")),
    }
}

/// Where there is none it is made, by one of those who begin it together.
fn open(path: &Path) -> io::Result<File> {
    match known(path) {
        Err(fault) if fault.kind() == io::ErrorKind::NotFound => match made(path) {
            Err(fault) if fault.kind() == io::ErrorKind::AlreadyExists => known(path),
            made => made,
        },
        known => known,
    }
}

impl Journal {
    /// Makes the file where there is none.
    pub fn open(path: &Path) -> io::Result<Journal> {
        let mut file = open(path).map_err(told("open the journal", path))?;
        let mut first = [BEGIN];
        // Nothing is read where it is empty.
        file.read(&mut first).map_err(told("read", path))?;
        match first {
            [BEGIN] => Ok(Journal { path: path.to_path_buf(), file }),
            _ => Err(io::Error::other(format!("{} is no journal: no line is appended to it", path.display()))),
        }
    }

    /// What it has now. Bytes that are no text are of nobody who writes here.
    pub fn read(&mut self) -> io::Result<String> {
        let mut bytes = Vec::new();
        self.file
            .seek(SeekFrom::Start(0))
            .and_then(|_| self.file.read_to_end(&mut bytes))
            .map_err(told("read", &self.path))?;
        Ok(String::from_utf8_lossy(&bytes).into_owned())
    }

    /// The line is on the disk when this returns. One that a stop left without its end stays a line of its own.
    pub fn append(&mut self, line: &str) -> io::Result<()> {
        self.append_line(line).map_err(told("write", &self.path))
    }

    fn append_line(&mut self, line: &str) -> io::Result<()> {
        self.file.lock()?;
        let torn = self.file.seek(SeekFrom::End(-1)).is_ok_and(|_| {
            let mut last = [0];
            self.file.read_exact(&mut last).is_ok() && last != *b"\n"
        });
        let end = if torn { "\n" } else { "" };
        let written = self.file.write_all(format!("{end}{line}\n").as_bytes()).and_then(|()| self.file.sync_all());
        self.file.unlock()?;
        written
    }
}

/// The text of a field of a line, as `Json` writes it where nothing in it needs a backslash.
pub fn text<'a>(line: &'a str, name: &str) -> Option<&'a str> {
    let (_, rest) = line.split_once(&format!("\"{name}\":\""))?;
    rest.split('"').next()
}

/// The number of a field of a line.
pub fn number(line: &str, name: &str) -> Option<u64> {
    let (_, rest) = line.split_once(&format!("\"{name}\":"))?;
    rest.split([',', '}']).next()?.parse().ok()
}
