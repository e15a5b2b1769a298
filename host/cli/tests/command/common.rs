//! A folder for each test with the files of the demo in it, and the command run on them.

use graftspindle::raw;
use graftspindle::sizes::SLOT;
use graftspindle_checks::sample;
use std::fs;
use std::io::Write;
use std::path::{Path, PathBuf};
use std::process::{Command, Output, Stdio};
use std::sync::atomic::{AtomicUsize, Ordering};

/// Goes with the test.
pub struct Folder(PathBuf);

static MADE: AtomicUsize = AtomicUsize::new(0);

impl Folder {
    pub fn new() -> Folder {
        let name = format!("graftspindle-test-{}-{}", std::process::id(), MADE.fetch_add(1, Ordering::Relaxed));
        let path = std::env::temp_dir().join(name);
        fs::create_dir(&path).expect("a folder of its own");
        Folder(path.canonicalize().expect("it is there"))
    }

    pub fn path(&self, name: &str) -> PathBuf {
        self.0.join(name)
    }

    pub fn text(&self, name: &str) -> String {
        self.path(name).to_str().expect("ASCII").to_string()
    }

    pub fn write(&self, name: &str, bytes: &[u8]) {
        fs::write(self.path(name), bytes).expect("it can be written");
    }

    pub fn read(&self, name: &str) -> Vec<u8> {
        fs::read(self.path(name)).expect("it is there")
    }

    pub fn read_if_there(&self, name: &str) -> Option<Vec<u8>> {
        fs::read(self.path(name)).ok()
    }

    /// All that is there but for locks, by name, with its bytes.
    pub fn all(&self) -> Vec<(String, Option<Vec<u8>>)> {
        let entries = fs::read_dir(&self.0).expect("the folder is there");
        let names = entries.map(|entry| entry.expect("an entry").file_name().into_string().expect("ASCII"));
        let mut names: Vec<String> = names.filter(|name| !name.ends_with(".graftspindle-lock")).collect();
        names.sort();
        names.into_iter().map(|name| (name.clone(), self.read_if_there(&name))).collect()
    }
}

impl Drop for Folder {
    fn drop(&mut self) {
        let _ = fs::remove_dir_all(&self.0);
    }
}

pub struct Ran {
    pub status: i32,
    pub said: String,
    pub fault: String,
}

pub fn ran(output: Output) -> Ran {
    let text = |bytes: Vec<u8>| String::from_utf8(bytes).expect("UTF-8");
    Ran { status: output.status.code().unwrap_or(-1), said: text(output.stdout), fault: text(output.stderr) }
}

pub fn program() -> &'static str {
    env!("CARGO_BIN_EXE_graftspindle")
}

/// The words of a command line; `@NAME` is that file of the folder.
pub fn words(folder: &Folder, line: &str) -> Vec<String> {
    let word = |word: &str| word.strip_prefix('@').map_or(word.to_string(), |name| folder.text(name));
    line.split(' ').map(word).collect()
}

pub fn graftspindle(folder: &Folder, line: &str) -> Ran {
    ran(Command::new(program()).args(words(folder, line)).output().expect("the command runs"))
}

/// The same with this on its standard input.
pub fn fed(folder: &Folder, line: &str, input: &[u8]) -> Ran {
    let mut command = Command::new(program());
    command.args(words(folder, line)).stdin(Stdio::piped()).stdout(Stdio::piped()).stderr(Stdio::piped());
    let mut child = command.spawn().expect("it starts");
    // One who refuses at once does not read.
    let _ = child.stdin.take().expect("piped").write_all(input);
    ran(child.wait_with_output().expect("it ends"))
}

/// A refusal in one line that has all these words; nothing is changed.
pub fn assert_says(folder: &Folder, line: &str, status: i32, words: &[&str]) {
    let before = folder.all();
    let done = graftspindle(folder, line);
    assert_eq!((done.status, done.said.as_str()), (status, ""), "{line}: {}", done.fault);
    assert_eq!(done.fault.lines().count(), 1, "{}", done.fault);
    for word in words {
        assert!(done.fault.contains(word), "{word}: {}", done.fault);
    }
    assert!(folder.all() == before, "{line}");
}

pub const IMPORT: &str =
    "import --register @register --issuers @rows --mode incremental --received 20250310050000 --hgc @hgc @hgv";

/// A register that holds the first line of the sample, and a file of four lines, of which one is faulty.
pub fn ready() -> Folder {
    let folder = Folder::new();
    let (mut register, mut hgc, rows) = (vec![0; 8 * SLOT], vec![0; 1000], sample::row());
    let first = raw::import(1, sample::RECEPTION, 0, &mut register, &rows, &sample::hgv(1), &mut hgc);
    let mut hgv = sample::hgv(4);
    hgv[128 + 3 * 128 + 79] = b'X';
    folder.write("register", &register);
    folder.write("rows", &rows);
    folder.write("hgv", &hgv);
    folder.write("hgc", &hgc[..first.length as usize]);
    folder
}

/// Register and HGC.
pub type Both = (Vec<u8>, Option<Vec<u8>>);

pub fn both(folder: &Folder) -> Both {
    (folder.read("register"), folder.read_if_there("hgc"))
}

/// What `IMPORT` makes of `ready`.
pub fn imported() -> Both {
    let folder = ready();
    let done = graftspindle(&folder, IMPORT);
    assert_eq!((done.status, done.fault.as_str()), (0, ""));
    both(&folder)
}

pub const AIT: &str = concat!(env!("CARGO_MANIFEST_DIR"), "/demo/issuers.ait");

pub fn exists(folder: &Folder, name: &str) -> bool {
    Path::new(&folder.text(name)).exists()
}
