//! What another user may have put beside the register or the HGC: links and notes that are not followed.

use crate::common::*;
use graftspindle_cli::digest;
use graftspindle_cli::files::note::Note;
use graftspindle_cli::files::private::Private;
use graftspindle_cli::files::Place;
use std::fs;
use std::os::unix::fs::{chown, symlink, MetadataExt};
use std::path::PathBuf;

/// A user that nobody is.
const OTHER: u32 = 65533;

fn hgc_on_its_way(folder: &Folder) -> PathBuf {
    Place::at(folder.path("hgc")).pending_for(&Place::at(folder.path("register")))
}

/// A link in the place of each file on its way: what it names is neither written nor made.
#[test]
fn links_are_not_written_through() {
    for victim in ["there", "missing"] {
        let ways = |folder: &Folder| [hgc_on_its_way(folder), folder.path("register.graftspindle-new")];
        for way in 0..2 {
            let folder = ready();
            folder.write("there", b"of another");
            symlink(folder.path(victim), &ways(&folder)[way]).expect("a link");
            let done = graftspindle(&folder, IMPORT);
            assert_eq!((done.status, done.fault.as_str()), (0, ""));
            assert!(both(&folder) == imported());
            assert_eq!(folder.read("there"), b"of another");
            assert!(!exists(&folder, "missing") && folder.all().len() == 5, "{:?}", folder.all());
        }
    }
}

/// A note that is a link, whatever it leads to.
#[test]
fn note_that_is_a_link() {
    let folder = ready();
    symlink(folder.path("missing"), folder.path("register.graftspindle-note")).expect("a link");
    let done = graftspindle(&folder, IMPORT);
    assert!(done.status != 0 && !exists(&folder, "missing"), "{}", done.fault);
    assert!(both(&folder) == both(&ready()));
}

/// A lock that is a link: what it names is not made.
#[test]
fn lock_that_is_a_link() {
    let folder = ready();
    symlink(folder.path("missing"), folder.path("register.graftspindle-lock")).expect("a link");
    let done = graftspindle(&folder, IMPORT);
    assert!(done.status == 1 && done.fault.contains("no plain file"), "{}", done.fault);
    assert!(both(&folder) == both(&ready()) && !exists(&folder, "missing"));
}

/// A note of neither the register's owner nor ours: what it names stays as it is.
#[test]
fn note_of_another_user() {
    let folder = ready();
    folder.write("of_mine", b"bytes of mine");
    let now = digest::of(&folder.read("register"));
    let number = fs::metadata(folder.path(".")).expect("the folder").ino();
    let (out, hgc) = (folder.path("of_mine"), b"of the forger".to_vec());
    let note = Note { out, folder: number, before: now, after: now, hgc };
    folder.write("register.graftspindle-note", &note.bytes());
    if chown(folder.path("register.graftspindle-note"), Some(OTHER), None).is_err() {
        println!("not root: no note of another user can be made");
        return;
    }
    let done = graftspindle(&folder, "register show @register");
    assert_eq!(done.status, 0);
    assert!(done.fault.contains("is not believed"), "{}", done.fault);
    assert_ne!(graftspindle(&folder, IMPORT).status, 0);
    assert_eq!(folder.read("of_mine"), b"bytes of mine");
    assert!(both(&folder) == both(&ready()));
}

/// A note of the register's owner, for another user's command: the HGC goes only where the owner could put one himself.
#[test]
fn note_of_the_registers_owner() {
    let folder = ready();
    let (register, beside) = (folder.path("register"), folder.path("register.graftspindle-note"));
    let now = digest::of(&folder.read("register"));
    let number = fs::metadata(folder.path(".")).expect("the folder").ino();
    let (out, hgc) = (folder.path("out"), folder.read("hgc"));
    let note = Note { out, folder: number, before: now, after: now, hgc: hgc.clone() };
    fs::write(&beside, note.bytes()).expect("it can be written");
    if chown(&beside, Some(OTHER), None).and_then(|()| chown(&register, Some(OTHER), None)).is_err() {
        println!("not root: no note of another user can be made");
        return;
    }
    for line in ["register show @register", "register recover @register"] {
        let done = graftspindle(&folder, line);
        assert!(done.fault.contains("is still owed") && !exists(&folder, "out"), "{}", done.fault);
    }
    let pending = Place::at(folder.path("out")).pending_for(&Place::at(&register));
    fs::write(&pending, b"").and_then(|()| chown(&pending, Some(OTHER), None)).expect("we are root");
    assert_eq!(graftspindle(&folder, "register show @register").status, 0);
    assert_eq!(folder.read("out"), hgc);
}

/// The demo's folder under a name that was known in advance, led elsewhere.
#[test]
fn folder_of_the_demo() {
    let folder = Folder::new();
    fs::create_dir(folder.path("tmp")).expect("a folder");
    fs::create_dir(folder.path("victim")).expect("a folder");
    folder.write("victim/letter", b"of another");
    let script = "ln -s \"$TMPDIR/../victim\" \"$TMPDIR/graftspindle-demo-$$\"; exec \"$0\" demo";
    let mut command = std::process::Command::new("sh");
    command.args(["-c", script, program()]).env("TMPDIR", folder.path("tmp"));
    let done = ran(command.output().expect("a shell"));
    assert_eq!((done.status, done.fault.as_str()), (0, ""));
    assert_eq!(folder.read("victim/letter"), b"of another");
    assert_eq!(fs::read_dir(folder.path("victim")).expect("it is there").count(), 1);
}

/// A folder for a while is its maker's alone, each has a name of its own, and it goes.
#[test]
fn private_folders() {
    let (one, other) = (Private::new().expect("a folder"), Private::new().expect("a folder"));
    assert_ne!(one.path(), other.path());
    let known = fs::metadata(one.path()).expect("it is there");
    assert_eq!(known.mode() & 0o777, 0o700);
    let path = one.path().to_path_buf();
    drop(one);
    assert!(!path.exists() && other.path().exists());
}
