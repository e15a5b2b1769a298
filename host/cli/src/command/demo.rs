//! `demo`: three providers send whitelists, two of them written from CSV files, and one provider follows what is held for
//! him, in winter and in summer time and past a sweep.

use std::ffi::OsString;
use std::fs::{self, OpenOptions};
use std::io::Write;
use std::path::{Path, PathBuf};

use super::arguments::Arguments;
use super::{look, texts, Answer, Command, Refusal, Told};
use crate::files::disk::told;
use crate::files::private::Private;
use crate::files::Disk;
use graftspindle::{Register, Slot};

pub static DEMO: Command = Command {
    name: "demo",
    options: &[],
    words: &["[FOLDER]"],
    help: "\
Makes a small register, writes the whitelists of two providers from CSV files, imports these and a third provider's into
it, applies the confirmations to one provider's copy, sweeps both and compares the copy with the records held for him. Works
in FOLDER and leaves its files there, or in a folder that goes again.
",
    run,
};

const FILES: [(&str, &[u8]); 5] = [
    ("issuers.ait", include_bytes!("../../demo/issuers.ait")),
    ("900123-incremental.hgv", include_bytes!("../../demo/900123-incremental.hgv")),
    ("900124.csv", include_bytes!("../../demo/900124.csv")),
    ("900125.csv", include_bytes!("../../demo/900125.csv")),
    ("900123-full.hgv", include_bytes!("../../demo/900123-full.hgv")),
];

/// What is said, and the commands, in their order. A word that names a file of the demo begins with `/`.
const STORY: [(&str, &[&str]); 13] = [
    ("The issuers that are accepted, three providers", &["issuers from-ait --issuers /rows /issuers.ait"]),
    (
        "Two providers write their lists from spreadsheets; 900123 has a program of his own, which makes mistakes",
        &[
            "write --issuers /rows --sender 900124 --version 120001 --date 20250310 --number 1 --created 20250310041000 \
             --hgv /900124-incremental.hgv /900124.csv",
            "write --issuers /rows --sender 900125 --version 120001 --date 20250310 --number 1 --created 20250310042000 \
             --hgv /900125-incremental.hgv /900125.csv",
        ],
    ),
    (
        "A register of 16 slots, and a copy for provider 900123",
        &["register new --slots 16 /register", "register new --slots 16 /copy"],
    ),
    (
        "Each provider sends an incremental list; the register goes by UTC, and the HGC shows local time",
        &[
            "import --register /register --issuers /rows --mode incremental --received 20250310050000 --offset +01:00 \
             --hgc /900124-incremental.hgc /900124-incremental.hgv",
            "import --register /register --issuers /rows --mode incremental --received 20250310050500 --offset +01:00 \
             --hgc /900125-incremental.hgc /900125-incremental.hgv",
            "import --register /register --issuers /rows --mode incremental --received 20250310051000 --offset +01:00 \
             --hgc /900123-incremental.hgc /900123-incremental.hgv",
        ],
    ),
    ("What the confirmation tells provider 900123", &["read-back /900123-incremental.hgv /900123-incremental.hgc"]),
    (
        "He applies it to his copy",
        &["update --copy /copy --mode incremental --offset +01:00 /900123-incremental.hgv /900123-incremental.hgc"],
    ),
    (
        "Three weeks later, in summer time, he sends his full list",
        &["import --register /register --issuers /rows --mode full --received 20250331050000 --offset +02:00 \
           --hgc /900123-full.hgc /900123-full.hgv"],
    ),
    ("What the confirmation tells him", &["read-back /900123-full.hgv /900123-full.hgc"]),
    (
        "He applies that too, with its offset",
        &["update --copy /copy --mode full --offset +02:00 /900123-full.hgv /900123-full.hgc"],
    ),
    (
        "A lane asks for a PAN and for a plate; the list was received at 20250331050000 UTC",
        &[
            "lookup pan --register /register 9799001200000051",
            "lookup plate --register /register --at 20250331080000 ÄB4711 SE",
        ],
    ),
    ("The register then", &["register show --at 20250331080000 /register"]),
    ("Which file touched how many of its accounts", &["register show --lists /register"]),
    (
        "Ended accounts are swept out, and he sweeps his copy at the same time",
        &["sweep --at 20250401000000 /register", "sweep --at 20250401000000 /copy"],
    ),
];

fn words(command: &str, folder: &Path) -> Vec<OsString> {
    let word = |word: &str| match word.strip_prefix('/') {
        Some(file) => folder.join(file).into_os_string(),
        None => word.into(),
    };
    command.split(' ').map(word).collect()
}

fn shown(disk: &dyn Disk, command: &str, folder: &Path) -> Result<String, Refusal> {
    let answer = super::run(disk, &words(command, folder))?.text.replace(&format!("{}/", folder.display()), "");
    Ok(format!("$ graftspindle {}\n{answer}", command.replace(" /", " ")))
}

fn tell(disk: &dyn Disk, folder: &Path) -> Result<String, Refusal> {
    let mut told = String::new();
    for (heading, commands) in STORY {
        let shown: Result<String, Refusal> = commands.iter().map(|command| shown(disk, command, folder)).collect();
        told += &format!("{heading}:\n{}\n", shown?);
    }
    Ok(told)
}

fn held_for<'a>(actor: &str, register: &'a Register) -> Vec<Slot<'a>> {
    register.records().filter(|slot| texts::actor(slot.record()) == actor).collect()
}

fn compare(disk: &dyn Disk, folder: &Path) -> Result<String, Refusal> {
    let (register, copy) = (look(disk, &folder.join("register"))?, look(disk, &folder.join("copy"))?);
    let (held, own) = (held_for("900123", &register), copy.records().collect::<Vec<_>>());
    if held != own {
        return Err(Refusal::Fault("the copy differs from the records held for 900123".to_string()));
    }
    let count = held.len();
    let equal = "The copy of provider 900123 equals the records held for him";
    Ok(format!("{equal}: {count} records, the same bytes in the same order.\n"))
}

fn play(disk: &dyn Disk, folder: &Path) -> Answer {
    for (name, bytes) in FILES {
        let path = folder.join(name);
        let made = OpenOptions::new().write(true).create_new(true).open(&path);
        made.and_then(|mut file| file.write_all(bytes)).map_err(told("make", &path))?;
    }
    Ok(Told::new(tell(disk, folder)? + &compare(disk, folder)?))
}

/// Without links, as the commands name files.
fn made(folder: PathBuf) -> Result<PathBuf, Refusal> {
    fs::create_dir_all(&folder)?;
    Ok(folder.canonicalize()?)
}

fn run(disk: &dyn Disk, given: &Arguments) -> Answer {
    if let Some(folder) = given.rest_if_given()? {
        return play(disk, &made(folder.into())?);
    }
    play(disk, Private::new()?.path())
}
