//! What is said where an import is not all done: what counts, what is owed, and how to go on.

use std::io;

use super::fault::Fault;
use super::note::Note;
use super::place::Place;
use super::replacing::Hgc;

/// The register is new, and this could not be done after it.
pub fn counts(register: &Place, hgc: Option<Hgc>, fault: &io::Error) -> Fault {
    let name = register.path().display();
    Fault::Counts(match hgc {
        None => format!("{name} is new and counts as written, but {fault}"),
        Some((place, _)) => format!(
            "the register {name} is new and the list counts as imported, but {fault}; the HGC for {} is kept beside the \
             register: the next command on it tries again, and graftspindle register recover --hgc OTHER {name} writes it \
             elsewhere",
            place.path().display()
        ),
    })
}

/// What was left can be neither finished nor undone.
pub fn stuck(register: &Place, what: &str) -> Fault {
    let name = register.path().display();
    Fault::Left(format!("{what}; look at it, and graftspindle register recover --discard {name} removes it"))
}

/// The note is not the register's.
pub fn foreign(register: &Place, note: &Note) -> Fault {
    let (name, out, beside) = (register.path().display(), note.out.display(), register.note());
    Fault::Left(format!(
        "{} is of another register than {name} now is, which was perhaps restored from a backup: its HGC for {out} confirms \
         an import that is not in it; graftspindle register recover --discard {name} drops it, and --hgc OTHER writes it \
         nevertheless",
        beside.display()
    ))
}

/// The import counts, and its HGC cannot be written now.
pub fn owed(register: &Place, note: &Note, fault: &io::Error) -> Fault {
    let (name, out) = (register.path().display(), note.out.display());
    Fault::Left(format!(
        "the register {name} is new by an import that counts, and its HGC for {out} is still owed: {fault}; \
         graftspindle register recover {name} tries again, and with --hgc OTHER writes it elsewhere"
    ))
}
