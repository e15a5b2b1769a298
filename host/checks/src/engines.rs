//! All implementations of the definition under one form: `plain`, `hashed`, the proved one, and the proved one with the indexed
//! import in place of the plain one.

use std::cell::RefCell;
use std::ops::Range;

use crate::plain::register::SLOT;
use crate::{hashed, plain};
use graftspindle::raw::{self, Counted, Imported, List, Swept, Timed, Written};

pub type Import = fn(u64, &[u8], i64, &mut [u8], &[u8], &[u8], &mut [u8]) -> Imported;
pub type ImportIndexed = fn(u64, &[u8], i64, &mut [u8], &[u8], &[u8], &mut [u8], &mut [u16]) -> Imported;
pub type Update = fn(u64, i64, &mut [u8], &[u8], &[u8]) -> Counted;

/// A lookup's number, and where its slot stands in the register.
pub type Found = (u64, Range<usize>);

pub type ByPan = fn(&[u8], &[u8]) -> Found;
pub type ByPlate = fn(&[u8], &[u8], &[u8], &[u8]) -> Found;

/// One implementation. A further one is tested by an entry more in `ENGINES`.
pub struct Engine {
    pub name: &'static str,
    pub import: Import,
    pub import_indexed: ImportIndexed,
    pub by_pan: ByPan,
    pub by_plate: ByPlate,
    pub read_back: fn(&[u8], &[u8], &mut [u8]) -> Counted,
    pub update: Update,
    pub in_order: fn(&[u8]) -> bool,
    pub write: fn(&List, &mut [u8]) -> Written,
    pub sweep: fn(&mut [u8], &[u8]) -> Swept,
    pub seconds: fn(&[u8]) -> Timed,
}

pub const ENGINES: &[Engine] = &[
    Engine {
        name: "plain",
        import: plain::import,
        import_indexed: plain::import_indexed,
        by_pan: plain::by_pan,
        by_plate: plain::by_plate,
        read_back: plain::read_back,
        update: plain::update,
        in_order: plain::in_order,
        write: plain::write,
        sweep: plain::sweep,
        seconds: plain::seconds,
    },
    Engine {
        name: "hashed",
        import: hashed::import,
        import_indexed: hashed::import_indexed,
        by_pan: hashed::by_pan,
        by_plate: hashed::by_plate,
        read_back: hashed::read_back,
        update: hashed::update,
        in_order: hashed::in_order,
        write: hashed::write,
        sweep: hashed::sweep,
        seconds: plain::seconds,
    },
    PROVED,
    Engine { name: "indexed", import: import_by_index, ..PROVED },
];

const PROVED: Engine = Engine {
    name: "proved",
    import: raw::import,
    import_indexed: raw::import_indexed,
    by_pan: raw::by_pan,
    by_plate: raw::by_plate,
    read_back: raw::read_back,
    update: raw::update,
    in_order: |register| raw::by_pan(register, b"0                  ").0 != 23,
    write: raw::write,
    sweep: raw::sweep,
    seconds: raw::seconds,
};

thread_local! {
    /// As the import before has left it, into whatever register that was.
    static INDEX: RefCell<Vec<u16>> = const { RefCell::new(Vec::new()) };
}

/// The indexed import under the form of the plain one: it is lent as many numbers as there are slots, as they were left.
fn import_by_index(
    mode: u64,
    reception: &[u8],
    offset: i64,
    register: &mut [u8],
    rows: &[u8],
    hgv: &[u8],
    hgc: &mut [u8],
) -> Imported {
    INDEX.with_borrow_mut(|index| {
        index.resize(register.len() / SLOT, u16::MAX);
        raw::import_indexed(mode, reception, offset, register, rows, hgv, hgc, index)
    })
}

/// Those whose indexed imports are not one and the same.
pub fn indexed() -> impl Iterator<Item = &'static Engine> {
    ENGINES.iter().filter(|engine| engine.name != "indexed")
}
