//! The proved library on plain numbers and lent blocks, as the definition has them: a mode may be any number, and the
//! answer is 0 or the number of a refusal. It is for those who compare or measure the functions; a service uses the types
//! above.
//!
//! What a call does is proved for every slice of every length. What no proof covers is the boundary itself:
//! - a declaration here is believed to be that of the export: a test compares all of them with the exports' source (name,
//!   parameters in their order, widths, result), and each call first asks the linked libraries which form of it they have;
//! - a slice crosses as a pointer and a length of 64 bits, in elements, a `&mut u64` as a pointer, and the library believes
//!   them;
//! - blocks that it may write must overlap no other block;
//! - a call uses the caller's stack and does not ask whether it is there: less than 128 KiB for the largest
//!   blocks. `host/stack` prints what each call needs.
//!
//! Here each pair comes from one slice and no two mutable borrows are alike, so the second and third hold for every safe
//! caller. The library keeps nothing between calls.
//!
//! What each lent block holds after a call is said, byte for byte and at a refusal too, but for one: the index of
//! [`import_indexed`], of whose numbers nothing is said.

mod answers;
mod indexed;
mod provider;
mod revision;
mod sweep;
mod times;
mod writer;

use std::ops::Range;

pub use answers::{Counted, Imported, Swept, Timed, Written};
pub use indexed::import_indexed;
pub use provider::{read_back, update};
pub use revision::{must_be_declared, revision, REVISION};
pub use sweep::sweep;
pub use times::seconds;
pub use writer::{write, List};

#[cfg(not(target_pointer_width = "64"))]
compile_error!("a length crosses to the proved library in 64 bits");

extern "C" {
    fn graftspindle_import(
        mode: u64,
        reception: *const u8,
        reception_length: usize,
        offset: i64,
        register: *mut u8,
        register_length: usize,
        rows: *const u8,
        rows_length: usize,
        hgv: *const u8,
        hgv_length: usize,
        hgc: *mut u8,
        hgc_length: usize,
        taken: *mut u64,
        rejected: *mut u64,
        length: *mut u64,
    ) -> u64;
    fn graftspindle_by_pan(
        register: *const u8,
        register_length: usize,
        pan: *const u8,
        pan_length: usize,
        start: *mut u64,
        length: *mut u64,
    ) -> u64;
    fn graftspindle_by_plate(
        register: *const u8,
        register_length: usize,
        plate: *const u8,
        plate_length: usize,
        nationality: *const u8,
        nationality_length: usize,
        time: *const u8,
        time_length: usize,
        start: *mut u64,
        length: *mut u64,
    ) -> u64;
}

/// Imports an HGV into the register, and writes its HGC into the buffer. The reception is UTC; the HGC shows it so many minutes
/// later. It searches plainly, over everything for every line.
pub fn import(
    mode: u64,
    reception: &[u8],
    offset: i64,
    register: &mut [u8],
    rows: &[u8],
    hgv: &[u8],
    hgc: &mut [u8],
) -> Imported {
    revision::asked();
    let mut done = Imported::default();
    // SAFETY: each pointer and length are one live slice's, and the borrows keep the written ones apart.
    done.number = unsafe {
        graftspindle_import(
            mode,
            reception.as_ptr(),
            reception.len(),
            offset,
            register.as_mut_ptr(),
            register.len(),
            rows.as_ptr(),
            rows.len(),
            hgv.as_ptr(),
            hgv.len(),
            hgc.as_mut_ptr(),
            hgc.len(),
            &mut done.taken,
            &mut done.rejected,
            &mut done.length,
        )
    };
    done
}

fn part(start: u64, length: u64) -> Range<usize> {
    start as usize..(start + length) as usize
}

/// The number, and where the slot stands in the register; `0..0` at a refusal.
pub fn by_pan(register: &[u8], pan: &[u8]) -> (u64, Range<usize>) {
    revision::asked();
    let (mut start, mut length) = (0, 0);
    // SAFETY: each pointer and length are one live slice's; both numbers are locals.
    let number = unsafe {
        graftspindle_by_pan(register.as_ptr(), register.len(), pan.as_ptr(), pan.len(), &mut start, &mut length)
    };
    (number, part(start, length))
}

/// The same by plate, nationality and time.
pub fn by_plate(register: &[u8], plate: &[u8], nationality: &[u8], time: &[u8]) -> (u64, Range<usize>) {
    revision::asked();
    let (mut start, mut length) = (0, 0);
    // SAFETY: each pointer and length are one live slice's; both numbers are locals.
    let number = unsafe {
        graftspindle_by_plate(
            register.as_ptr(),
            register.len(),
            plate.as_ptr(),
            plate.len(),
            nationality.as_ptr(),
            nationality.len(),
            time.as_ptr(),
            time.len(),
            &mut start,
            &mut length,
        )
    };
    (number, part(start, length))
}
