//! The import with an index that the caller lends.

use super::{revision, Imported};

extern "C" {
    fn graftspindle_import_indexed(
        mode: u64,
        reception: *const u8,
        reception_length: usize,
        offset: i64,
        register: *mut u8,
        register_length: usize,
        rows: *const u8,
        rows_length: usize,
        hgv: *const u8,
        hgv_length: usize,
        hgc: *mut u8,
        hgc_length: usize,
        index: *mut u16,
        index_length: usize,
        taken: *mut u64,
        rejected: *mut u64,
        length: *mut u64,
    ) -> u64;
}

/// The same answer, register and HGC as [`import`](super::import), found by an index of slot numbers, one for each slot of the
/// register or more; 36 where there are fewer. The index may hold any numbers, and what it holds after the call means nothing,
/// at a stop too.
#[expect(clippy::too_many_arguments, reason = "they are the export's")]
pub fn import_indexed(
    mode: u64,
    reception: &[u8],
    offset: i64,
    register: &mut [u8],
    rows: &[u8],
    hgv: &[u8],
    hgc: &mut [u8],
    index: &mut [u16],
) -> Imported {
    revision::asked();
    let mut done = Imported::default();
    // SAFETY: each pointer and length are one live slice's, a length in elements, and the borrows keep the written ones apart.
    done.number = unsafe {
        graftspindle_import_indexed(
            mode,
            reception.as_ptr(),
            reception.len(),
            offset,
            register.as_mut_ptr(),
            register.len(),
            rows.as_ptr(),
            rows.len(),
            hgv.as_ptr(),
            hgv.len(),
            hgc.as_mut_ptr(),
            hgc.len(),
            index.as_mut_ptr(),
            index.len(),
            &mut done.taken,
            &mut done.rejected,
            &mut done.length,
        )
    };
    done
}
