//! The provider's side: reading an HGC back, and the update of his copy.

use super::{revision, Counted};

extern "C" {
    fn graftspindle_read_back(
        hgv: *const u8,
        hgv_length: usize,
        hgc: *const u8,
        hgc_length: usize,
        verdicts: *mut u8,
        verdicts_length: usize,
        taken: *mut u64,
        rejected: *mut u64,
    ) -> u64;
    fn graftspindle_update(
        mode: u64,
        offset: i64,
        copy: *mut u8,
        copy_length: usize,
        hgv: *const u8,
        hgv_length: usize,
        hgc: *const u8,
        hgc_length: usize,
        taken: *mut u64,
        rejected: *mut u64,
    ) -> u64;
}

/// A byte for each HGV line in `verdicts`: 0 if taken, else the reason.
pub fn read_back(hgv: &[u8], hgc: &[u8], verdicts: &mut [u8]) -> Counted {
    revision::asked();
    let mut done = Counted::default();
    // SAFETY: each pointer and length are one live slice's, and the borrows keep the written ones apart.
    done.number = unsafe {
        graftspindle_read_back(
            hgv.as_ptr(),
            hgv.len(),
            hgc.as_ptr(),
            hgc.len(),
            verdicts.as_mut_ptr(),
            verdicts.len(),
            &mut done.taken,
            &mut done.rejected,
        )
    };
    done
}

/// The provider's update of his copy. The HGC's reception is so many minutes later than UTC.
pub fn update(mode: u64, offset: i64, copy: &mut [u8], hgv: &[u8], hgc: &[u8]) -> Counted {
    revision::asked();
    let mut done = Counted::default();
    // SAFETY: as above.
    done.number = unsafe {
        graftspindle_update(
            mode,
            offset,
            copy.as_mut_ptr(),
            copy.len(),
            hgv.as_ptr(),
            hgv.len(),
            hgc.as_ptr(),
            hgc.len(),
            &mut done.taken,
            &mut done.rejected,
        )
    };
    done
}
