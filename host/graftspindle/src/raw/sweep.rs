//! The sweep of ended records.

use super::{revision, Swept};

extern "C" {
    fn graftspindle_sweep(
        register: *mut u8,
        register_length: usize,
        time: *const u8,
        time_length: usize,
        removed: *mut u64,
    ) -> u64;
}

/// Removes every record whose end is not zeros and not later than the time. The others close up in order, each with its
/// stamp; the slots behind them are free.
pub fn sweep(register: &mut [u8], time: &[u8]) -> Swept {
    revision::asked();
    let mut done = Swept::default();
    // SAFETY: each pointer and length are one live slice's, and the borrows keep the written ones apart.
    done.number = unsafe {
        graftspindle_sweep(register.as_mut_ptr(), register.len(), time.as_ptr(), time.len(), &mut done.removed)
    };
    done
}
