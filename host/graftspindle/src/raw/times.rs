//! The seconds of a time.

use super::{revision, Timed};

extern "C" {
    fn graftspindle_seconds(time: *const u8, time_length: usize, seconds: *mut u64) -> u64;
}

/// The seconds since 00010101000000.
pub fn seconds(time: &[u8]) -> Timed {
    revision::asked();
    let mut done = Timed::default();
    // SAFETY: the pointer and the length are one live slice's; the number is a local.
    done.number = unsafe { graftspindle_seconds(time.as_ptr(), time.len(), &mut done.seconds) };
    done
}
