//! Which form of the boundary the linked libraries have: a changed signature under an old name links all the same.

use std::sync::OnceLock;

extern "C" {
    fn graftspindle_revision() -> u64;
}

/// The form that is declared here. The form without an offset was 1, and had no function that says so.
pub const REVISION: u64 = 2;

/// The form that the linked libraries say they have.
pub fn revision() -> u64 {
    static LINKED: OnceLock<u64> = OnceLock::new();
    // SAFETY: it takes nothing, and so it is declared in every form that has it.
    *LINKED.get_or_init(|| unsafe { graftspindle_revision() })
}

/// Panics where a form is not the declared one.
pub fn must_be_declared(linked: u64) {
    assert!(
        linked == REVISION,
        "the proved libraries have revision {linked} of what Rust calls, and revision {REVISION} is declared: host/build \
         makes them anew"
    );
}

/// Before each call of another export.
pub(super) fn asked() {
    must_be_declared(revision());
}
