//! What is written behind a vector.

use super::blocks::SLOT;

/// What a vector is answered with: yes, no or its first number, which is all that `each` tells, and what stands behind it.
pub struct Answer {
    pub first: String,
    pub behind: Vec<u8>,
}

impl Answer {
    /// An answer that has nothing behind it.
    pub fn of(first: String) -> Option<Answer> {
        Some(Answer { first, behind: Vec::new() })
    }

    pub fn number(number: u64) -> Option<Answer> {
        Answer::of(number.to_string())
    }

    pub fn truth(holds: bool) -> Option<Answer> {
        Answer::of(if holds { "yes" } else { "no" }.to_string())
    }

    /// As it stands behind the vector.
    pub fn written(self) -> Vec<u8> {
        [b" -> ", self.first.as_bytes(), &self.behind].concat()
    }
}

/// Whether a block is as it was.
pub fn kept(holds: bool) -> &'static [u8] {
    if holds {
        b"kept"
    } else {
        b"changed"
    }
}

/// The slots of a register: of a used one its record, which ends with LF, and on a line of its own its stamp.
pub fn slots(register: &[u8]) -> Vec<u8> {
    let told = |slot: &[u8]| if slot == [0; SLOT] { b"free\n".to_vec() } else { [slot, b"\n"].concat() };
    register.chunks(SLOT).flat_map(told).collect()
}
