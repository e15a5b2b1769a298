//! The writer of lists: an HGV of a provider's accounts.

use super::{revision, Written};

extern "C" {
    fn graftspindle_write(
        version: u64,
        sender: *const u8,
        sender_length: usize,
        date: *const u8,
        date_length: usize,
        number: u64,
        previous: *const u8,
        previous_length: usize,
        creation: *const u8,
        creation_length: usize,
        rows: *const u8,
        rows_length: usize,
        accounts: *const u8,
        accounts_length: usize,
        out: *mut u8,
        out_length: usize,
        length: *mut u64,
    ) -> u64;
}

/// What a list is written from. Receiver, actors, count, fillers and footer are the writer's own work.
#[derive(Clone, Copy, Debug)]
pub struct List<'a> {
    /// 120001 or 220001.
    pub version: u64,
    /// The provider: six digits.
    pub sender: &'a [u8],
    /// The list's date, `YYYYMMDD`.
    pub date: &'a [u8],
    /// The list's number within the day, 1 to 99.
    pub number: u64,
    /// The list before it, 19 bytes: `HGV`, sender, date, number; or `HGV` and 16 zeros for none.
    pub previous: &'a [u8],
    /// When it is made, `YYYYMMDDhhmmss`.
    pub creation: &'a [u8],
    /// The issuer rows, 24 bytes each.
    pub rows: &'a [u8],
    /// The accounts, 100 bytes each.
    pub accounts: &'a [u8],
}

/// Writes the HGV of the accounts in front of `out`.
pub fn write(list: &List, out: &mut [u8]) -> Written {
    revision::asked();
    let mut done = Written::default();
    // SAFETY: each pointer and length are one live slice's, and the borrows keep the written ones apart.
    done.number = unsafe {
        graftspindle_write(
            list.version,
            list.sender.as_ptr(),
            list.sender.len(),
            list.date.as_ptr(),
            list.date.len(),
            list.number,
            list.previous.as_ptr(),
            list.previous.len(),
            list.creation.as_ptr(),
            list.creation.len(),
            list.rows.as_ptr(),
            list.rows.len(),
            list.accounts.as_ptr(),
            list.accounts.len(),
            out.as_mut_ptr(),
            out.len(),
            &mut done.length,
        )
    };
    done
}
