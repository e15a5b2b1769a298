//! The proved account register of a group of toll roads, as safe Rust for a service.
//!
//! [`Register`] is a road's register, or a provider's copy of his part of it: an HGV is imported into it, a PAN or a plate
//! looked up in it, a confirmed HGV applied to a copy, and either is swept of its ended records. A lookup hands back the
//! [`Slot`] itself: the record, and which file touched it and when. [`read_back`] tells a provider what an HGC says of each of
//! his lines. Receptions, ends and stamps are UTC; an HGC shows its reception in local time, by the [`Offset`] of its import.
//! [`seconds`] reckons with times.
//! [`write`] makes an HGV of a provider's [`Account`]s that passes the import's form, with no line that breaks a rule of its own.
//! Every answer is the proved library's and nothing here judges a byte. What is refused is refused by its [`Number`] in the
//! definition, and a refusal leaves every block as it was.
//!
//! An import finds equal PANs by an index of slot numbers, which [`Register::import`] lends by itself;
//! [`Register::import_plain`] searches without one, and answers the same.
//!
//! [`raw`] holds the same functions on plain numbers and lent blocks, and says what the C boundary leaves unchecked.
//!
//! ```
//! use graftspindle::{Import, Mode, Number, Offset, Register};
//!
//! let mut register = Register::free(4)?;
//! let (mode, offset) = (Mode::Incremental, Offset::UTC);
//! let given = Import { mode, reception: b"20250310050000", offset, rows: b"", hgv: b"" };
//! let refused = register.import(&given).unwrap_err();
//! assert_eq!(refused, Number::HgvLength);
//! assert!(refused.to_string().starts_with("25: "));
//! assert_eq!(register.by_pan(b"9799001200000002   "), Err(Number::NoRecord));
//! # Ok::<(), Number>(())
//! ```

#![deny(unsafe_code)]
#![warn(missing_docs)]

#[macro_use]
mod numbered;

mod mode;
mod number;
mod offset;
mod provider;
#[allow(unsafe_code)]
pub mod raw;
mod reason;
mod register;
pub mod sizes;
mod slot;
mod time;
mod writer;

pub use mode::Mode;
pub use number::Number;
pub use numbered::Undefined;
pub use offset::{NoOffset, Offset};
pub use provider::read_back;
pub use raw::List;
pub use reason::{Reason, Verdict};
pub use register::{offset_in_range, rows_in_form, Counts, Import, Register};
pub use slot::Slot;
pub use time::seconds;
pub use writer::{write, Account, NO_LIST};
