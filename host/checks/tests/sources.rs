//! What stands in several places of the project is the same in each: the C boundary, contracts and their laws, the pages of
//! `docs/`; and each edit that must be refused, and each change that must
//! be noticed, is applied as it was meant.

#[path = "sources/believed.rs"]
mod believed;
#[path = "sources/declarations.rs"]
mod declarations;
#[path = "sources/edits.rs"]
mod edits;
#[path = "sources/luhn.rs"]
mod luhn;
#[path = "sources/mistakes.rs"]
mod mistakes;
#[path = "sources/mutations.rs"]
mod mutations;
#[path = "sources/promises.rs"]
mod promises;
