//! The definition's own cases and the comparison of all implementations.

#[path = "definition/accounts.rs"]
mod accounts;
#[path = "definition/agreement.rs"]
mod agreement;
#[path = "definition/boundary.rs"]
mod boundary;
#[path = "definition/clocks.rs"]
mod clocks;
#[path = "definition/common.rs"]
mod common;
#[path = "definition/exhaustive.rs"]
mod exhaustive;
#[path = "definition/indexed.rs"]
mod indexed;
#[path = "definition/limits.rs"]
mod limits;
#[path = "definition/lines.rs"]
mod lines;
#[path = "definition/lookups.rs"]
mod lookups;
#[path = "definition/order.rs"]
mod order;
#[path = "definition/pairing.rs"]
mod pairing;
#[path = "definition/provider.rs"]
mod provider;
#[path = "definition/registers.rs"]
mod registers;
#[path = "definition/sequences.rs"]
mod sequences;
#[path = "definition/size.rs"]
mod size;
#[path = "definition/stamps.rs"]
mod stamps;
#[path = "definition/steps.rs"]
mod steps;
#[path = "definition/sweeping.rs"]
mod sweeping;
#[path = "definition/swept.rs"]
mod swept;
#[path = "definition/thin.rs"]
mod thin;
#[path = "definition/vectors.rs"]
mod vectors;
#[path = "definition/writing.rs"]
mod writing;
#[path = "definition/writing_limits.rs"]
mod writing_limits;
