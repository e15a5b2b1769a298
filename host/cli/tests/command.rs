//! The command, and how it keeps its files: through stops at every step, faults, and two at once.

#[path = "command/altered.rs"]
mod altered;
#[path = "command/answers.rs"]
mod answers;
#[path = "command/audit.rs"]
mod audit;
#[path = "command/clocks.rs"]
mod clocks;
#[path = "command/common.rs"]
mod common;
#[path = "command/demo.rs"]
mod demo;
#[path = "command/digest.rs"]
mod digest;
#[path = "command/explained.rs"]
mod explained;
#[path = "command/faults.rs"]
mod faults;
#[path = "command/hooked.rs"]
mod hooked;
#[path = "command/indexed.rs"]
mod indexed;
#[path = "command/issuers.rs"]
mod issuers;
#[path = "command/killed.rs"]
mod killed;
#[path = "command/kills.rs"]
mod kills;
#[path = "command/left.rs"]
mod left;
#[path = "command/limits.rs"]
mod limits;
#[path = "command/lookups.rs"]
mod lookups;
#[path = "command/model.rs"]
mod model;
#[path = "command/operator.rs"]
mod operator;
#[path = "command/pages.rs"]
mod pages;
#[path = "command/planted.rs"]
mod planted;
#[path = "command/power.rs"]
mod power;
#[path = "command/provider.rs"]
mod provider;
#[path = "command/replaced.rs"]
mod replaced;
#[path = "command/stamps.rs"]
mod stamps;
#[path = "command/steps.rs"]
mod steps;
#[path = "command/streams.rs"]
mod streams;
#[path = "command/sweeping.rs"]
mod sweeping;
#[path = "command/tables.rs"]
mod tables;
#[path = "command/thin.rs"]
mod thin;
#[path = "command/together.rs"]
mod together;
#[path = "command/traced.rs"]
mod traced;
#[path = "command/unwritten.rs"]
mod unwritten;
#[path = "command/users.rs"]
mod users;
#[path = "command/weights.rs"]
mod weights;
#[path = "command/words.rs"]
mod words;
#[path = "command/writing.rs"]
mod writing;
