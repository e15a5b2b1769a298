//! The commands on a register as a file.

pub mod check;
pub mod grow;
pub mod list;
mod lists;
pub mod new;
pub mod recover;
pub mod show;
mod weights;
