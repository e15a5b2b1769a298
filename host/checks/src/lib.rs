//! The definition written by another hand, to compare the proved library with: `plain` follows it sentence by sentence,
//! `hashed` answers the same with hashed searches, `engines` puts all under one form, and `generate`, `sample` and `kinds`
//! make inputs, right ones, damaged ones and large ones. `vectors` answers the programs' vectors by `plain`. `lists` is what the
//! paper lists, and `tried` tries it in full. `mutations` reads changes of `plain` that have to be noticed. `sources` finds the
//! project's own files.

#![forbid(unsafe_code)]

pub mod engines;
pub mod generate;
pub mod hashed;
pub mod kinds;
pub mod lists;
pub mod mutations;
pub mod plain;
pub mod sample;
pub mod sources;
pub mod tried;
pub mod vectors;
