//! The static library and the second implementation, side by side.
//!
//! - [`library`]: the library's functions behind safe wrappers.
//! - [`arena`]: the memory of one call, with guard bytes.
//! - [`check`]: one call on both sides, and its comparison.
//! - [`material`]: good telegrams and damage to them.
//! - [`suites`]: the inputs that are compared.
//! - [`chains`]: chains and what is given to them.
//! - [`chain_suites`]: the calls on chains that are compared.
//! - [`acknowledged`]: acknowledged commands, compared and held against their plain
//!   forms.
//! - [`captures`]: captures, how they are cut, and states of their reader.
//! - [`capture_suites`]: the calls on the reader of captures that are compared.
//! - [`checksum_suites`]: wrong checksums through all calls that read a telegram.
//! - [`lists`]: demand 3 of document 01, tried on the library alone.
//! - [`scripts`]: scripts for the replay.
//! - [`raw`]: raw captures for the tool.
//! - [`programs`]: programs that are called, and what they print.
//! - [`random`]: the seeded source of them.
//! - [`workloads`]: the calls that are timed.
//! - [`incremental`]: a reader of captures that the library's is timed beside.
//! - [`callgrind`]: how many instructions a program takes.
//! - [`arguments`]: what a program is called with, and how it ends.

pub mod acknowledged;
pub mod arena;
pub mod arguments;
pub mod callgrind;
pub mod capture_suites;
pub mod captures;
pub mod chain_suites;
pub mod chains;
pub mod check;
pub mod checksum_suites;
pub mod incremental;
#[cfg_attr(feature = "self-test", path = "stand_in.rs")]
pub mod library;
pub mod lists;
pub mod material;
pub mod programs;
pub mod random;
pub mod raw;
pub mod scripts;
pub mod suites;
pub mod workloads;
