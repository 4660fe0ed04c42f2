//! A second implementation of the OSP telegram rules, written from document 01
//! and the requests of document 02. It exists to be compared with the library, so
//! it shares nothing with it but these papers, the layouts in include/osp.h and
//! docs/RECORD.md, and docs/TOOL.md.
//!
//! - [`telegram`]: bytes to raw telegrams and back, and the checksum.
//! - [`command`]: raw telegrams to named commands with a cast, and back.
//! - [`answer`]: raw telegrams to a lamp's named answers, and back.
//! - [`capture`]: runs of telegrams, whole and in chunks.
//! - [`chain`]: the chain of lamps, which takes telegrams and answers them.
//! - [`wire`]: the flat functions of the C interface, on slices.
//! - [`case`]: one call with its inputs.
//! - [`line`]: the lines of the cases file, and what is printed behind them.
//! - [`replay`]: the tool's replay of a script, written from docs/TOOL.md alone.
//! - [`dump`]: the tool's listing of a raw capture, written from there too.

#![forbid(unsafe_code)]

pub mod answer;
pub mod capture;
pub mod case;
pub mod chain;
pub mod command;
pub mod dump;
pub mod line;
pub mod refusal;
pub mod replay;
pub mod telegram;
pub mod wire;

pub use refusal::Refusal;
