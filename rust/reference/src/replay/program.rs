//! What a program reads from, and its exit.

use crate::replay::{errors, status, Ending, Failure};
use std::ffi::OsStr;
use std::fs::File;
use std::io::{self, Read};
use std::process::ExitCode;

/// The input that is named; `-` is standard input.
pub fn open(path: &OsStr) -> Result<Box<dyn Read>, Failure> {
    if path == "-" {
        return Ok(Box::new(io::stdin().lock()));
    }
    let file = File::open(path).map_err(Failure::Input)?;
    Ok(Box::new(file))
}

/// Says on standard error what is left to be said; gives the exit status.
pub fn finish(name: &str, outcome: &Result<Ending, Failure>) -> ExitCode {
    eprint!("{}", errors(name, outcome));
    ExitCode::from(status(outcome))
}
