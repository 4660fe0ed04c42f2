//! What a program is called with, and how it ends.

use std::env;
use std::process::ExitCode;

/// The seed that is used where none is given.
const SEED: u64 = 20_260_101;

/// The arguments `SUBJECT [SEED [COUNT]]` of a comparison.
pub fn comparison(usage: &str, count: u64) -> Result<(String, u64, u64), String> {
    let subject = env::args().nth(1).ok_or(usage)?;
    Ok((subject, number(2, SEED)?, number(3, count)?))
}

/// The argument at a place as a number, or the number used without it.
fn number(place: usize, default: u64) -> Result<u64, String> {
    env::args().nth(place).map_or(Ok(default), |text| {
        text.parse().map_err(|_| format!("not a number: {text}"))
    })
}

/// Prints what went wrong, if anything did; gives the exit status.
pub fn finish(outcome: Result<(), String>) -> ExitCode {
    match outcome {
        Ok(()) => ExitCode::SUCCESS,
        Err(message) => {
            println!("{message}");
            ExitCode::FAILURE
        }
    }
}
