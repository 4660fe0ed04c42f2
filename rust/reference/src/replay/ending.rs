//! How a program ends, and what it then says on standard error.

use crate::Refusal;
use std::fmt::{self, Display, Formatter};
use std::io;

/// Where a capture stopped, and why.
#[derive(Clone, Copy, Debug, PartialEq, Eq)]
pub struct Stop {
    pub position: u64,
    pub refusal: Refusal,
}

/// What is told of a capture where the output does not tell it.
#[derive(Clone, Copy, Debug, PartialEq, Eq)]
pub enum Note {
    /// A telegram was done as a command that may be an answer.
    Either,
    Stopped(Stop),
}

/// What came of a program that was not ended early.
#[derive(Clone, Debug, Default, PartialEq, Eq)]
pub struct Ending {
    /// How many lines or telegrams were refused.
    pub refused: u64,
    /// In the order in which they came up.
    pub notes: Vec<Note>,
}

/// Why a program ended early.
#[derive(Debug)]
pub enum Failure {
    /// It was called wrongly.
    Use(String),
    /// The chain was refused.
    Chain(Refusal),
    /// The line with this number says nothing known, or is too long.
    Line(u64),
    Input(io::Error),
    Output(io::Error),
}

impl Display for Stop {
    fn fmt(&self, out: &mut Formatter) -> fmt::Result {
        let Stop { position, refusal } = self;
        write!(out, "capture stopped at position {position}: {refusal}")
    }
}

impl Display for Note {
    fn fmt(&self, out: &mut Formatter) -> fmt::Result {
        match self {
            Note::Either => out.write_str(
                "a setmult_sr of the capture may be an answer of its lamp; it was done as a command",
            ),
            Note::Stopped(stop) => stop.fmt(out),
        }
    }
}

impl Display for Failure {
    fn fmt(&self, out: &mut Formatter) -> fmt::Result {
        match self {
            Failure::Use(message) => out.write_str(message),
            Failure::Chain(refusal) => refusal.fmt(out),
            Failure::Line(number) => write!(
                out,
                "line {number}: expected hex bytes, 'sensor PLACE TEMP FAULTS' or a comment"
            ),
            Failure::Input(error) => write!(out, "cannot read: {error}"),
            Failure::Output(error) => write!(out, "cannot write: {error}"),
        }
    }
}

impl Ending {
    /// Adds a note that was not made before.
    pub fn note(&mut self, note: Note) {
        if !self.notes.contains(&note) {
            self.notes.push(note);
        }
    }
}

/// The exit status of a program that ended so.
pub fn status(outcome: &Result<Ending, Failure>) -> u8 {
    match outcome {
        Ok(Ending { refused: 0, .. }) => 0,
        Ok(_) | Err(Failure::Chain(_)) => 1,
        Err(_) => 2,
    }
}

/// What a program of that name says on standard error, a line each.
pub fn errors(name: &str, outcome: &Result<Ending, Failure>) -> String {
    match outcome {
        Ok(ending) => {
            let lines = ending.notes.iter();
            lines.map(|note| format!("osp: {name}: {note}\n")).collect()
        }
        Err(failure) => format!("osp: {name}: {failure}\n"),
    }
}
