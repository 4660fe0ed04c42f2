//! Captures: runs of telegrams, one behind the other, as request 01 of document
//! 02 reads them. A run is read here on the whole of its bytes.
//!
//! - [`reader`]: the same in chunks, with a state in lent memory.

pub mod reader;
#[cfg(test)]
mod tests;

use crate::telegram::{has_preamble, Header, Telegram, FRAME};
use crate::Refusal;

/// How a reading stands.
#[derive(Clone, Copy, Debug, PartialEq, Eq)]
pub enum Stand {
    /// More bytes may come.
    Open,
    /// The run has ended with none left over.
    Ended,
    /// A telegram was refused: 1 to 5.
    Stopped(Refusal),
}

/// What a reading of a run gives.
#[derive(Clone, Debug, PartialEq, Eq)]
pub struct Reading<'a> {
    /// The telegrams, in order.
    pub telegrams: Vec<&'a [u8]>,
    pub stand: Stand,
    /// The bytes that belong to no telegram, from a refused one's first on.
    pub left: &'a [u8],
    /// Where these begin in the run, modulo 2^64.
    pub position: u64,
}

/// Reads a run whose first byte stands at a position, as far as it is in, and
/// to its end if that was said.
pub fn read(run: &[u8], start: u64, ended: bool) -> Reading<'_> {
    let (mut telegrams, mut left) = (Vec::new(), run);
    let stand = loop {
        match first(left) {
            Ok(Some(telegram)) => {
                telegrams.push(telegram);
                left = &left[telegram.len()..];
            }
            Ok(None) if ended => break at_end(left),
            Ok(None) => break Stand::Open,
            Err(refusal) => break Stand::Stopped(refusal),
        }
    };
    Reading {
        telegrams,
        stand,
        left,
        position: start.wrapping_add((run.len() - left.len()) as u64),
    }
}

/// The telegram at the front of some bytes, nothing while it is not whole: 2
/// with its first byte, 3 with its third, 5 with its last.
fn first(bytes: &[u8]) -> Result<Option<&[u8]>, Refusal> {
    if bytes.first().is_some_and(|&first| !has_preamble(first)) {
        return Err(Refusal::Preamble);
    }
    let Some(header) = Header::of(bytes) else {
        return Ok(None);
    };
    let whole = bytes.get(..FRAME + header.size()?);
    whole
        .map(|telegram| Telegram::parse(telegram).map(|_| telegram))
        .transpose()
}

/// What the end makes of the bytes that are left over.
fn at_end(left: &[u8]) -> Stand {
    match left.len() {
        0 => Stand::Ended,
        1..FRAME => Stand::Stopped(Refusal::TooShort),
        _ => Stand::Stopped(Refusal::ByteCount),
    }
}
