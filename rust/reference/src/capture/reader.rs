//! The reader of a capture in chunks. Its state lies in lent memory, as
//! include/osp.h lays it out. What it does is worked out on the joined bytes.

use crate::capture::{self, Stand};
use crate::Refusal;
use std::ops::Range;

/// The length of a state, and where its parts lie.
pub const LENGTH: usize = 21;
const PHASE: usize = 0;
const NUMBER: usize = 1;
const POSITION: Range<usize> = 2..10;
const CARRIED: Range<usize> = 10..LENGTH;

/// The phases.
const OPEN: u8 = 0;
const ENDED: u8 = 1;
const STOPPED: u8 = 2;

/// What a reader remembers between two calls.
struct State {
    stand: Stand,
    /// Of the first byte that belongs to no telegram.
    position: u64,
    /// The bytes from there on, while it is open.
    carried: Vec<u8>,
}

impl State {
    /// The state in some memory; refuses with 11 what no reading leaves.
    fn load(memory: &[u8]) -> Result<State, Refusal> {
        let bytes = memory.first_chunk().ok_or(Refusal::Chain)?;
        let state = State::decode(bytes).ok_or(Refusal::Chain)?;
        match state.is_left() && state.bytes() == *bytes {
            true => Ok(state),
            false => Err(Refusal::Chain),
        }
    }

    /// The parts of a state, if each has a value.
    fn decode(bytes: &[u8; LENGTH]) -> Option<State> {
        let (number, behind) = (bytes[NUMBER], &bytes[CARRIED]);
        let (stand, carried) = match bytes[PHASE] {
            OPEN => (Stand::Open, behind.get(..usize::from(number))?),
            ENDED => (Stand::Ended, &[][..]),
            STOPPED => (Stand::Stopped(stopping(number, behind)?), &[][..]),
            _ => return None,
        };
        let position = bytes[POSITION].try_into().ok()?;
        Some(State {
            stand,
            position: u64::from_be_bytes(position),
            carried: carried.to_vec(),
        })
    }

    /// Whether a reading may leave it: what is carried is no telegram yet.
    fn is_left(&self) -> bool {
        let reading = capture::read(&self.carried, self.position, false);
        reading.stand == Stand::Open && reading.telegrams.is_empty()
    }

    /// The state as it lies in memory.
    fn bytes(&self) -> [u8; LENGTH] {
        let mut bytes = [0; LENGTH];
        (bytes[PHASE], bytes[NUMBER]) = match self.stand {
            Stand::Open => (OPEN, self.carried.len() as u8),
            Stand::Ended => (ENDED, 0),
            Stand::Stopped(refusal) => (STOPPED, refusal.number()),
        };
        bytes[POSITION].copy_from_slice(&self.position.to_be_bytes());
        bytes[CARRIED][..self.carried.len()].copy_from_slice(&self.carried);
        if let Stand::Stopped(Refusal::Checksum { computed, received }) = self.stand {
            bytes[CARRIED][..2].copy_from_slice(&[computed, received]);
        }
        bytes
    }

    /// Puts the state into its memory.
    fn store(&self, memory: &mut [u8]) {
        memory[..LENGTH].copy_from_slice(&self.bytes());
    }

    /// What every call repeats once the reader is no longer open.
    fn repeated(&self) -> Option<Result<usize, Refusal>> {
        match self.stand {
            Stand::Open => None,
            Stand::Ended => Some(Ok(0)),
            Stand::Stopped(refusal) => Some(Err(refusal)),
        }
    }
}

/// The refusal with a number that stops a reader. Of 5 the bytes behind begin with
/// the checksum worked out and the one received, which differ.
fn stopping(number: u8, behind: &[u8]) -> Option<Refusal> {
    match (number, behind) {
        (1, _) => Some(Refusal::TooShort),
        (2, _) => Some(Refusal::Preamble),
        (3, _) => Some(Refusal::SizeIndex),
        (4, _) => Some(Refusal::ByteCount),
        (5, &[computed, received, ..]) if computed != received => {
            Some(Refusal::Checksum { computed, received })
        }
        _ => None,
    }
}

/// Writes the next telegram of a chunk, from an index on, and moves the index
/// behind it; gives the telegram's length, or 0 where the chunk has no further
/// one. Refuses with 11, then 2, 3 or 5, then 9.
pub fn next(
    memory: &mut [u8],
    chunk: &[u8],
    at: &mut usize,
    room: &mut [u8],
) -> Result<usize, Refusal> {
    let mut state = State::load(memory)?;
    if let Some(answer) = state.repeated() {
        return answer;
    }
    let rest = chunk.get(*at..).unwrap_or_default();
    let run = [&state.carried, rest].concat();
    let count = match capture::first(&run) {
        Ok(Some(telegram)) => {
            let count = telegram.len();
            let out = room.get_mut(..count).ok_or(Refusal::Room)?;
            out.copy_from_slice(telegram);
            *at += count - state.carried.len();
            state.position = state.position.wrapping_add(count as u64);
            state.carried.clear();
            Ok(count)
        }
        Ok(None) => {
            *at += rest.len();
            state.carried = run;
            Ok(0)
        }
        Err(refusal) => {
            state.stand = Stand::Stopped(refusal);
            state.carried.clear();
            Err(refusal)
        }
    };
    state.store(memory);
    count
}

/// Ends the run: 11, then 1 or 4, or what stopped it before.
pub fn end(memory: &mut [u8]) -> Result<usize, Refusal> {
    let mut state = State::load(memory)?;
    if state.stand == Stand::Open {
        state.stand = capture::at_end(&state.carried);
        state.carried.clear();
        state.store(memory);
    }
    state.repeated().unwrap_or(Ok(0))
}

/// The position in a state; 0 for what the others refuse with 11.
pub fn position(memory: &[u8]) -> u64 {
    State::load(memory).map_or(0, |state| state.position)
}
