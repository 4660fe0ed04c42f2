//! Captures, how they are cut, and the states of their reader.

use crate::material::*;
use crate::random::Random;
use reference::capture::reader::LENGTH;
use reference::case::{Call, Case};

/// The phases of a reader's state.
pub const OPEN: u8 = 0;
pub const ENDED: u8 = 1;
pub const STOPPED: u8 = 2;

/// Where the carried bytes begin in a state.
pub const CARRIED: usize = 10;

/// Positions at which sums of some of their bytes carry over.
pub const POSITIONS: [u64; 9] = [
    0,
    0xFF,
    0xFFFF,
    0xFFFF_FFFF,
    0x00FF_FFFF_FFFF_FFFF,
    0x7FFF_FFFF_FFFF_FFFF,
    u64::MAX - 11,
    u64::MAX - 1,
    u64::MAX,
];

/// A case of reading the next telegram of a chunk.
pub fn advancing(chunk: &[u8], at: usize, room: usize) -> Case {
    reading(Call::Next { at }, chunk, room)
}

/// A case of ending a run, and one of asking for the position.
pub fn ending() -> Case {
    reading(Call::End, &[], 0)
}

pub fn locating() -> Case {
    reading(Call::Position, &[], 0)
}

/// A state from its parts; of the carried bytes as many as it has room for.
pub fn state(phase: u8, number: u8, position: u64, carried: &[u8]) -> Vec<u8> {
    let mut bytes = vec![phase, number];
    bytes.extend(position.to_be_bytes());
    bytes.extend(carried);
    bytes.resize(LENGTH, 0);
    bytes
}

/// An open state with these bytes carried.
pub fn open(position: u64, carried: &[u8]) -> Vec<u8> {
    state(OPEN, carried.len() as u8, position, carried)
}

/// A position, the edges more often than the rest.
pub fn position(random: &mut Random) -> u64 {
    match random.below(4) {
        0 => 0,
        1 => random.pick(&POSITIONS),
        2 => u64::MAX - random.below(60) as u64,
        _ => random.bits(),
    }
}

/// A capture: good telegrams, and what stands at the end.
pub fn capture(random: &mut Random) -> Vec<u8> {
    [telegrams(random.below(7), random), tail(random)].concat()
}

/// The end of a capture: often nothing, else what is not whole, or stops the
/// reading and has more telegrams behind it.
pub fn tail(random: &mut Random) -> Vec<u8> {
    let mut tail = match random.below(9) {
        0 => damaged(random),
        1 => {
            let size = random.below(16);
            random.bytes(size)
        }
        2 => header(random),
        3 => {
            let mut telegram = good(random);
            telegram.truncate(random.below(telegram.len()));
            return telegram;
        }
        4 => unsealed(random),
        _ => return Vec::new(),
    };
    tail.extend(telegrams(random.below(3), random));
    tail
}

/// So many good telegrams.
pub fn telegrams(count: usize, random: &mut Random) -> Vec<u8> {
    (0..count).flat_map(|_| good(random)).collect()
}

/// A telegram with some damage to it.
fn damaged(random: &mut Random) -> Vec<u8> {
    let mut bytes = good(random);
    for _ in 0..=random.below(2) {
        damage(&mut bytes, random);
    }
    bytes
}

/// A first byte that is right and any others.
fn header(random: &mut Random) -> Vec<u8> {
    let size = random.below(13);
    let mut bytes = vec![0xA0 | random.byte() & 0x0F];
    bytes.extend(random.bytes(size));
    bytes
}

/// The bytes of a run in chunks, whose sizes go up to a bound; some are empty.
pub fn chunks<'a>(run: &'a [u8], random: &mut Random) -> Vec<&'a [u8]> {
    let most = random.pick(&[1, 2, 3, 7, 12, 20, 200]);
    let (mut chunks, mut left) = (Vec::new(), run);
    while !left.is_empty() {
        let size = match random.below(12) {
            0 => 0,
            _ => random.between(1, most) as usize,
        };
        let (chunk, rest) = left.split_at(size.min(left.len()));
        chunks.push(chunk);
        left = rest;
    }
    chunks
}

/// Some state, mostly one that a reading leaves.
pub fn any_state(random: &mut Random) -> Vec<u8> {
    let position = position(random);
    let mut bytes = match random.below(8) {
        0 => state(ENDED, 0, position, &[]),
        1 => state(STOPPED, random.between(1, 4) as u8, position, &[]),
        2 | 3 => stopped_by_5(random),
        _ => {
            let telegram = good(random);
            open(position, &telegram[..random.below(telegram.len())])
        }
    };
    match random.below(4) {
        0 => spoil(&mut bytes, random),
        1 => bytes.extend(random.bytes(5)),
        _ => {}
    }
    bytes
}

/// A state that looks as if 5 had stopped it: mostly with two checksums that differ
/// and zeros behind them, sometimes with equal ones, or with something behind them.
pub fn stopped_by_5(random: &mut Random) -> Vec<u8> {
    let mut carried = [0; LENGTH - CARRIED];
    [carried[0], carried[1]] = [random.byte(), random.byte()];
    match random.below(6) {
        0 => carried[1] = carried[0],
        1 => carried[2 + random.below(LENGTH - CARRIED - 2)] = random.byte(),
        _ => {}
    }
    state(STOPPED, 5, position(random), &carried)
}

/// Changes a state, mostly into one that no reading leaves.
pub fn spoil(state: &mut Vec<u8>, random: &mut Random) {
    match random.below(6) {
        0 => state[0] = random.byte() % 5,
        1 => state[1] = random.byte() % 16,
        2 => {
            let at = CARRIED + random.below(LENGTH - CARRIED);
            state[at] = random.byte();
        }
        3 => {
            let at = random.below(state.len());
            state[at] ^= 1 << random.below(8);
        }
        4 => state.truncate(random.below(LENGTH)),
        _ => *state = random.bytes(LENGTH),
    }
}
