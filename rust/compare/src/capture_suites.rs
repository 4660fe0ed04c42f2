//! The calls on the reader of captures that are compared.
//!
//! - [`trial`]: a capture that is read in chunks.

mod trial;

use crate::captures::*;
use crate::check::Checker;
use crate::material::*;
use crate::random::Random;
use crate::suites::{Outcome, Suite};
use reference::capture::reader::LENGTH;
use trial::read_cut;

/// The sets that every run compares.
pub const CAPTURE_SUITES: [Suite; 9] = [
    random_captures,
    every_place,
    every_room,
    every_phase,
    every_carried,
    damaged_states,
    every_index,
    wraps,
    long_chunks,
];

/// Captures that are cut at random, and those that are cut and ended at every
/// place.
const RANDOM: usize = 200_000;
const EVERYWHERE: usize = 500;

/// Captures cut at random.
fn random_captures(check: &mut Checker, random: &mut Random) -> Outcome {
    for _ in 0..RANDOM {
        let run = capture(random);
        let chunks = chunks(&run, random);
        let (ended, start) = (random.below(4) > 0, position(random));
        read_cut(check, random, &chunks, ended, start)?;
    }
    Ok(())
}

/// Captures cut in two at every place, with an empty chunk between, ended at
/// every place, and byte by byte.
fn every_place(check: &mut Checker, random: &mut Random) -> Outcome {
    for _ in 0..EVERYWHERE {
        let run = capture(random);
        let start = position(random);
        for at in 0..=run.len() {
            let (front, back) = run.split_at(at);
            read_cut(check, random, &[front, &[], back], true, start)?;
            read_cut(check, random, &[front], true, start)?;
        }
        let bytes: Vec<&[u8]> = run.chunks(1).collect();
        read_cut(check, random, &bytes, true, start)?;
    }
    Ok(())
}

/// Telegrams of every size with any part carried, in rooms of every size, also
/// in those that would look right if they were cut.
fn every_room(check: &mut Checker, random: &mut Random) -> Outcome {
    for size in SIZES {
        let mut telegram = fitting(address(random), random.between(0, 127), &random.bytes(size));
        for carried in 0..telegram.len() {
            for room in (0..=16).chain([256, 259, 65_536, 65_539]) {
                let before = open(position(random), &telegram[..carried]);
                let case = advancing(&telegram[carried..], 0, room);
                check.compare_on(&mut before.clone(), &case)?;
                telegram[size + 3] ^= 0x10;
                let case = advancing(&telegram[carried..], 0, room);
                check.compare_on(&mut before.clone(), &case)?;
                telegram[size + 3] ^= 0x10;
            }
        }
    }
    Ok(())
}

/// All three calls on a state, each on a copy.
fn try_state(check: &mut Checker, random: &mut Random, state: &[u8]) -> Outcome {
    let chunk = capture(random);
    let at = random.pick(&[0, 0, 0, 1, chunk.len(), usize::MAX]);
    for case in [advancing(&chunk, at, room(random)), ending(), locating()] {
        check.compare_on(&mut state.to_vec(), &case)?;
    }
    Ok(())
}

/// Every first and second byte of a state, with nothing carried and with a byte.
fn every_phase(check: &mut Checker, random: &mut Random) -> Outcome {
    for phase in 0..=255 {
        for number in 0..=255 {
            for byte in [0, random.pick(&[0xA0, 0xA7, 0xB0])] {
                let state = state(phase, number, random.bits(), &[byte]);
                check.compare_on(&mut state.clone(), &advancing(&[], 0, 12))?;
                check.compare_on(&mut state.clone(), &ending())?;
                check.compare_on(&mut state.clone(), &locating())?;
            }
        }
    }
    Ok(())
}

/// Parts of telegrams carried under every count, whole and with each byte
/// changed; every pair of a second and a third byte.
fn every_carried(check: &mut Checker, random: &mut Random) -> Outcome {
    for size in SIZES {
        let telegram = fitting(address(random), random.between(0, 127), &random.bytes(size));
        for length in 0..=telegram.len().min(LENGTH - CARRIED) {
            for count in 0..=13 {
                let whole = state(OPEN, count, random.bits(), &telegram[..length]);
                try_state(check, random, &whole)?;
                for at in 0..LENGTH {
                    let mut changed = whole.clone();
                    changed[at] ^= 1 << random.below(8);
                    try_state(check, random, &changed)?;
                }
            }
        }
    }
    for second in 0..=255 {
        for third in 0..=255 {
            let mut carried = random.bytes(11);
            carried[..3].copy_from_slice(&[0xA0 | second & 0x0F, second, third]);
            carried.truncate(random.between(3, 11) as usize);
            let mut state = open(0, &carried);
            check.compare_on(&mut state, &advancing(&[], 0, 0))?;
        }
    }
    Ok(())
}

/// Damaged and random states, shorter and longer ones; calls in any order on
/// each.
fn damaged_states(check: &mut Checker, random: &mut Random) -> Outcome {
    for length in 0..=40 {
        let mut stopped = stopped_by_5(random);
        stopped.resize(length, random.byte());
        for mut state in [vec![0; length], stopped, random.bytes(length)] {
            try_state(check, random, &state)?;
            check.compare_on(&mut state, &advancing(&[0xA0], 0, 12))?;
        }
    }
    for _ in 0..40_000 {
        let mut state = any_state(random);
        for _ in 0..random.below(8) {
            let chunk = capture(random);
            let at = random.below(chunk.len() + 2);
            let case = match random.below(6) {
                0 => ending(),
                1 => locating(),
                _ => advancing(&chunk, at, room(random)),
            };
            check.compare_on(&mut state, &case)?;
        }
        try_state(check, random, &state)?;
    }
    Ok(())
}

/// Indices at the end of a chunk and behind it, also those that would lie inside
/// if they were cut.
fn every_index(check: &mut Checker, random: &mut Random) -> Outcome {
    for _ in 0..300 {
        let chunk = capture(random);
        let behind = [1 << 8, 1 << 16, 1 << 32, 1 << 63, usize::MAX - 60];
        let near = 0..=chunk.len() + 3;
        let far = behind.into_iter().map(|far: usize| far + random.below(60));
        for at in near.chain(far.collect::<Vec<usize>>()) {
            let mut state = any_state(random);
            check.compare_on(&mut state, &advancing(&chunk, at, 12))?;
            check.compare_on(&mut state, &locating())?;
        }
    }
    Ok(())
}

/// Captures at positions whose sums carry over.
fn wraps(check: &mut Checker, random: &mut Random) -> Outcome {
    for edge in POSITIONS {
        for back in 0..40 {
            let run = [telegrams(3, random), capture(random)].concat();
            let chunks = chunks(&run, random);
            let start = edge.wrapping_sub(back);
            read_cut(check, random, &chunks, true, start)?;
        }
    }
    Ok(())
}

/// Chunks around the lengths at which a number of one or two bytes ends, read
/// from shortly before their end on.
fn long_chunks(check: &mut Checker, random: &mut Random) -> Outcome {
    for length in [255, 256, 257, 511, 513, 65_535, 65_536, 65_537, 70_000] {
        let (mut chunk, mut at) = (Vec::new(), 0);
        while chunk.len() < length {
            if chunk.len() + 200 < length {
                at = chunk.len();
            }
            chunk.extend(good(random));
        }
        chunk.truncate(length);
        let mut state = open(position(random), &[]);
        loop {
            let agreed = check.compare_on(&mut state, &advancing(&chunk, at, 12))?;
            if agreed.written.is_empty() {
                break;
            }
            at = agreed.at;
        }
        check.compare_on(&mut state, &ending())?;
        check.compare_on(&mut state, &locating())?;
    }
    Ok(())
}
