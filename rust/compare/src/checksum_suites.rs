//! Wrong checksums, request 03: every two that differ, through every function that
//! reads a telegram, and every two bytes in a state that 5 stopped.

use crate::captures::*;
use crate::chain_suites::numbered;
use crate::chains::delivering;
use crate::check::{hex, Agreed, Checker};
use crate::material::*;
use crate::random::Random;
use crate::suites::{Outcome, Suite};
use reference::case::Case;

/// The sets that every run compares.
pub const CHECKSUM_SUITES: [Suite; 2] = [every_pair, every_stopped_pair];

/// The number of a state that no reading leaves.
const NO_STATE: u64 = 11;

/// The value of 5 with the checksum worked out and the one received.
fn wrong([computed, received]: [u8; 2]) -> u64 {
    5 + 256 * u64::from(computed) + 65_536 * u64::from(received)
}

/// Demands that both sides gave a value for some bytes.
fn demand(agreed: &Agreed, wanted: u64, bytes: &[u8]) -> Outcome {
    let given = agreed.result;
    match given == wanted {
        true => Ok(()),
        false => Err(format!(
            "both sides give {given:08X}, not {wanted:08X}: {}",
            hex(bytes)
        )),
    }
}

/// A telegram with every checksum, received with every other one.
fn every_pair(check: &mut Checker, random: &mut Random) -> Outcome {
    let record = numbered(check, random, 2)?;
    for computed in 0..=255 {
        let mut bytes = with_checksum(computed, random);
        let last = bytes.len() - 1;
        for received in (0..=255).filter(|&received| received != computed) {
            bytes[last] = received;
            let wanted = wrong([computed, received]);
            for call in READERS {
                let agreed = check.compare(&reading(call, &bytes, room(random)))?;
                demand(&agreed, wanted, &bytes)?;
            }
            let case = delivering(&bytes, 12);
            let agreed = check.compare_on(&mut record.clone(), &case)?;
            demand(&agreed, wanted, &bytes)?;
            in_a_reader(check, random, &bytes, wanted)?;
        }
    }
    Ok(())
}

/// A good telegram with this checksum.
fn with_checksum(wanted: u8, random: &mut Random) -> Vec<u8> {
    loop {
        let bytes = good(random);
        if bytes.last() == Some(&wanted) {
            return bytes;
        }
    }
}

/// A telegram that stops a reader, which carries a part of it; calls behind it repeat
/// that.
fn in_a_reader(check: &mut Checker, random: &mut Random, bytes: &[u8], wanted: u64) -> Outcome {
    let (front, back) = bytes.split_at(random.below(bytes.len()));
    let mut state = open(position(random), front);
    let mut cases = behind_a_stop(random);
    cases.insert(0, advancing(back, 0, room(random)));
    for case in cases {
        let agreed = check.compare_on(&mut state, &case)?;
        demand(&agreed, wanted, bytes)?;
    }
    check.compare_on(&mut state, &locating())?;
    Ok(())
}

/// A telegram and an end for a stopped reader, in either order.
fn behind_a_stop(random: &mut Random) -> Vec<Case> {
    let telegram = advancing(&good(random), 0, room(random));
    match random.below(2) {
        0 => vec![telegram, ending()],
        _ => vec![ending(), telegram],
    }
}

/// Every two bytes as the checksums of a state that 5 stopped, the same with something
/// behind them, and stopped by another number.
fn every_stopped_pair(check: &mut Checker, random: &mut Random) -> Outcome {
    for pair in 0..=0xFFFF_u16 {
        let pair = pair.to_be_bytes();
        let mut state = state(STOPPED, 5, position(random), &pair);
        let wanted = match pair[0] == pair[1] {
            true => NO_STATE,
            false => wrong(pair),
        };
        on_a_stop(check, random, &state, wanted)?;
        let at = CARRIED + 2 + random.below(state.len() - CARRIED - 2);
        state[at] = random.between(1, 255) as u8;
        on_a_stop(check, random, &state, NO_STATE)?;
        (state[1], state[at]) = (random.between(1, 4) as u8, 0);
        let wanted = match pair {
            [0, 0] => u64::from(state[1]),
            _ => NO_STATE,
        };
        on_a_stop(check, random, &state, wanted)?;
    }
    Ok(())
}

/// Calls on copies of a stopped state.
fn on_a_stop(check: &mut Checker, random: &mut Random, state: &[u8], wanted: u64) -> Outcome {
    for case in behind_a_stop(random) {
        let agreed = check.compare_on(&mut state.to_vec(), &case)?;
        demand(&agreed, wanted, state)?;
    }
    check.compare_on(&mut state.to_vec(), &locating())?;
    Ok(())
}
