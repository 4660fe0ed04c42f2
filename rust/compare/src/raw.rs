//! Raw captures for the tool: at the edges, and random ones that a chain can make
//! something of.

use crate::captures::{tail, telegrams};
use crate::chains::{command_for, init_for, lamps, somebody};
use crate::material::*;
use crate::random::Random;
use crate::scripts::{made, refused};
use reference::replay::Options;
use reference::wire::{count, REFERENCE};

/// Lengths around that of what a program may read at once.
const LENGTHS: [usize; 7] = [4095, 4096, 4097, 65_535, 65_536, 65_537, 131_072];
/// The refusals of a telegram by the chain, not by the reader.
const BY_THE_CHAIN: [u32; 4] = [6, 7, 8, 12];

/// Captures in which one thing is at an edge, alone and behind telegrams.
pub fn edges(random: &mut Random) -> Vec<Vec<u8>> {
    let mut ends = vec![Vec::new(), vec![0xA0], vec![0xAF]];
    ends.extend([0x00, 0x9F, 0xB0, 0xFF].map(|byte| vec![byte]));
    for size in SIZES {
        let whole = fitting(address(random), random.between(0, 127), &random.bytes(size));
        let mut damaged = whole.clone();
        unseal(&mut damaged, random);
        ends.extend([whole, damaged]);
    }
    ends.extend(either(random));
    let longest = fitting(lamp(random), random.between(0, 127), &random.bytes(8));
    ends.extend((1..longest.len()).map(|size| longest[..size].to_vec()));
    for good in [good_command(random), good_answer(random)] {
        ends.push(telegram(address(random), 5, u32::from(good[2] & 0x7F), &[]));
        let mut damaged = good;
        if let Some(last) = damaged.last_mut() {
            *last ^= 1;
        }
        ends.push(damaged);
    }
    let mut edges = Vec::new();
    for end in ends {
        let count = random.between(1, 4) as usize;
        edges.push([telegrams(count, random), end.clone()].concat());
        edges.push(end);
    }
    for length in LENGTHS {
        edges.push(of_length(length, random));
        edges.push([of_length(length, random), tail(random)].concat());
    }
    edges
}

/// A telegram that is a command and an answer: to a lamp that init has numbered,
/// alone and damaged; with a byte less and one more it is neither.
fn either(random: &mut Random) -> [Vec<u8>; 5] {
    let [short, whole, long] =
        [1, 2, 3].map(|size| fitting(lamp(random), SETMULT_SR, &random.bytes(size)));
    let mut damaged = whole.clone();
    unseal(&mut damaged, random);
    let numbered = [
        fitting(1, INITBIDIR, &[]),
        fitting(1, SETMULT_SR, &[0, 0x40]),
    ];
    [numbered.concat(), whole, damaged, short, long]
}

/// Telegrams that have so many bytes.
fn of_length(length: usize, random: &mut Random) -> Vec<u8> {
    let mut run = Vec::new();
    // Sizes of 4 to 8 bytes fill up what 16 to 19 bytes are left.
    while run.len() + 20 <= length {
        run.extend(good_command(random));
    }
    while run.len() < length {
        let left = length - run.len();
        let size = if left < 8 { left } else { 4 };
        run.extend(fitting(lamp(random), READSTATUS, &random.bytes(size - 4)));
    }
    run
}

/// A random capture for a chain: telegrams that do something to it, the answers to
/// some of them, some telegrams that it refuses, and at the end now and then what
/// stops the reading.
pub fn board(options: &Options, count: usize, random: &mut Random) -> Vec<u8> {
    let mut record = made(options);
    let mut run = Vec::new();
    for _ in 0..count {
        let telegram = match random.below(12) {
            0 => init_for(lamps(&record), random),
            1 => good_answer(random),
            2 => refused(random.pick(&BY_THE_CHAIN), random),
            3 => good(random),
            4 => fitting(somebody(&record, random), SETMULT_SR, &random.bytes(2)),
            _ => command_for(&record, random),
        };
        let answer = delivered(&mut record, &telegram);
        run.extend(telegram);
        // A logger writes answers too, and then a replay delivers them.
        if random.below(3) == 0 {
            delivered(&mut record, &answer);
            run.extend(answer);
        }
    }
    run.extend(tail(random));
    run
}

/// The answer to a telegram, or no bytes.
fn delivered(record: &mut [u8], telegram: &[u8]) -> Vec<u8> {
    let mut room = [0; 12];
    let count = count((REFERENCE.deliver)(record, telegram, &mut room));
    room[..count].to_vec()
}
