//! Chains and what is given to them.

use crate::material::*;
use crate::random::Random;
use reference::case::{Call, Case};

/// The bytes before the first slot of a record, and those of a slot.
const HEADER: usize = 6;
pub const SLOT: usize = 16;
/// The most lamps of a chain.
pub const MOST: usize = 1007;
/// The last address of a lamp, and that of a lamp without one.
const LAST: u32 = 0x3EF;
const NONE: u32 = 0x3FF;

/// Where the slot of a place begins; for a count, how long its record is.
pub fn slot(place: usize) -> usize {
    HEADER + SLOT * place
}

/// The lamp count in the header, 0 where there is none.
pub fn lamps(record: &[u8]) -> usize {
    match record {
        [high, low, ..] => usize::from(*high) << 8 | usize::from(*low),
        _ => 0,
    }
}

/// The address at a place, as far as the record goes.
pub fn address_at(record: &[u8], place: usize) -> Option<u32> {
    let bytes = record.get(slot(place)..slot(place) + 2)?;
    Some(u32::from(bytes[0]) << 8 | u32::from(bytes[1]))
}

/// A case of making a chain; the defaults are setup and thresholds.
pub fn making(count: u32, defaults: [u8; 4]) -> Case {
    let [setup, t0, t1, t2] = defaults;
    let call = Call::Make {
        count,
        setup,
        thresholds: [t0, t1, t2],
    };
    reading(call, &[], 0)
}

/// A case of a delivery.
pub fn delivering(bytes: &[u8], room: usize) -> Case {
    reading(Call::Deliver, bytes, room)
}

/// A case of a sensor report.
pub fn sensing(place: u32, temperature: u8, faults: u32) -> Case {
    let call = Call::Sense {
        place,
        temperature,
        faults,
    };
    reading(call, &[], 0)
}

/// A case of reading a lamp out.
pub fn reading_out(place: u32, room: usize) -> Case {
    reading(Call::Lamp { place }, &[], room)
}

/// Default setup and thresholds.
pub fn defaults(random: &mut Random) -> [u8; 4] {
    [0; 4].map(|_| random.byte())
}

/// A room for an answer, mostly wide enough.
pub fn answer_room(random: &mut Random) -> usize {
    match random.below(5) {
        0 => random.below(17),
        _ => 12 + random.below(5),
    }
}

/// A place of a chain, its ends more often than the rest.
pub fn place(count: usize, random: &mut Random) -> usize {
    match random.below(4) {
        0 => 0,
        1 => count.saturating_sub(1),
        _ => random.below(count.max(1)),
    }
}

/// The address of a lamp of the chain, or of nobody.
pub fn somebody(record: &[u8], random: &mut Random) -> u32 {
    let place = place(lamps(record), random);
    address_at(record, place)
        .filter(|address| (1..=LAST).contains(address) && random.below(8) > 0)
        .unwrap_or_else(|| lamp(random))
}

/// A command that every rule accepts and that is no init, rather to the lamps
/// of the chain; RESET only half as often as the others.
pub fn command_for(record: &[u8], random: &mut Random) -> Vec<u8> {
    let mut known = random.pick(&KNOWN);
    while known.is_init() || known.number == 0 && random.below(2) == 0 {
        known = random.pick(&KNOWN);
    }
    let casts = known.casts(random);
    let (cast, value) = random.pick(&casts);
    let address = match cast {
        1 => somebody(record, random),
        _ => destination(cast, value),
    };
    fitting(address, known.number, &random.bytes(known.payload))
}

/// An init: mostly one that fits, sometimes one at the end of the addresses,
/// past it, or at 000.
pub fn init_for(count: usize, random: &mut Random) -> Vec<u8> {
    let end = LAST + 1 - count.clamp(1, MOST) as u32;
    let first = match random.below(8) {
        0 => end,
        1 => end + 1,
        2 => lamp(random),
        3 | 4 => 0,
        _ => random.between(1, end),
    };
    fitting(first, random.between(2, 3), &[])
}

/// Any telegram: good ones, good ones of the wrong kind, and damaged ones.
pub fn any_telegram(record: &[u8], random: &mut Random) -> Vec<u8> {
    match random.below(16) {
        0..=8 => command_for(record, random),
        9 | 10 => init_for(lamps(record), random),
        11 | 12 => good(random),
        13 => {
            let mut bytes = command_for(record, random);
            unseal(&mut bytes, random);
            bytes
        }
        _ => {
            let mut bytes = match random.below(3) {
                0 => init_for(lamps(record), random),
                _ => command_for(record, random),
            };
            for _ in 0..=random.below(2) {
                damage(&mut bytes, random);
            }
            bytes
        }
    }
}

/// A place to ask for, mostly one that exists.
pub fn any_place(record: &[u8], random: &mut Random) -> u32 {
    let count = lamps(record);
    match random.below(12) {
        0 => count as u32 + random.between(0, 2),
        1 => random.pick(&[0x100, 0x1_0000, 0x1000_0000, 0x8000_0000, u32::MAX]),
        _ => place(count, random) as u32,
    }
}

/// A sum of faults, mostly one that exists.
pub fn any_faults(random: &mut Random) -> u32 {
    match random.below(8) {
        0 => random.pick(&[8, 9, 16, 255, 256, 0x1_0001, 0x8000_0000, u32::MAX]),
        _ => random.between(0, 7),
    }
}

/// Changes a valid record into another valid one that no call may ever leave:
/// any status, the address of another lamp, or any other bytes of a slot.
pub fn disturb(record: &mut [u8], random: &mut Random) {
    let count = lamps(record);
    let at = slot(place(count, random));
    match random.below(3) {
        0 => record[at + 2] = random.byte(),
        1 => {
            let other = slot(random.below(count));
            record.copy_within(other..other + 2, at);
        }
        _ => {
            let length = random.below(15);
            let fields = random.bytes(length);
            record[at + 2..at + 2 + length].copy_from_slice(&fields);
        }
    }
}

/// Damages a record: a wrong count, a bad address, too few bytes, or a changed
/// byte. Some of the damaged ones are still valid.
pub fn spoil(record: &mut Vec<u8>, random: &mut Random) {
    let count = lamps(record);
    match random.below(5) {
        0 => {
            let count = random.pick(&[0, 1, count + 1, count + 2, MOST, MOST + 1, 0x100, 0xFFFF]);
            record[..2].copy_from_slice(&(count as u16).to_be_bytes());
        }
        1 => {
            let bad = random.pick(&[0, 0x3F0, 0x3FE, 0x400, 0x401, 0x7FF, 0x8001, 0xFFFF]);
            put_address(record, place(count, random), bad);
        }
        2 => put_address(
            record,
            place(count, random),
            random.between(LAST - 1, NONE + 1),
        ),
        3 => record.truncate(random.below(slot(count) + 1)),
        _ => {
            let at = random.below(record.len());
            record[at] ^= 1 << random.below(8);
        }
    }
}

/// Puts an address, good or bad, into a slot.
pub fn put_address(record: &mut [u8], place: usize, address: u32) {
    let bytes = (address as u16).to_be_bytes();
    record[slot(place)..slot(place) + 2].copy_from_slice(&bytes);
}
