//! Telegrams for a script: any with bytes, long ones, and refused ones.

use crate::chains::any_telegram;
use crate::material::*;
use crate::random::Random;

/// The refusals of a telegram that are made on purpose.
pub(super) const REFUSALS: [u32; 9] = [1, 2, 3, 4, 5, 6, 7, 8, 12];

/// A telegram that is not empty.
pub(super) fn any_good(record: &[u8], random: &mut Random) -> Vec<u8> {
    let bytes = any_telegram(record, random);
    match bytes.is_empty() {
        false => bytes,
        true => good_command(random),
    }
}

/// More bytes than a telegram has, good ones at the front or none.
pub(super) fn long_telegram(random: &mut Random) -> Vec<u8> {
    let size = random.between(13, 40) as usize;
    let mut bytes = match random.below(4) {
        0 => random.bytes(size),
        1 => vec![0xA0 + random.byte() % 16],
        2 => telegram(address(random), 5, random.between(0, 127), &[]),
        _ => good(random),
    };
    let missing = size.saturating_sub(bytes.len());
    bytes.extend(random.bytes(missing));
    if random.below(2) == 0 {
        seal(&mut bytes);
    }
    bytes
}

/// A telegram that is refused with a number. With 12 only where the chain has
/// more than one lamp, else it is done.
pub(crate) fn refused(number: u32, random: &mut Random) -> Vec<u8> {
    let mut bytes = good_command(random);
    match number {
        1 => bytes.truncate(random.between(1, 3) as usize),
        2 => bytes[0] ^= (random.between(1, 15) << 4) as u8,
        3 => {
            let payload = bytes.len() - 4;
            let payload = random.bytes(payload);
            bytes = telegram(address(random), 5, random.between(0, 127), &payload);
        }
        4 => {
            if bytes.len() == 4 || random.below(2) == 0 {
                bytes.push(0);
            } else {
                bytes.pop();
            }
            seal(&mut bytes);
        }
        5 => unseal(&mut bytes, random),
        6 => bytes = unknown_command(random),
        7 => bytes = wrong_cast(random),
        8 => bytes = wrong_size(random),
        _ => bytes = fitting(0x3EF, random.between(2, 3), &[]),
    }
    bytes
}

/// A telegram whose number is no command's.
fn unknown_command(random: &mut Random) -> Vec<u8> {
    let mut unknown = random.between(0, 127);
    while KNOWN.iter().any(|known| known.number == unknown) {
        unknown = random.between(0, 127);
    }
    let size = random.pick(&SIZES);
    fitting(address(random), unknown, &random.bytes(size))
}

/// A command to an address that it does not go to: 3FF, and where it is answered
/// groups, and everyone unless it is an init.
fn wrong_cast(random: &mut Random) -> Vec<u8> {
    let known = random.pick(&KNOWN);
    let mut addresses = vec![0x3FF];
    if known.answer.is_some() {
        addresses.push(random.between(0x3F0, 0x3FE));
    }
    if known.answer.is_some() && !known.is_init() {
        addresses.push(0);
    }
    let address = random.pick(&addresses);
    fitting(address, known.number, &random.bytes(known.payload))
}

/// A command with a payload of another size than its own.
fn wrong_size(random: &mut Random) -> Vec<u8> {
    let known = random.pick(&KNOWN);
    let size = loop {
        let size = random.pick(&SIZES);
        if size != known.payload {
            break size;
        }
    };
    fitting(lamp(random), known.number, &random.bytes(size))
}
