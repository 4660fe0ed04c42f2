//! Telegrams, good and damaged, and other bytes for the functions that take
//! them.

use crate::check::Checker;
use crate::material::*;
use crate::random::Random;
use crate::suites::{readers, Outcome};
use reference::case::Call;

/// Every length from 0 to 16, half of them with the right preamble.
pub(super) fn random_bytes(check: &mut Checker, random: &mut Random) -> Outcome {
    for length in 0..=16 {
        for round in 0..800 {
            let mut bytes = random.bytes(length);
            if let (Some(first), 0) = (bytes.first_mut(), round % 2) {
                *first = 0xA0 | *first & 0x0F;
            }
            readers(check, &bytes, room(random))?;
            check.compare(&reading(Call::Checksum, &bytes, 0))?;
        }
    }
    Ok(())
}

/// Every command number with every size index and each class of address.
pub(super) fn headers(check: &mut Checker, random: &mut Random) -> Outcome {
    for command in 0..128 {
        for index in 0..8 {
            for address in ADDRESSES {
                header(check, random, (address, index, command))?;
            }
            let address = random.between(0, 0x3FF);
            header(check, random, (address, index, command))?;
        }
    }
    Ok(())
}

/// One header with right and wrong byte counts, right and wrong checksums.
fn header(check: &mut Checker, random: &mut Random, fields: (u32, u32, u32)) -> Outcome {
    let (address, index, command) = fields;
    let size = if index == 7 { 8 } else { index as usize };
    for size in [size.saturating_sub(1), size, size + 1] {
        let payload = random.bytes(size);
        let mut bytes = telegram(address, index, command, &payload);
        readers(check, &bytes, room(random))?;
        unseal(&mut bytes, random);
        readers(check, &bytes, room(random))?;
    }
    Ok(())
}

/// Commands of every kind with every class of address, in rooms 0 to 16.
pub(super) fn good_telegrams(check: &mut Checker, random: &mut Random) -> Outcome {
    for known in KNOWN {
        for room in 0..=16 {
            for address in ADDRESSES {
                let payload = random.bytes(known.payload);
                let bytes = fitting(address, known.number, &payload);
                readers(check, &bytes, room)?;
            }
            for (cast, value) in known.casts(random) {
                let payload = random.bytes(known.payload);
                let bytes = fitting(destination(cast, value), known.number, &payload);
                readers(check, &bytes, room)?;
            }
        }
    }
    Ok(())
}

/// Every known number with every size of answer, in rooms 0 to 16.
pub(super) fn answers(check: &mut Checker, random: &mut Random) -> Outcome {
    for known in KNOWN {
        for room in 0..=16 {
            for size in SIZES {
                for address in [0, lamp(random), address(random)] {
                    let bytes = fitting(address, known.number, &random.bytes(size));
                    check.compare(&reading(Call::DissectAnswer, &bytes, room))?;
                }
            }
        }
    }
    Ok(())
}

/// Each bit flipped, each byte dropped, a byte added at each place, with the
/// old checksum and with a new one.
pub(super) fn every_damage(check: &mut Checker, random: &mut Random) -> Outcome {
    for _ in 0..60 {
        let whole = good(random);
        for at in 0..whole.len() {
            for bit in 0..8 {
                let mut bytes = whole.clone();
                bytes[at] ^= 1 << bit;
                damaged(check, random, bytes)?;
            }
            let mut bytes = whole.clone();
            bytes.remove(at);
            damaged(check, random, bytes)?;
            let mut bytes = whole.clone();
            bytes.insert(at, random.byte());
            damaged(check, random, bytes)?;
        }
    }
    Ok(())
}

/// A damaged telegram as it is, and sealed again.
fn damaged(check: &mut Checker, random: &mut Random, mut bytes: Vec<u8>) -> Outcome {
    readers(check, &bytes, room(random))?;
    seal(&mut bytes);
    readers(check, &bytes, room(random))
}

/// Checksums over every length from 0 to 64, and over some long buffers.
pub(super) fn checksums(check: &mut Checker, random: &mut Random) -> Outcome {
    for length in 0..=64 {
        for _ in 0..300 {
            let bytes = random.bytes(length);
            check.compare(&reading(Call::Checksum, &bytes, 0))?;
        }
    }
    for byte in 0..=255 {
        check.compare(&reading(Call::Checksum, &[byte], 0))?;
        check.compare(&reading(Call::Checksum, &[byte; 20], 0))?;
    }
    for length in [255, 256, 257, 1000, 4096, 65_535, 65_536, 65_537, 300_000] {
        let bytes = random.bytes(length);
        check.compare(&reading(Call::Checksum, &bytes, 0))?;
    }
    Ok(())
}
