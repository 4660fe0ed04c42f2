//! Numbers, payloads and rooms for the functions that build a telegram.

use crate::check::Checker;
use crate::material::*;
use crate::random::Random;
use crate::suites::Outcome;

/// Numbers at and past the ends of the builders' fields.
const FIELDS: [u32; 24] = [
    0,
    1,
    2,
    13,
    14,
    15,
    16,
    126,
    127,
    128,
    255,
    256,
    1006,
    0x3EF,
    0x3F0,
    0x3FE,
    0x3FF,
    0x400,
    0x401,
    0xFFFF,
    0x1_0000,
    0x1_0001,
    0x8000_0000,
    u32::MAX,
];

/// Kinds of cast, the three that exist and others.
const CASTS: [u32; 10] = [0, 1, 2, 3, 4, 255, 256, 257, 258, u32::MAX];

/// Modes past their end.
const FAR_MODES: [u32; 8] = [8, 9, 15, 16, 255, 256, 0x8000_0000, u32::MAX];

/// The raw builder's numbers at and past their ends, every payload length from
/// 0 to 12.
pub(super) fn raw_fields(check: &mut Checker, random: &mut Random) -> Outcome {
    for address in FIELDS {
        for command in FIELDS {
            for length in 0..=12 {
                let payload = random.bytes(length);
                for room in [0, 3 + length, 4 + length, random.below(17)] {
                    check.compare(&building(address, command, &payload, room))?;
                }
            }
        }
    }
    Ok(())
}

/// The command builder's numbers at and past their ends, every payload length
/// from 0 to 12.
pub(super) fn command_fields(check: &mut Checker, random: &mut Random) -> Outcome {
    let far = [0x100, 0x14F, 0x1_0000, 0x8000_0000, u32::MAX];
    for command in (0..=0xFF).chain(far) {
        for cast in [0, 1, 2, 3, 256, u32::MAX] {
            for value in FIELDS {
                let right = KNOWN.iter().find(|known| known.number == command);
                let right = right.map_or(0, |known| known.payload);
                for length in [right, random.below(13)] {
                    let payload = random.bytes(length);
                    let room = room(random);
                    check.compare(&commanding(command, cast, value, &payload, room))?;
                }
            }
        }
    }
    Ok(())
}

/// Known commands in their casts, every payload length and every room.
pub(super) fn command_rooms(check: &mut Checker, random: &mut Random) -> Outcome {
    for known in KNOWN {
        for (cast, value) in known.casts(random) {
            for length in 0..=12 {
                for room in 0..=16 {
                    let payload = random.bytes(length);
                    check.compare(&commanding(known.number, cast, value, &payload, room))?;
                }
            }
        }
    }
    Ok(())
}

/// The SETPWM builder's cast, value and modes at and past their ends, each
/// with good duties and with one that may be too long.
pub(super) fn pwm_fields(check: &mut Checker, random: &mut Random) -> Outcome {
    for cast in CASTS {
        for value in FIELDS {
            for modes in (0..8).chain(FAR_MODES) {
                let good = duties(random);
                let mut other = good;
                other[random.below(3)] = random.pick(&DUTIES);
                for duties in [good, other] {
                    check.compare(&lighting((cast, value), modes, duties, room(random)))?;
                }
            }
        }
    }
    Ok(())
}

/// Every three duties at and past their ends, with modes around their end.
pub(super) fn pwm_duties(check: &mut Checker, random: &mut Random) -> Outcome {
    for red in DUTIES {
        for green in DUTIES {
            for blue in DUTIES {
                for modes in 0..=8 {
                    let case = lighting(cast(random), modes, [red, green, blue], room(random));
                    check.compare(&case)?;
                }
            }
        }
    }
    Ok(())
}

/// SETPWM in each cast and in every room, also in those that wrap.
pub(super) fn pwm_rooms(check: &mut Checker, random: &mut Random) -> Outcome {
    for room in (0..=16).chain([256, 265, 266, 65_536, 65_545, 65_546]) {
        for modes in 0..=8 {
            for destination in [(0, 0), (1, lamp(random)), (2, random.between(0, 14))] {
                let duties = duties(random);
                check.compare(&lighting(destination, modes, duties, room))?;
            }
        }
    }
    Ok(())
}
