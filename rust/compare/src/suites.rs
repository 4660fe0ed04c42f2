//! The inputs that are compared.
//!
//! - [`telegrams`]: telegrams and other bytes for the functions that take them.
//! - [`builders`]: numbers and payloads for the functions that build a telegram.
//! - [`round_trips`]: what is built and taken apart again, or the other way
//!   round.

mod builders;
mod round_trips;
mod telegrams;

use crate::check::Checker;
use crate::material::*;
use crate::random::Random;
use reference::case::Call;

/// Nothing, or the text of the first difference.
pub type Outcome = Result<(), String>;

/// A set of inputs.
pub type Suite = fn(&mut Checker, &mut Random) -> Outcome;

/// The sets that every run compares.
pub const SUITES: [Suite; 18] = [
    telegrams::random_bytes,
    telegrams::headers,
    telegrams::good_telegrams,
    telegrams::answers,
    telegrams::every_damage,
    builders::raw_fields,
    builders::command_fields,
    builders::command_rooms,
    builders::pwm_fields,
    builders::pwm_duties,
    builders::pwm_rooms,
    telegrams::checksums,
    long_inputs,
    round_trips::built_commands,
    round_trips::built_pwm,
    round_trips::built_telegrams,
    round_trips::dissected_commands,
    round_trips::dissected_answers,
];

/// Compares the three functions that take a telegram.
fn readers(check: &mut Checker, bytes: &[u8], room: usize) -> Outcome {
    for call in READERS {
        check.compare(&reading(call, bytes, room))?;
    }
    Ok(())
}

/// Inputs and rooms whose length would look right if it were cut to one or two
/// bytes.
fn long_inputs(check: &mut Checker, random: &mut Random) -> Outcome {
    for wrap in [256, 512, 65_536] {
        for size in SIZES {
            for length in [size, size + wrap] {
                let payload = random.bytes(length);
                for command in [
                    0x00, 0x0D, 0x25, 0x2D, 0x40, 0x4B, 0x4D, 0x4F, 0x6B, 0x6D, 0x6F,
                ] {
                    let bytes = telegram(address(random), index_of(size), command, &payload);
                    let room = random.pick(&[12, wrap, wrap + 3, wrap + 12]);
                    readers(check, &bytes, room)?;
                    check.compare(&building(1, command, &payload, room))?;
                    check.compare(&commanding(command, 1, 1, &payload, room))?;
                }
            }
        }
    }
    Ok(())
}

/// One round of anything: a damaged telegram to each reader, and a random call
/// of each builder.
pub fn anything(check: &mut Checker, random: &mut Random) -> Outcome {
    let mut bytes = good(random);
    for _ in 0..random.below(4) {
        damage(&mut bytes, random);
    }
    if random.below(4) == 0 {
        unseal(&mut bytes, random);
    }
    readers(check, &bytes, room(random))?;
    check.compare(&reading(Call::Checksum, &bytes, 0))?;
    let length = random.below(13);
    let payload = random.bytes(length);
    let address = random.between(0, 1100);
    let command = random.between(0, 140);
    check.compare(&building(address, command, &payload, room(random)))?;
    let known = random.pick(&KNOWN);
    let length = random.pick(&[known.payload, known.payload, length]);
    let payload = random.bytes(length);
    let cast = random.between(0, 3);
    let most = random.pick(&[16, 1100]);
    let value = random.between(0, most);
    let room = room(random);
    check.compare(&commanding(known.number, cast, value, &payload, room))?;
    any_pwm(check, random)
}

/// A random call of the SETPWM builder, more often good than not.
fn any_pwm(check: &mut Checker, random: &mut Random) -> Outcome {
    let mut destination = cast(random);
    let mut modes = random.between(0, 7);
    let mut duties = duties(random);
    let most = random.pick(&[16, 1100, u32::MAX]);
    match random.below(8) {
        0 => destination = (random.between(0, 3), random.between(0, most)),
        1 => modes = random.between(0, most),
        2 => duties = [0; 3].map(|_| random.between(0, 0x1_0000)),
        3 => duties[random.below(3)] = random.between(0, u32::MAX),
        _ => {}
    }
    check.compare(&lighting(destination, modes, duties, room(random)))?;
    Ok(())
}
