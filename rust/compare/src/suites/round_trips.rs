//! What is built and taken apart again, or taken apart and built again.

use crate::check::Checker;
use crate::material::*;
use crate::random::Random;
use crate::suites::Outcome;
use reference::case::Call;

/// What the command builder builds dissects back to what was given.
pub(super) fn built_commands(check: &mut Checker, random: &mut Random) -> Outcome {
    for _ in 0..1_000 {
        for known in KNOWN {
            for (cast, value) in known.casts(random) {
                let payload = random.bytes(known.payload);
                let build = commanding(known.number, cast, value, &payload, 12);
                let built = check.succeed(&build)?;
                let [.., high, low] = value.to_be_bytes();
                let head = [
                    known.number as u8,
                    cast as u8,
                    high,
                    low,
                    payload.len() as u8,
                ];
                let named = [&head[..], &payload].concat();
                check.come_back(&reading(Call::Dissect, &built, 16), &named)?;
            }
        }
    }
    Ok(())
}

/// What the SETPWM builder builds dissects back to what was given, and is what
/// the command builder builds.
pub(super) fn built_pwm(check: &mut Checker, random: &mut Random) -> Outcome {
    for _ in 0..20_000 {
        let (cast, value) = cast(random);
        let (modes, duties) = (random.between(0, 7), duties(random));
        let built = check.succeed(&lighting((cast, value), modes, duties, 10))?;
        let payload = words(modes, duties);
        let [.., high, low] = value.to_be_bytes();
        let head = [SETPWM as u8, cast as u8, high, low, payload.len() as u8];
        let named = [&head[..], &payload].concat();
        check.come_back(&reading(Call::Dissect, &built, 16), &named)?;
        check.come_back(&commanding(SETPWM, cast, value, &payload, 10), &built)?;
    }
    Ok(())
}

/// What the raw builder builds reads back to what was given.
pub(super) fn built_telegrams(check: &mut Checker, random: &mut Random) -> Outcome {
    for _ in 0..20_000 {
        let (address, command) = (address(random), random.between(0, 127));
        let size = random.pick(&SIZES);
        let payload = random.bytes(size);
        let built = check.succeed(&building(address, command, &payload, 12))?;
        let [.., high, low] = address.to_be_bytes();
        let head = [high, low, command as u8, size as u8];
        let fields = [&head[..], &payload].concat();
        check.come_back(&reading(Call::Read, &built, 12), &fields)?;
    }
    Ok(())
}

/// What the command dissector takes apart the command builder builds back.
pub(super) fn dissected_commands(check: &mut Checker, random: &mut Random) -> Outcome {
    for _ in 0..20_000 {
        let bytes = good_command(random);
        let fields = check.succeed(&reading(Call::Dissect, &bytes, 16))?;
        let (command, cast) = (u32::from(fields[0]), u32::from(fields[1]));
        let value = u32::from(fields[2]) << 8 | u32::from(fields[3]);
        let build = commanding(command, cast, value, &fields[5..], 12);
        check.come_back(&build, &bytes)?;
    }
    Ok(())
}

/// What the reader and the answer dissector take apart the raw builder builds
/// back.
pub(super) fn dissected_answers(check: &mut Checker, random: &mut Random) -> Outcome {
    for _ in 0..20_000 {
        let bytes = good_answer(random);
        let fields = check.succeed(&reading(Call::DissectAnswer, &bytes, 16))?;
        let address = u32::from(fields[1]) << 8 | u32::from(fields[2]);
        let build = building(address, u32::from(fields[0]), &fields[4..], 12);
        check.come_back(&build, &bytes)?;
        let bytes = good(random);
        let fields = check.succeed(&reading(Call::Read, &bytes, 16))?;
        let address = u32::from(fields[0]) << 8 | u32::from(fields[1]);
        let build = building(address, u32::from(fields[2]), &fields[4..], 12);
        check.come_back(&build, &bytes)?;
    }
    Ok(())
}
