//! The calls on chains that are compared.

use crate::chains::*;
use crate::check::Checker;
use crate::material::*;
use crate::random::Random;
use crate::suites::{Outcome, Suite};
use reference::case::Call;

/// The sets that every run compares.
pub const CHAIN_SUITES: [Suite; 11] = [
    record_lengths,
    makings,
    every_address,
    every_count,
    every_status,
    every_header,
    reports_and_readings,
    random_records,
    damaged_records,
    long_lengths,
    sequences,
];

/// Lamps of a chain, how many sequences of deliveries it gets, and how many
/// deliveries are in each.
const SEQUENCES: [(usize, usize, usize); 6] = [
    (1, 4_000, 100),
    (2, 5_000, 100),
    (9, 8_000, 100),
    (33, 2_000, 100),
    (300, 400, 500),
    (1007, 300, 500),
];

/// Counts at and past their ends, and those that would fit if they were cut.
const COUNTS: [u32; 18] = [
    0,
    1,
    2,
    9,
    255,
    256,
    257,
    1006,
    1007,
    1008,
    1009,
    0xFFFF,
    0x1_0000,
    0x1_0001,
    0x1000_0001,
    0x8000_0000,
    0x8000_0001,
    u32::MAX,
];

/// A made chain with some bytes behind it, compared as it is made.
fn made(check: &mut Checker, random: &mut Random, count: usize) -> Result<Vec<u8>, String> {
    let length = slot(count) + random.below(40);
    let mut record = random.bytes(length);
    check.compare_on(&mut record, &making(count as u32, defaults(random)))?;
    Ok(record)
}

/// A made chain, numbered by an init that fits.
pub(crate) fn numbered(
    check: &mut Checker,
    random: &mut Random,
    count: usize,
) -> Result<Vec<u8>, String> {
    let mut record = made(check, random, count)?;
    let first = random.between(1, 0x3F0 - count as u32);
    let init = fitting(first, random.between(2, 3), &[]);
    check.compare_on(&mut record, &delivering(&init, 12))?;
    Ok(record)
}

/// The length of every record, and of those that there are not.
fn record_lengths(check: &mut Checker, _: &mut Random) -> Outcome {
    for count in (0..=3_000).chain(65_500..=66_600).chain(COUNTS) {
        check.compare(&reading(Call::RecordLen { count }, &[], 0))?;
    }
    Ok(())
}

/// Makings with counts and lengths around their edges.
fn makings(check: &mut Checker, random: &mut Random) -> Outcome {
    for count in COUNTS.into_iter().chain(3..30).chain([300]) {
        let right = slot((count as usize).min(MOST + 1));
        let around = [right - 1, right, right + 1, right + 15, right + 16];
        let fixed = [0, 1, 5, 6, 7, 21, 22, 23, 16_117, 16_118, 16_119, 65_558];
        for length in around.into_iter().chain(fixed) {
            let mut record = random.bytes(length);
            let case = making(count, defaults(random));
            let agreed = check.compare_on(&mut record, &case)?;
            if agreed.number == 0 {
                let place = any_place(&record, random);
                check.compare_on(&mut record, &reading_out(place, 18))?;
            }
        }
    }
    Ok(())
}

/// One telegram, one sensor report and one reading on a record, each on a copy.
fn open(check: &mut Checker, random: &mut Random, record: &[u8]) -> Outcome {
    let telegram = any_telegram(record, random);
    let place = any_place(record, random);
    for case in [
        delivering(&telegram, answer_room(random)),
        sensing(place, random.byte(), any_faults(random)),
        reading_out(place, random.pick(&[18, 17, 20, 0])),
    ] {
        check.compare_on(&mut record.to_vec(), &case)?;
    }
    Ok(())
}

/// Every two bytes as an address at the first and at the last place.
fn every_address(check: &mut Checker, random: &mut Random) -> Outcome {
    let record = numbered(check, random, 3)?;
    for address in 0..=0xFFFF {
        let mut record = record.clone();
        put_address(&mut record, random.pick(&[0, 1, 2]), address);
        open(check, random, &record)?;
    }
    Ok(())
}

/// Every two bytes as a count, in memory that is long enough for three lamps.
fn every_count(check: &mut Checker, random: &mut Random) -> Outcome {
    let record = numbered(check, random, 3)?;
    for count in 0..=0xFFFF_u16 {
        let mut record = record.clone();
        record[..2].copy_from_slice(&count.to_be_bytes());
        check.compare_on(&mut record, &delivering(&[0xA0, 0x00, 0x05, 0xB1], 12))?;
    }
    Ok(())
}

/// Every status byte with every command in every cast, on the first lamp and
/// on the second.
fn every_status(check: &mut Checker, random: &mut Random) -> Outcome {
    let record = numbered(check, random, 2)?;
    for status in 0..=255 {
        for known in KNOWN {
            for address in [0, 1, 2, 0x3F0, 0x3F7, 0x3FE] {
                let mut record = record.clone();
                let at = slot(random.below(2));
                record[at + 2] = status;
                record[at + 3] = random.byte();
                record[at + 8..at + 16].copy_from_slice(&random.bytes(8));
                put_address(&mut record, 0, 1);
                put_address(&mut record, 1, 2);
                let bytes = fitting(address, known.number, &random.bytes(known.payload));
                check.compare_on(&mut record, &delivering(&bytes, 12))?;
            }
        }
    }
    Ok(())
}

/// Every command number with every size index and each class of address, with
/// right and wrong byte counts and checksums, to a numbered chain and to one
/// where a lamp has no address.
fn every_header(check: &mut Checker, random: &mut Random) -> Outcome {
    let whole = numbered(check, random, 2)?;
    let mut partly = whole.clone();
    put_address(&mut partly, random.below(2), 0x3FF);
    for command in 0..128 {
        for index in 0..8 {
            for address in ADDRESSES {
                let size = if index == 7 { 8 } else { index as usize };
                for size in [size.saturating_sub(1), size, size + 1] {
                    let mut bytes = telegram(address, index, command, &random.bytes(size));
                    for record in [&whole, &partly] {
                        let case = delivering(&bytes, 12);
                        check.compare_on(&mut record.clone(), &case)?;
                    }
                    unseal(&mut bytes, random);
                    let case = delivering(&bytes, answer_room(random));
                    check.compare_on(&mut whole.clone(), &case)?;
                }
            }
        }
    }
    Ok(())
}

/// Sensor reports and readings with every number at and past its end.
fn reports_and_readings(check: &mut Checker, random: &mut Random) -> Outcome {
    for count in [1, 2, 9, 255, 256, 257, 1007] {
        let mut record = numbered(check, random, count)?;
        let end = count as u32;
        for place in [0, 1, end - 1, end, end + 1].into_iter().chain(COUNTS) {
            for faults in (0..=9).chain([16, 255, 256, 257, 0x1_0001, u32::MAX]) {
                let case = sensing(place, random.byte(), faults);
                check.compare_on(&mut record, &case)?;
            }
            for room in (0..=20).chain([255, 256, 273, 274, 65_536, 65_553]) {
                check.compare_on(&mut record, &reading_out(place, room))?;
            }
        }
    }
    Ok(())
}

/// Memory of any bytes, the count sometimes made to fit, the addresses too.
fn random_records(check: &mut Checker, random: &mut Random) -> Outcome {
    for _ in 0..20_000 {
        let length = random.below(200);
        let mut record = random.bytes(length);
        let count = length.saturating_sub(slot(0)) / SLOT + random.below(2);
        if length >= 2 && random.below(4) > 0 {
            record[..2].copy_from_slice(&(count as u16).to_be_bytes());
        }
        for place in 0..count {
            if slot(place) + 2 <= length && random.below(8) > 0 {
                let address = lamp(random);
                let address = random.pick(&[0x3FF, address, address]);
                put_address(&mut record, place, address);
            }
        }
        open(check, random, &record)?;
    }
    Ok(())
}

/// Records that were valid, after damage.
fn damaged_records(check: &mut Checker, random: &mut Random) -> Outcome {
    for round in 0..400 {
        let count = random.pick(&[1, 2, 9, 33]);
        let count = if round % 40 == 0 { MOST } else { count };
        let whole = numbered(check, random, count)?;
        for _ in 0..20 {
            let mut record = whole.clone();
            spoil(&mut record, random);
            open(check, random, &record)?;
        }
    }
    Ok(())
}

/// Lengths of memory, telegram and room that would look otherwise if they were
/// cut to one or two bytes.
fn long_lengths(check: &mut Checker, random: &mut Random) -> Outcome {
    for wrap in [256, 512, 65_536] {
        for (known, extra) in KNOWN.iter().flat_map(|known| [(known, 0), (known, wrap)]) {
            let mut record = numbered(check, random, 2)?;
            record.resize(random.pick(&[slot(2), wrap, wrap + 21, wrap + slot(2)]), 7);
            let payload = random.bytes(known.payload + extra);
            let address = somebody_or_everyone(&record, random);
            let bytes = telegram(address, index_of(known.payload), known.number, &payload);
            for room in [wrap, wrap + 11, wrap + 12] {
                check.compare_on(&mut record, &delivering(&bytes, room))?;
            }
        }
    }
    Ok(())
}

/// The address of the first lamp, or that of everyone.
fn somebody_or_everyone(record: &[u8], random: &mut Random) -> u32 {
    let at = slot(0);
    let first = u32::from(record[at]) << 8 | u32::from(record[at + 1]);
    random.pick(&[0, first])
}

/// Long sequences on one record.
fn sequences(check: &mut Checker, random: &mut Random) -> Outcome {
    for (count, times, deliveries) in SEQUENCES {
        for _ in 0..times {
            sequence(check, random, count, deliveries)?;
        }
    }
    Ok(())
}

/// Deliveries to one record, with sensor reports, readings, changes from
/// outside and damage in between.
fn sequence(check: &mut Checker, random: &mut Random, count: usize, deliveries: usize) -> Outcome {
    let mut record = made(check, random, count)?;
    for _ in 0..deliveries {
        let bytes = any_telegram(&record, random);
        check.compare_on(&mut record, &delivering(&bytes, answer_room(random)))?;
        match random.below(64) {
            0..=7 => {
                let place = any_place(&record, random);
                let case = sensing(place, random.byte(), any_faults(random));
                check.compare_on(&mut record, &case)?;
            }
            8..=11 => {
                let case = reading_out(any_place(&record, random), random.pick(&[18, 20, 17]));
                check.compare_on(&mut record, &case)?;
            }
            12 => disturb(&mut record, random),
            13 => {
                let mut spoilt = record.clone();
                spoil(&mut spoilt, random);
                open(check, random, &spoilt)?;
            }
            _ => {}
        }
    }
    Ok(())
}
