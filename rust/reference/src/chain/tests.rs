//! The rules of the chain, each on a small record.
//!
//! - [`record`]: the record as a whole.
//! - [`init`]: the two inits.
//! - [`acknowledged`]: the acknowledged commands.
//! - [`delivery`]: the other deliveries.

mod acknowledged;
mod delivery;
mod init;
mod record;

use crate::telegram::Telegram;
use crate::wire::{count, deliver, make, number, packed, record_len};
use crate::Refusal;

const FILL: u8 = 0x5A;
const DEFAULTS: [u8; 4] = [0x81, 0x11, 0x22, 0x33];

/// Where the fields of the lamp at a place begin.
fn slot(place: usize) -> usize {
    6 + 16 * place
}

/// A telegram of these fields.
fn telegram(address: u32, command: u32, payload: &[u8]) -> Vec<u8> {
    let mut room = [0; 12];
    let telegram = Telegram::new(address, command, payload).unwrap();
    let size = telegram.write(&mut room).unwrap();
    room[..size].to_vec()
}

/// A chain of fresh lamps, with three bytes behind it that belong to nobody.
fn made(count: u32) -> Vec<u8> {
    let mut record = vec![FILL; record_len(count) as usize + 3];
    let [setup, t0, t1, t2] = DEFAULTS;
    assert_eq!(make(&mut record, count, setup, t0, t1, t2), 0);
    record
}

/// The answer to a telegram, or the value with the refusal. What must stay is
/// checked.
fn give(record: &mut [u8], bytes: &[u8]) -> Result<Vec<u8>, u32> {
    let before = record.to_vec();
    let mut room = [FILL; 14];
    let value = deliver(record, bytes, &mut room);
    let (number, count) = (number(value), count(value));
    assert!(room[count..].iter().all(|&byte| byte == FILL));
    if number != 0 {
        let kept = number != 5;
        assert_eq!(record == before, kept || before[slot(0) + 2] & 8 != 0);
        return Err(value);
    }
    Ok(room[..count].to_vec())
}

/// The answer to a command.
fn order(record: &mut [u8], address: u32, command: u32, payload: &[u8]) -> Result<Vec<u8>, u32> {
    give(record, &telegram(address, command, payload))
}

/// A chain numbered from 1 by INITBIDIR.
fn numbered(count: u32) -> Vec<u8> {
    let mut record = made(count);
    order(&mut record, 1, 0x02, &[]).unwrap();
    record
}

/// No answer.
const SILENT: Result<Vec<u8>, u32> = Ok(Vec::new());

/// An answer with these bytes.
fn answer(address: u32, command: u32, bytes: &[u8]) -> Result<Vec<u8>, u32> {
    Ok(telegram(address, command, bytes))
}

/// The status byte at a place.
fn status(record: &[u8], place: usize) -> u8 {
    record[slot(place) + 2]
}

/// A lamp's bytes, by place.
fn bytes(record: &[u8], place: usize) -> [u8; 16] {
    record[slot(place)..slot(place + 1)].try_into().unwrap()
}

/// A lamp with every field set.
fn full(state: u8) -> Vec<u8> {
    let mut record = numbered(1);
    let lamp = [
        0,
        1,
        state << 6 | 0x2F,
        0x6B,
        0x41,
        0x42,
        0x43,
        0x44,
        0x80,
        0x01,
        0x51,
        0x52,
        0x53,
        0x54,
        0x55,
        0x56,
    ];
    record[slot(0)..slot(1)].copy_from_slice(&lamp);
    record
}
