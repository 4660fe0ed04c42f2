//! The C interface on slices. Each function but the checksum, the length of a
//! record and the position of a reader gives back the paper's number in the lowest
//! byte, and above it what [`packed`] puts there.

#[cfg(test)]
mod tests;

use crate::answer::Reply;
use crate::capture::reader;
use crate::chain::{self, Defaults, Place};
use crate::command::{Cast, Command, Group, Lamp, Name, Order, Pwm};
use crate::telegram::{self, Telegram};
use crate::Refusal;

/// One implementation of the interface.
pub struct Side {
    pub name: &'static str,
    pub checksum: fn(&[u8]) -> u8,
    pub read: fn(&[u8], &mut [u8]) -> u32,
    pub build: fn(u32, u32, &[u8], &mut [u8]) -> u32,
    pub dissect: fn(&[u8], &mut [u8]) -> u32,
    pub dissect_answer: fn(&[u8], &mut [u8]) -> u32,
    pub build_command: fn(u32, u32, u32, &[u8], &mut [u8]) -> u32,
    pub build_pwm: fn(u32, u32, u32, u32, u32, u32, &mut [u8]) -> u32,
    pub record_len: fn(u32) -> u32,
    pub make: fn(&mut [u8], u32, u8, u8, u8, u8) -> u32,
    pub deliver: fn(&mut [u8], &[u8], &mut [u8]) -> u32,
    pub sense: fn(&mut [u8], u32, u8, u32) -> u32,
    pub lamp: fn(&[u8], u32, &mut [u8]) -> u32,
    pub reader_next: fn(&mut [u8], &[u8], &mut usize, &mut [u8]) -> u32,
    pub reader_end: fn(&mut [u8]) -> u32,
    pub reader_position: fn(&[u8]) -> u64,
}

/// The implementation in this package.
pub static REFERENCE: Side = Side {
    name: "reference",
    checksum,
    read,
    build,
    dissect,
    dissect_answer,
    build_command,
    build_pwm,
    record_len,
    make,
    deliver,
    sense,
    lamp,
    reader_next,
    reader_end,
    reader_position,
};

/// The checksum of all the bytes.
#[inline(never)]
pub fn checksum(bytes: &[u8]) -> u8 {
    telegram::checksum(bytes)
}

/// Reads a telegram: 1 to 5, then 9.
#[inline(never)]
pub fn read(bytes: &[u8], room: &mut [u8]) -> u32 {
    packed(read_into(bytes, room))
}

/// Builds a telegram: 10, then 9.
#[inline(never)]
pub fn build(address: u32, command: u32, payload: &[u8], room: &mut [u8]) -> u32 {
    packed(Telegram::new(address, command, payload).and_then(|telegram| telegram.write(room)))
}

/// Names the command in a telegram: 1 to 8, then 9.
#[inline(never)]
pub fn dissect(bytes: &[u8], room: &mut [u8]) -> u32 {
    packed(dissect_into(bytes, room))
}

/// Names the answer in a telegram: 1 to 8, then 9.
#[inline(never)]
pub fn dissect_answer(bytes: &[u8], room: &mut [u8]) -> u32 {
    packed(dissect_answer_into(bytes, room))
}

/// Builds a command: 6, 8, 10, 7, then 9.
#[inline(never)]
pub fn build_command(command: u32, cast: u32, value: u32, payload: &[u8], room: &mut [u8]) -> u32 {
    packed(build_command_into(command, cast, value, payload, room))
}

/// Builds SETPWM from its fields: 10, then 9.
#[inline(never)]
pub fn build_pwm(
    cast: u32,
    value: u32,
    modes: u32,
    red: u32,
    green: u32,
    blue: u32,
    room: &mut [u8],
) -> u32 {
    packed(build_pwm_into(cast, value, modes, [red, green, blue], room))
}

/// The length of the record of so many lamps, or 0.
#[inline(never)]
pub fn record_len(count: u32) -> u32 {
    chain::length(count as usize).map_or(0, |length| length as u32)
}

/// Makes a chain: 11, then 9.
#[inline(never)]
pub fn make(record: &mut [u8], count: u32, setup: u8, t0: u8, t1: u8, t2: u8) -> u32 {
    let thresholds = [t0, t1, t2];
    let defaults = Defaults { setup, thresholds };
    packed(chain::make(record, count as usize, defaults).map(|()| 0))
}

/// Delivers a telegram: 9, 11, 1 to 8, then 12.
#[inline(never)]
pub fn deliver(record: &mut [u8], bytes: &[u8], room: &mut [u8]) -> u32 {
    packed(chain::deliver(record, bytes, room))
}

/// Reports from the sensors of a lamp: 11, 13, then 10.
#[inline(never)]
pub fn sense(record: &mut [u8], place: u32, temperature: u8, faults: u32) -> u32 {
    packed(chain::sense(record, Place(place), temperature, faults).map(|()| 0))
}

/// Reads out a lamp: 11, 13, then 9.
#[inline(never)]
pub fn lamp(record: &[u8], place: u32, room: &mut [u8]) -> u32 {
    packed(chain::read_out(record, Place(place), room))
}

/// Reads the next telegram of a chunk: 11, then 2, 3 or 5, then 9.
#[inline(never)]
pub fn reader_next(state: &mut [u8], chunk: &[u8], at: &mut usize, room: &mut [u8]) -> u32 {
    packed(reader::next(state, chunk, at, room))
}

/// Ends the run of a reader: 11, then 1 or 4, or what stopped it before.
#[inline(never)]
pub fn reader_end(state: &mut [u8]) -> u32 {
    packed(reader::end(state))
}

/// The position of a reader.
#[inline(never)]
pub fn reader_position(state: &[u8]) -> u64 {
    reader::position(state)
}

/// Writes address, command, payload size and payload.
fn read_into(bytes: &[u8], room: &mut [u8]) -> Result<usize, Refusal> {
    let telegram = Telegram::parse(bytes)?;
    let [high, low] = telegram.address().to_be_bytes();
    let payload = telegram.payload();
    let head = [high, low, telegram.command(), payload.len() as u8];
    put(room, &head, payload)
}

/// Writes command, cast, address or group, payload size and payload, the last
/// made again from the fields that were named.
fn dissect_into(bytes: &[u8], room: &mut [u8]) -> Result<usize, Refusal> {
    let order = Order::of_telegram(&Telegram::parse(bytes)?)?;
    let (cast, value) = match order.cast() {
        Cast::Everyone => (0, 0),
        Cast::One(lamp) => (1, lamp.address()),
        Cast::Members(group) => (2, u16::from(group.number())),
    };
    let [high, low] = value.to_be_bytes();
    let number = order.command().name().number();
    let payload = order.command().payload();
    let size = payload.bytes().len() as u8;
    put(room, &[number, cast, high, low, size], payload.bytes())
}

/// Writes command, address, answer size and answer, the last made again from
/// the values that were named.
fn dissect_answer_into(bytes: &[u8], room: &mut [u8]) -> Result<usize, Refusal> {
    let reply = Reply::of_telegram(&Telegram::parse(bytes)?)?;
    let [high, low] = reply.address().to_be_bytes();
    let number = reply.answer().name().number();
    let payload = reply.answer().payload();
    let size = payload.bytes().len() as u8;
    put(room, &[number, high, low, size], payload.bytes())
}

/// Writes the command of plain numbers.
fn build_command_into(
    command: u32,
    cast: u32,
    value: u32,
    payload: &[u8],
    room: &mut [u8],
) -> Result<usize, Refusal> {
    let name = Name::of_number(command).ok_or(Refusal::Unknown)?;
    let command = Command::of_payload(name, payload)?;
    let cast = cast_of(cast, value).ok_or(Refusal::Range)?;
    Order::new(command, cast)?.write(room)
}

/// Writes SETPWM, which has all three casts.
fn build_pwm_into(
    cast: u32,
    value: u32,
    modes: u32,
    duties: [u32; 3],
    room: &mut [u8],
) -> Result<usize, Refusal> {
    let payload = Pwm::new(modes, duties)?.bytes();
    let cast = cast_of(cast, value).ok_or(Refusal::Range)?;
    let number = u32::from(Name::SetPwm.number());
    Telegram::new(cast.address(), number, &payload)?.write(room)
}

/// The cast meant by two plain numbers, if they are in range.
fn cast_of(cast: u32, value: u32) -> Option<Cast> {
    match cast {
        0 => (value == 0).then_some(Cast::Everyone),
        1 => Lamp::new(value).map(Cast::One),
        2 => Group::new(value).map(Cast::Members),
        _ => None,
    }
}

/// Writes two pieces to the front of a room and gives their count; refuses a
/// room that is too short with 9 and leaves it as it was.
fn put(room: &mut [u8], head: &[u8], body: &[u8]) -> Result<usize, Refusal> {
    let count = head.len() + body.len();
    let out = room.get_mut(..count).ok_or(Refusal::Room)?;
    let (front, back) = out.split_at_mut(head.len());
    front.copy_from_slice(head);
    back.copy_from_slice(body);
    Ok(count)
}

/// A returned value: above number 0 the count of bytes written to the front of the
/// room, above 5 the checksum worked out and then the one received, else nothing.
pub fn packed(result: Result<usize, Refusal>) -> u32 {
    match result {
        Ok(count) => 256 * count as u32,
        Err(refusal) => {
            let [computed, received] = refusal.checksums().unwrap_or_default();
            u32::from_le_bytes([refusal.number(), computed, received, 0])
        }
    }
}

/// The number in a returned value.
pub fn number(value: u32) -> u32 {
    value % 256
}

/// How many bytes were written by a call that returned this; none if it refused.
pub fn count(value: u32) -> usize {
    match number(value) {
        0 => (value / 256) as usize,
        _ => 0,
    }
}

/// The checksum worked out and the one received, where the number is 5.
pub fn checksums(value: u32) -> Option<[u8; 2]> {
    let [number, computed, received, _] = value.to_le_bytes();
    (number == 5).then_some([computed, received])
}
