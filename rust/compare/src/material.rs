//! Good telegrams of every kind, and damage to them.
//!
//! - [`cases`]: cases of the functions that take and build them.

mod cases;

use crate::random::Random;
use reference::case::Call;
use reference::telegram::{checksum, LONGEST};

pub use cases::*;

/// A known command: its number, the bytes it carries and those of its answer.
#[derive(Clone, Copy)]
pub struct Known {
    pub number: u32,
    pub payload: usize,
    pub answer: Option<usize>,
}

/// Every known command.
pub const KNOWN: [Known; 26] = [
    known(0x00, 0, None),
    known(0x01, 0, None),
    known(0x02, 0, Some(2)),
    known(0x03, 0, Some(2)),
    known(0x04, 0, None),
    known(0x05, 0, None),
    known(0x06, 0, None),
    known(0x07, 0, Some(4)),
    known(0x0C, 0, Some(2)),
    known(0x0D, 2, None),
    known(0x24, 0, Some(2)),
    known(0x25, 0, Some(2)),
    known(0x26, 0, Some(2)),
    known(0x2D, 2, Some(2)),
    known(0x40, 0, Some(1)),
    known(0x42, 0, Some(2)),
    known(0x48, 0, Some(1)),
    known(0x4A, 0, Some(3)),
    known(0x4B, 3, None),
    known(0x4C, 0, Some(1)),
    known(0x4D, 1, None),
    known(0x4E, 0, Some(6)),
    known(0x4F, 6, None),
    known(0x6B, 3, Some(2)),
    known(0x6D, 1, Some(2)),
    known(0x6F, 6, Some(2)),
];

/// The bit of a number that makes a command an acknowledged one.
const STATUS_REQUEST: u32 = 0x20;

const fn known(number: u32, payload: usize, answer: Option<usize>) -> Known {
    Known {
        number,
        payload,
        answer,
    }
}

impl Known {
    /// Whether the command numbers the lamps.
    pub fn is_init(&self) -> bool {
        matches!(self.number, 2 | 3)
    }

    /// Whether this is the acknowledged form of a command.
    pub fn is_acknowledged(&self) -> bool {
        self.number & STATUS_REQUEST != 0
    }

    /// The number of the form that nobody acknowledges.
    pub fn plain(&self) -> u32 {
        self.number & !STATUS_REQUEST
    }

    /// The casts that the command has, and a value for each.
    pub fn casts(&self, random: &mut Random) -> Vec<(u32, u32)> {
        let mut casts = vec![(1, lamp(random))];
        if self.is_init() || self.answer.is_none() {
            casts.push((0, 0));
        }
        if self.answer.is_none() {
            casts.push((2, random.between(0, 14)));
        }
        casts
    }
}

/// Numbers of commands that are called by name.
pub const RESET: u32 = 0x00;
pub const CLRERROR: u32 = 0x01;
pub const INITBIDIR: u32 = 0x02;
pub const GOACTIVE: u32 = 0x05;
pub const SETMULT: u32 = 0x0D;
pub const GOACTIVE_SR: u32 = 0x25;
pub const SETMULT_SR: u32 = 0x2D;
pub const READSTATUS: u32 = 0x40;
pub const READTEMPST: u32 = 0x42;
pub const SETPWM: u32 = 0x4F;
pub const SETSETUP_SR: u32 = 0x6D;

/// The acknowledged commands.
pub fn acknowledged() -> impl Iterator<Item = Known> {
    KNOWN.into_iter().filter(Known::is_acknowledged)
}

/// The payload sizes that exist.
pub const SIZES: [usize; 7] = [0, 1, 2, 3, 4, 6, 8];

/// Addresses at the ends of each class.
pub const ADDRESSES: [u32; 8] = [0, 1, 2, 0x3EE, 0x3EF, 0x3F0, 0x3FE, 0x3FF];

/// Duties at and past the end, and those that would fit if they were cut.
pub const DUTIES: [u32; 14] = [
    0,
    1,
    255,
    256,
    0x7FFE,
    0x7FFF,
    0x8000,
    0x8001,
    0xFFFF,
    0x1_0000,
    0x1_7FFF,
    0x8000_0000,
    0xFFFF_7FFF,
    u32::MAX,
];

/// The functions that take a telegram.
pub const READERS: [Call; 3] = [Call::Read, Call::Dissect, Call::DissectAnswer];

/// The address of one lamp, the ends more often than the rest.
pub fn lamp(random: &mut Random) -> u32 {
    let any = random.between(1, 0x3EF);
    random.pick(&[1, 0x3EF, any, any, any, any])
}

/// An address of any class.
pub fn address(random: &mut Random) -> u32 {
    let any = random.between(0, 0x3FF);
    let edge = random.pick(&ADDRESSES);
    random.pick(&[any, edge])
}

/// Any cast and a value for it.
pub fn cast(random: &mut Random) -> (u32, u32) {
    let one = (1, lamp(random));
    let group = (2, random.between(0, 14));
    random.pick(&[(0, 0), one, group])
}

/// A duty that every rule accepts, the ends more often than the rest.
pub fn duty(random: &mut Random) -> u32 {
    let any = random.between(0, 0x7FFF);
    random.pick(&[0, 0x7FFF, any, any, any, any])
}

/// Three of them.
pub fn duties(random: &mut Random) -> [u32; 3] {
    [duty(random), duty(random), duty(random)]
}

/// The address of a cast.
pub fn destination(cast: u32, value: u32) -> u32 {
    match cast {
        2 => 0x3F0 + value,
        _ => value,
    }
}

/// A telegram of any fields, sealed with its checksum; the payload may have any
/// length, whatever the index says.
pub fn telegram(address: u32, index: u32, command: u32, payload: &[u8]) -> Vec<u8> {
    let mut bytes = vec![
        (160 + address / 64) as u8,
        (address % 64 * 4 + index / 2) as u8,
        (index % 2 * 128 + command) as u8,
    ];
    bytes.extend(payload);
    bytes.push(checksum(&bytes));
    bytes
}

/// The index of a payload size that exists.
pub fn index_of(size: usize) -> u32 {
    match size {
        8 => 7,
        same => same as u32,
    }
}

/// A telegram whose index fits the payload.
pub fn fitting(address: u32, command: u32, payload: &[u8]) -> Vec<u8> {
    telegram(address, index_of(payload.len()), command, payload)
}

/// A command that every rule accepts.
pub fn good_command(random: &mut Random) -> Vec<u8> {
    let known = random.pick(&KNOWN);
    let (cast, value) = {
        let casts = known.casts(random);
        random.pick(&casts)
    };
    let payload = random.bytes(known.payload);
    fitting(destination(cast, value), known.number, &payload)
}

/// An answer that every rule accepts.
pub fn good_answer(random: &mut Random) -> Vec<u8> {
    loop {
        let known = random.pick(&KNOWN);
        if let Some(size) = known.answer {
            let payload = random.bytes(size);
            let address = match known.number {
                2 | 3 if random.below(4) == 0 => 0,
                _ => lamp(random),
            };
            return fitting(address, known.number, &payload);
        }
    }
}

/// A telegram that the reader accepts, of any number and size.
pub fn good_raw(random: &mut Random) -> Vec<u8> {
    let size = random.pick(&SIZES);
    let payload = random.bytes(size);
    fitting(address(random), random.between(0, 127), &payload)
}

/// Any of the good ones.
pub fn good(random: &mut Random) -> Vec<u8> {
    match random.below(3) {
        0 => good_command(random),
        1 => good_answer(random),
        _ => good_raw(random),
    }
}

/// Flips a bit, drops a byte or adds one; a seal may then be put on again.
pub fn damage(bytes: &mut Vec<u8>, random: &mut Random) {
    if bytes.is_empty() {
        return bytes.push(random.byte());
    }
    let at = random.below(bytes.len());
    match random.below(3) {
        0 => bytes[at] ^= 1 << random.below(8),
        1 => drop(bytes.remove(at)),
        _ => bytes.insert(at + random.below(2), random.byte()),
    }
    if random.below(2) == 0 {
        seal(bytes);
    }
}

/// Makes the last byte the checksum of those before it.
pub fn seal(bytes: &mut [u8]) {
    if let Some((last, body)) = bytes.split_last_mut() {
        *last = checksum(body);
    }
}

/// Makes the last byte any other one.
pub fn unseal(bytes: &mut [u8], random: &mut Random) {
    if let Some(last) = bytes.last_mut() {
        *last ^= random.between(1, 255) as u8;
    }
}

/// A telegram whose only fault is its checksum.
pub fn unsealed(random: &mut Random) -> Vec<u8> {
    let mut bytes = good(random);
    unseal(&mut bytes, random);
    bytes
}

/// A room: often wide enough for all, else anything from 0 to 16.
pub fn room(random: &mut Random) -> usize {
    match random.below(2) {
        0 => LONGEST + 8,
        _ => random.below(17),
    }
}

/// The six bytes that three duties and their modes stand for.
pub fn words(modes: u32, [red, green, blue]: [u32; 3]) -> Vec<u8> {
    let word = |bit: u32, duty: u32| [(modes / bit % 2 * 128 + duty / 256) as u8, duty as u8];
    [word(4, red), word(2, green), word(1, blue)].concat()
}
