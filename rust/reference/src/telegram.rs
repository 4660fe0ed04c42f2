//! Raw telegrams: a 24-bit header, a payload and a checksum.

#[cfg(test)]
mod tests;

use crate::Refusal;

/// Header and checksum, without a payload.
pub const FRAME: usize = 4;
/// The longest telegram.
pub const LONGEST: usize = FRAME + 8;

const HEADER: usize = 3;
const PREAMBLE: u32 = 0b1010;
const POLYNOMIAL: u8 = 0x2F;

/// The remainder of the bytes over x^8 + x^5 + x^3 + x^2 + x + 1, high bit
/// first, started at 0, one bit at a time. The compiler knows plain loops of
/// this shape and makes a table of them.
pub fn checksum(bytes: &[u8]) -> u8 {
    let mut remainder = 0;
    for byte in bytes {
        remainder ^= byte;
        for _ in 0..8 {
            if remainder & 0x80 == 0 {
                remainder <<= 1;
            } else {
                remainder = (remainder << 1) ^ POLYNOMIAL;
            }
        }
    }
    remainder
}

/// Works the checksum out of all bytes but the last, which is the one received;
/// refuses with 5 where the two differ.
#[inline]
pub fn verify(bytes: &[u8]) -> Result<(), Refusal> {
    let Some((&received, body)) = bytes.split_last() else {
        return Ok(());
    };
    match checksum(body) {
        same if same == received => Ok(()),
        computed => Err(Refusal::Checksum { computed, received }),
    }
}

/// The payload bytes meant by a three-bit size index; 5 means nothing.
fn size_of_index(index: u32) -> Option<usize> {
    match index {
        5 => None,
        7 => Some(8),
        same => Some(same as usize),
    }
}

/// The size index of a payload length, for the lengths that have one.
fn index_of_size(size: usize) -> Option<u32> {
    match size {
        0..=4 | 6 => Some(size as u32),
        8 => Some(7),
        _ => None,
    }
}

/// A payload of exactly `N` bytes; refuses any other size with 8.
pub fn exact<const N: usize>(payload: &[u8]) -> Result<[u8; N], Refusal> {
    payload.try_into().map_err(|_| Refusal::PayloadSize)
}

/// Whether a telegram's first byte starts with the preamble.
pub fn has_preamble(first: u8) -> bool {
    u32::from(first >> 4) == PREAMBLE
}

/// The first three bytes of a telegram as 24 bits, whatever they are.
#[derive(Clone, Copy, Debug, PartialEq, Eq)]
pub struct Header(u32);

impl Header {
    /// The header at the front of some bytes, if there are three.
    pub fn of(bytes: &[u8]) -> Option<Header> {
        let [b0, b1, b2] = *bytes.first_chunk::<HEADER>()?;
        Some(Header(u32::from_be_bytes([0, b0, b1, b2])))
    }

    /// The ten-bit address.
    pub fn address(self) -> u16 {
        (self.0 >> 10 & 0x3FF) as u16
    }

    /// The three-bit size index.
    fn index(self) -> u32 {
        self.0 >> 7 & 0x7
    }

    /// The seven-bit command.
    pub fn command(self) -> u8 {
        (self.0 & 0x7F) as u8
    }

    /// The payload bytes that it announces; refuses size index 5 with 3.
    pub fn size(self) -> Result<usize, Refusal> {
        size_of_index(self.index()).ok_or(Refusal::SizeIndex)
    }
}

/// Up to eight bytes of payload, held by value.
#[derive(Clone, Copy, Debug, PartialEq, Eq)]
pub struct Payload {
    bytes: [u8; 8],
    size: usize,
}

impl Payload {
    /// Takes over bytes whose number is fixed by their type.
    pub fn of<const N: usize>(given: &[u8; N]) -> Payload {
        let mut bytes = [0; 8];
        bytes[..N].copy_from_slice(given);
        Payload { bytes, size: N }
    }

    /// The bytes held.
    pub fn bytes(&self) -> &[u8] {
        &self.bytes[..self.size]
    }
}

/// A telegram with its fields in range: ten bits of address, seven of command,
/// and a payload of a length that has a size index.
#[derive(Clone, Copy, Debug, PartialEq, Eq)]
pub struct Telegram<'a> {
    address: u16,
    index: u32,
    command: u8,
    payload: &'a [u8],
}

impl<'a> Telegram<'a> {
    /// Reads a telegram; refuses with 1 to 5, in this order.
    pub fn parse(bytes: &'a [u8]) -> Result<Self, Refusal> {
        if bytes.len() < FRAME {
            return Err(Refusal::TooShort);
        }
        let header = Header::of(bytes).ok_or(Refusal::TooShort)?;
        if !has_preamble(bytes[0]) {
            return Err(Refusal::Preamble);
        }
        let size = header.size()?;
        if bytes.len() != FRAME + size {
            return Err(Refusal::ByteCount);
        }
        verify(bytes)?;
        Ok(Telegram {
            address: header.address(),
            index: header.index(),
            command: header.command(),
            payload: &bytes[HEADER..HEADER + size],
        })
    }

    /// Puts a telegram together; refuses fields out of range with 10.
    pub fn new(address: u32, command: u32, payload: &'a [u8]) -> Result<Self, Refusal> {
        let index = index_of_size(payload.len()).ok_or(Refusal::Range)?;
        if address > 1023 || command > 127 {
            return Err(Refusal::Range);
        }
        Ok(Telegram {
            address: address as u16,
            index,
            command: command as u8,
            payload,
        })
    }

    /// Writes the bytes to the front of a room and gives their count; refuses
    /// a room that is too short with 9 and leaves it as it was.
    pub fn write(&self, room: &mut [u8]) -> Result<usize, Refusal> {
        let end = HEADER + self.payload.len();
        let out = room.get_mut(..=end).ok_or(Refusal::Room)?;
        let address = u32::from(self.address);
        let header = PREAMBLE << 20 | address << 10 | self.index << 7 | u32::from(self.command);
        out[..HEADER].copy_from_slice(&header.to_be_bytes()[1..]);
        out[HEADER..end].copy_from_slice(self.payload);
        out[end] = checksum(&out[..end]);
        Ok(out.len())
    }

    /// The ten-bit address.
    pub fn address(&self) -> u16 {
        self.address
    }

    /// The seven-bit command.
    pub fn command(&self) -> u8 {
        self.command
    }

    /// The payload, 0, 1, 2, 3, 4, 6 or 8 bytes.
    pub fn payload(&self) -> &'a [u8] {
        self.payload
    }
}
