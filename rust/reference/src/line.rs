//! The lines of the cases file.
//!
//! A line is a letter and then bytes in hex: the room's size for the calls that
//! have a room, the plain numbers, and the input.

#[cfg(test)]
mod tests;

use crate::case::{Call, Case, Lent};
use crate::telegram::checksum;
use crate::wire::{checksums, count, number, Side};

/// What a room holds before a call, and the chain memory before a chain is
/// made.
const FILL: u8 = 0x5A;
/// The most bytes in a line.
const LONGEST_LINE: usize = 40;
/// The largest room in the file.
const LARGEST_ROOM: usize = 32;
/// The size of the chain memory.
const MEMORY: usize = 16_384;

/// The chain memory, which the lines of a file share. Its first bytes are lent
/// to the calls, as a record or as the state of a reader.
pub struct Memory {
    bytes: Vec<u8>,
    length: usize,
}

impl Default for Memory {
    fn default() -> Memory {
        Memory {
            bytes: vec![FILL; MEMORY],
            length: 0,
        }
    }
}

impl Memory {
    /// The bytes that are lent.
    pub fn lent(&mut self) -> &mut [u8] {
        &mut self.bytes[..self.length]
    }

    /// Fills all of the memory and lends so many bytes from now on.
    fn lend(&mut self, length: usize) {
        self.bytes.fill(FILL);
        self.length = length;
    }

    /// Overwrites lent bytes; what does not fit is left out.
    fn overwrite(&mut self, at: usize, bytes: &[u8]) {
        let behind = self.lent().iter_mut().skip(at);
        behind.zip(bytes).for_each(|(old, new)| *old = *new);
    }
}

/// A line that is neither a comment nor empty.
#[derive(Clone, Debug, PartialEq, Eq)]
pub enum Line {
    Call(Case),
    /// Lends memory of a length and makes a chain there.
    Make {
        length: usize,
        case: Case,
    },
    /// Overwrites bytes of the chain memory.
    Write {
        at: usize,
        bytes: Vec<u8>,
    },
    /// Lends memory with these bytes, the state of a reader.
    Lend {
        bytes: Vec<u8>,
    },
}

impl Line {
    /// Reads a line; nothing for a comment or an empty line.
    pub fn parse(line: &str) -> Result<Option<Line>, String> {
        let Some(letter) = line.chars().next().filter(|&letter| letter != '#') else {
            return Ok(None);
        };
        let rest = &line[letter.len_utf8()..];
        read_line(letter, rest)
            .map(Some)
            .ok_or_else(|| format!("not a case: {line}"))
    }

    /// Does what the line does to the chain memory by itself; gives the call
    /// that is then to be made, if there is one.
    pub fn prepare(&self, memory: &mut Memory) -> Option<&Case> {
        match self {
            Line::Call(case) => Some(case),
            Line::Make { length, case } => {
                memory.lend(*length);
                Some(case)
            }
            Line::Write { at, bytes } => {
                memory.overwrite(*at, bytes);
                None
            }
            Line::Lend { bytes } => {
                memory.lend(bytes.len());
                memory.overwrite(0, bytes);
                None
            }
        }
    }

    /// The lines that are printed behind this one.
    pub fn report(&self, side: &Side, memory: &mut Memory) -> String {
        let case = self.prepare(memory);
        let mut text = case.map_or(String::new(), |case| report(case, side, memory.lent()));
        if self.changes_memory() {
            text += &format!("  record {:02X}\n", checksum(memory.lent()));
        }
        text
    }

    /// Whether the line may change the chain memory.
    fn changes_memory(&self) -> bool {
        match self {
            Line::Make { .. } | Line::Write { .. } | Line::Lend { .. } => true,
            Line::Call(case) => matches!(
                case.call,
                Call::Deliver | Call::Sense { .. } | Call::Next { .. } | Call::End
            ),
        }
    }
}

/// The result of a call as it is printed.
fn report(case: &Case, side: &Side, record: &mut [u8]) -> String {
    let (mut room, mut at) = (vec![FILL; case.room], case.at());
    let lent = Lent {
        record,
        bytes: &case.bytes,
        at: &mut at,
        room: &mut room,
    };
    let result = case.run(side, lent);
    match case.call {
        Call::Checksum => return format!("  {result:02X}\n"),
        Call::RecordLen { .. } => return format!("  {result:08X}\n"),
        Call::Position => return format!("  {result:016X}\n"),
        _ => {}
    }
    let mut text = said(result as u32, &room);
    if matches!(case.call, Call::Next { .. }) {
        text += &format!("  at {at:08X}\n");
    }
    text
}

/// What a returned value says: the number, and behind 0 the bytes that were written,
/// behind 5 the two checksums. A room that changed otherwise is told.
fn said(value: u32, room: &[u8]) -> String {
    let (number, count) = (number(value), count(value));
    let mut text = format!("  {number}");
    if number == 0 {
        text += &format!(" {count}");
    }
    let written = room.iter().take(count);
    for byte in written.chain(checksums(value).iter().flatten()) {
        text += &format!(" {byte:02X}");
    }
    text.push('\n');
    if room.iter().skip(count).any(|&byte| byte != FILL) {
        text += "  room changed\n";
    }
    text
}

/// Reads what stands behind the letter.
fn read_line(letter: char, rest: &str) -> Option<Line> {
    let bytes = read_bytes(rest).filter(|bytes| bytes.len() <= LONGEST_LINE)?;
    let left = &mut bytes.as_slice();
    match letter {
        'm' => {
            let length = take_number(left)? as usize;
            let case = read_case(letter, left)?;
            (length <= MEMORY).then_some(Line::Make { length, case })
        }
        'w' => Some(Line::Write {
            at: take_number(left)? as usize,
            bytes: left.to_vec(),
        }),
        'o' => Some(Line::Lend { bytes }),
        _ => read_case(letter, left).map(Line::Call),
    }
}

/// Reads a call: its room, its numbers and its input, as far as it has them.
fn read_case(letter: char, left: &mut &[u8]) -> Option<Case> {
    let room = match letter {
        's' | 'k' | 'm' | 'n' | 'e' | 'q' => 0,
        _ => usize::from(take_byte(left)?),
    };
    let call = match letter {
        'k' | 'm' | 't' | 'n' | 'l' => read_chain_call(letter, left)?,
        'g' | 'e' | 'q' => read_reader_call(letter, left)?,
        _ => read_call(letter, left)?,
    };
    let has_input = matches!(letter, 's' | 'r' | 'd' | 'a' | 'b' | 'c' | 't' | 'g');
    let fits = room <= LARGEST_ROOM && (has_input || left.is_empty());
    fits.then(|| Case {
        call,
        bytes: left.to_vec(),
        room,
    })
}

/// Reads the numbers of a call that has nothing to do with a chain.
fn read_call(letter: char, left: &mut &[u8]) -> Option<Call> {
    Some(match letter {
        's' => Call::Checksum,
        'r' => Call::Read,
        'd' => Call::Dissect,
        'a' => Call::DissectAnswer,
        'b' => Call::Build {
            address: take_number(left)?,
            command: take_number(left)?,
        },
        'c' => Call::BuildCommand {
            command: take_number(left)?,
            cast: take_number(left)?,
            value: take_number(left)?,
        },
        'p' => Call::BuildPwm {
            cast: take_number(left)?,
            value: take_number(left)?,
            modes: take_number(left)?,
            duties: [take_number(left)?, take_number(left)?, take_number(left)?],
        },
        _ => return None,
    })
}

/// Reads the numbers of a call on a chain.
fn read_chain_call(letter: char, left: &mut &[u8]) -> Option<Call> {
    Some(match letter {
        'k' => Call::RecordLen {
            count: take_number(left)?,
        },
        'm' => Call::Make {
            count: take_number(left)?,
            setup: take_byte(left)?,
            thresholds: take(left)?,
        },
        't' => Call::Deliver,
        'n' => Call::Sense {
            place: take_number(left)?,
            temperature: take_byte(left)?,
            faults: take_number(left)?,
        },
        'l' => Call::Lamp {
            place: take_number(left)?,
        },
        _ => return None,
    })
}

/// Reads the numbers of a call on the reader of a capture.
fn read_reader_call(letter: char, left: &mut &[u8]) -> Option<Call> {
    Some(match letter {
        'g' => Call::Next {
            at: take_number(left)? as usize,
        },
        'e' => Call::End,
        'q' => Call::Position,
        _ => return None,
    })
}

/// Bytes as pairs of capital hex digits, at most one space before each.
fn read_bytes(text: &str) -> Option<Vec<u8>> {
    let mut left = text.as_bytes();
    let mut bytes = Vec::new();
    while !left.is_empty() {
        left = left.strip_prefix(b" ").unwrap_or(left);
        let [high, low] = take::<2>(&mut left)?;
        bytes.push(digit(high)? << 4 | digit(low)?);
    }
    Some(bytes)
}

/// The value of a capital hex digit.
fn digit(letter: u8) -> Option<u8> {
    match letter {
        b'0'..=b'9' => Some(letter - b'0'),
        b'A'..=b'F' => Some(letter - b'A' + 10),
        _ => None,
    }
}

/// Takes bytes off the front.
fn take<const N: usize>(left: &mut &[u8]) -> Option<[u8; N]> {
    let (front, rest) = left.split_first_chunk::<N>()?;
    *left = rest;
    Some(*front)
}

/// Takes a byte off the front.
fn take_byte(left: &mut &[u8]) -> Option<u8> {
    take(left).map(|[byte]| byte)
}

/// Takes a number of four bytes off the front, high byte first.
fn take_number(left: &mut &[u8]) -> Option<u32> {
    take(left).map(u32::from_be_bytes)
}
