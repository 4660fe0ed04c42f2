//! One call with its inputs.

use crate::wire::Side;

/// Which function, with its plain numbers.
#[derive(Clone, Copy, Debug, PartialEq, Eq)]
pub enum Call {
    Checksum,
    Read,
    Dissect,
    DissectAnswer,
    Build {
        address: u32,
        command: u32,
    },
    BuildCommand {
        command: u32,
        cast: u32,
        value: u32,
    },
    BuildPwm {
        cast: u32,
        value: u32,
        modes: u32,
        duties: [u32; 3],
    },
    RecordLen {
        count: u32,
    },
    Make {
        count: u32,
        setup: u8,
        thresholds: [u8; 3],
    },
    Deliver,
    Sense {
        place: u32,
        temperature: u8,
        faults: u32,
    },
    Lamp {
        place: u32,
    },
    /// The next telegram of a chunk, from an index on.
    Next {
        at: usize,
    },
    End,
    Position,
}

impl Call {
    /// Whether the result is a plain value, without number and count.
    pub fn is_plain(&self) -> bool {
        matches!(
            self,
            Call::Checksum | Call::RecordLen { .. } | Call::Position
        )
    }
}

/// A call, the bytes given to it, and the size of its room.
#[derive(Clone, Debug, PartialEq, Eq)]
pub struct Case {
    pub call: Call,
    pub bytes: Vec<u8>,
    pub room: usize,
}

/// The memory that is lent to a call. A call touches only what it has.
pub struct Lent<'a> {
    /// The record of a chain, or the state of a reader.
    pub record: &'a mut [u8],
    pub bytes: &'a [u8],
    /// Where a reader stands in its chunk.
    pub at: &'a mut usize,
    pub room: &'a mut [u8],
}

impl Case {
    /// Where a reader stands in its chunk before the call; 0 for other calls.
    pub fn at(&self) -> usize {
        match self.call {
            Call::Next { at } => at,
            _ => 0,
        }
    }

    /// Makes the call on one side.
    pub fn run(&self, side: &Side, lent: Lent) -> u64 {
        u64::from(match self.call {
            Call::Checksum => u32::from((side.checksum)(lent.bytes)),
            Call::Read => (side.read)(lent.bytes, lent.room),
            Call::Dissect => (side.dissect)(lent.bytes, lent.room),
            Call::DissectAnswer => (side.dissect_answer)(lent.bytes, lent.room),
            Call::Build { address, command } => {
                (side.build)(address, command, lent.bytes, lent.room)
            }
            Call::BuildCommand {
                command,
                cast,
                value,
            } => (side.build_command)(command, cast, value, lent.bytes, lent.room),
            Call::BuildPwm {
                cast,
                value,
                modes,
                duties: [red, green, blue],
            } => (side.build_pwm)(cast, value, modes, red, green, blue, lent.room),
            Call::RecordLen { count } => (side.record_len)(count),
            Call::Make {
                count,
                setup,
                thresholds: [t0, t1, t2],
            } => (side.make)(lent.record, count, setup, t0, t1, t2),
            Call::Deliver => (side.deliver)(lent.record, lent.bytes, lent.room),
            Call::Sense {
                place,
                temperature,
                faults,
            } => (side.sense)(lent.record, place, temperature, faults),
            Call::Lamp { place } => (side.lamp)(lent.record, place, lent.room),
            Call::Next { .. } => (side.reader_next)(lent.record, lent.bytes, lent.at, lent.room),
            Call::End => (side.reader_end)(lent.record),
            Call::Position => return (side.reader_position)(lent.record),
        })
    }
}
