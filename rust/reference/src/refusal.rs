//! The numbers given back, and what a refusal carries.

/// Why a call was refused, in the order of the paper's numbers.
#[derive(Clone, Copy, Debug, PartialEq, Eq)]
pub enum Refusal {
    /// Fewer than four bytes.
    TooShort,
    /// The first four bits are not 1010.
    Preamble,
    /// The size index is 5.
    SizeIndex,
    /// The byte count does not fit the size index.
    ByteCount,
    /// The last byte, the checksum received, is not the one worked out of the
    /// others.
    Checksum { computed: u8, received: u8 },
    /// The command is unknown, or is answered by nobody.
    Unknown,
    /// The command does not go to such a destination, or is an init at 000
    /// while a lamp has no address.
    Cast,
    /// The payload has the wrong size for the command.
    PayloadSize,
    /// The room is shorter than what would be written.
    Room,
    /// A builder's field, payload length or fault number is out of range.
    Range,
    /// The lamp count is out of range, or memory holds no valid chain, or a
    /// state that no reading of a capture leaves.
    Chain,
    /// An init would number lamps past 3EF.
    PastEnd,
    /// The chain has no lamp at that place.
    Place,
}

impl Refusal {
    /// The paper's number.
    pub fn number(self) -> u8 {
        match self {
            Refusal::TooShort => 1,
            Refusal::Preamble => 2,
            Refusal::SizeIndex => 3,
            Refusal::ByteCount => 4,
            Refusal::Checksum { .. } => 5,
            Refusal::Unknown => 6,
            Refusal::Cast => 7,
            Refusal::PayloadSize => 8,
            Refusal::Room => 9,
            Refusal::Range => 10,
            Refusal::Chain => 11,
            Refusal::PastEnd => 12,
            Refusal::Place => 13,
        }
    }

    /// What 5 carries, the checksum worked out and the one received; the others
    /// carry nothing.
    pub fn checksums(self) -> Option<[u8; 2]> {
        match self {
            Refusal::Checksum { computed, received } => Some([computed, received]),
            _ => None,
        }
    }
}
