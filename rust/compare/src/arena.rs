//! Memory for one call: the record, the input, the room and a reader's index,
//! guards around each.

use crate::random::Random;
use reference::case::{Case, Lent};
use reference::wire::Side;
use std::ops::Range;

/// The least number of guard bytes on a side.
const GUARD: usize = 16;

/// Guard, record, guard, input, guard, room, guard; guards and room are random.
#[derive(Clone)]
pub struct Arena {
    memory: Vec<u8>,
    record: Range<usize>,
    input: Range<usize>,
    room: Range<usize>,
    /// A reader's index between two guards.
    at: [usize; 3],
}

impl Arena {
    /// Lays out the memory of a case. The guards vary in length, so that the
    /// pieces do not always lie at even addresses.
    pub fn new(case: &Case, record: &[u8], random: &mut Random) -> Arena {
        let room = random.bytes(case.room);
        let mut memory = Vec::new();
        let mut lay = |piece: &[u8]| {
            let guard = GUARD + random.below(8);
            memory.extend(random.bytes(guard));
            memory.extend_from_slice(piece);
            memory.len() - piece.len()..memory.len()
        };
        let (record, input, room) = (lay(record), lay(&case.bytes), lay(&room));
        memory.extend(random.bytes(GUARD));
        let at = [random.bits() as usize, case.at(), random.bits() as usize];
        Arena {
            memory,
            record,
            input,
            room,
            at,
        }
    }

    /// Makes the call in this memory.
    pub fn run(&mut self, case: &Case, side: &Side) -> u64 {
        let (front, back) = self.memory.split_at_mut(self.room.start);
        let (chain, input) = front.split_at_mut(self.input.start);
        let lent = Lent {
            record: &mut chain[self.record.clone()],
            bytes: &input[..self.input.len()],
            at: &mut self.at[1],
            room: &mut back[..self.room.len()],
        };
        case.run(side, lent)
    }

    /// The record.
    pub fn record(&self) -> &[u8] {
        &self.memory[self.record.clone()]
    }

    /// The room.
    pub fn room(&self) -> &[u8] {
        &self.memory[self.room.clone()]
    }

    /// The index between its guards.
    pub fn index(&self) -> [usize; 3] {
        self.at
    }

    /// The first place, if any, that differs from another arena of the same
    /// layout, some bytes of the record and the first `written` bytes of the
    /// room left out.
    pub fn change(&self, other: &Arena, touched: Range<usize>, written: usize) -> Option<usize> {
        let inside = |at: usize| at.min(self.record.len()) + self.record.start;
        let behind = self.room.start + written.min(self.room.len());
        let kept = [
            0..inside(touched.start),
            inside(touched.end)..self.room.start,
            behind..self.memory.len(),
        ];
        let mut changed = kept.into_iter().filter_map(|range| {
            let (old, new) = (&self.memory[range.clone()], &other.memory[range.clone()]);
            first_difference(old, new).map(|at| range.start + at)
        });
        changed.next()
    }

    /// What lies at an index.
    pub fn place(&self, at: usize) -> String {
        let pieces = [
            ("record", &self.record),
            ("input", &self.input),
            ("room", &self.room),
        ];
        for (name, piece) in pieces {
            if at < piece.start {
                return format!("guard {} bytes before the {name}", piece.start - at);
            }
            if piece.contains(&at) {
                return format!("{name} byte {}", at - piece.start);
            }
        }
        format!("guard {} bytes behind the room", at - self.room.end + 1)
    }

    /// Which byte of the record an index is, if it is one.
    pub fn record_byte(&self, at: usize) -> Option<usize> {
        self.record.contains(&at).then(|| at - self.record.start)
    }
}

/// The first index at which two pieces of the same length differ.
fn first_difference(old: &[u8], new: &[u8]) -> Option<usize> {
    if old == new {
        return None;
    }
    old.iter().zip(new).position(|(old, new)| old != new)
}
