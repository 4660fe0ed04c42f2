//! One call on both sides, and its comparison.
//!
//! - [`told`]: the text of a difference.
//! - [`wrong`]: the refusals with 5 that were compared.

mod told;
mod wrong;

use crate::arena::Arena;
use crate::chains::{lamps, slot};
use crate::library::LIBRARY;
use crate::random::Random;
use reference::capture::reader;
use reference::case::{Call, Case};
use reference::wire::{count, number, REFERENCE};
use std::ops::Range;
use told::{describe, describe_records, shown};
use wrong::Wrong;

pub use told::{hex, input, value_text};

/// The functions in the order in which they are counted.
pub const FUNCTIONS: [&str; 15] = [
    "osp_checksum",
    "osp_read",
    "osp_build",
    "osp_dissect",
    "osp_dissect_answer",
    "osp_build_command",
    "osp_build_pwm",
    "osp_record_len",
    "osp_make",
    "osp_deliver",
    "osp_sense",
    "osp_lamp",
    "osp_reader_next",
    "osp_reader_end",
    "osp_reader_position",
];

/// The place of a call's function among the counted ones.
fn function(call: &Call) -> usize {
    match call {
        Call::Checksum => 0,
        Call::Read => 1,
        Call::Build { .. } => 2,
        Call::Dissect => 3,
        Call::DissectAnswer => 4,
        Call::BuildCommand { .. } => 5,
        Call::BuildPwm { .. } => 6,
        Call::RecordLen { .. } => 7,
        Call::Make { .. } => 8,
        Call::Deliver => 9,
        Call::Sense { .. } => 10,
        Call::Lamp { .. } => 11,
        Call::Next { .. } => 12,
        Call::End => 13,
        Call::Position => 14,
    }
}

/// What both sides agreed on.
pub struct Agreed {
    /// The result as it was given back, and the number in it.
    pub result: u64,
    pub number: u32,
    pub written: Vec<u8>,
    /// Where a reader stands in its chunk.
    pub at: usize,
}

/// Compares calls and counts them.
pub struct Checker {
    guards: Random,
    counts: [u64; FUNCTIONS.len()],
    round_trips: u64,
    captures: u64,
    acknowledged: u64,
    wrong: Wrong,
}

impl Checker {
    /// Starts with nothing counted; the seed is that of the guard bytes.
    pub fn new(seed: u64) -> Checker {
        Checker {
            guards: Random::new(!seed),
            counts: [0; FUNCTIONS.len()],
            round_trips: 0,
            captures: 0,
            acknowledged: 0,
            wrong: Wrong::default(),
        }
    }

    /// Compares one call that has no record.
    pub fn compare(&mut self, case: &Case) -> Result<Agreed, String> {
        self.compare_on(&mut [], case)
    }

    /// Compares one call on a record, which is left as both sides left it: the
    /// whole value given back and every byte of the memory. Gives what was agreed
    /// on, or the text of the difference.
    pub fn compare_on(&mut self, record: &mut [u8], case: &Case) -> Result<Agreed, String> {
        let before = Arena::new(case, record, &mut self.guards);
        let (mut ours, mut theirs) = (before.clone(), before.clone());
        let wanted = ours.run(case, &REFERENCE);
        let given = theirs.run(case, &LIBRARY);
        self.counts[function(&case.call)] += 1;
        let (fault, at) = if given != wanted {
            ("result differs".to_string(), None)
        } else if let Some(at) =
            before.change(&theirs, touched(case, given, record), written(case, given))
        {
            (format!("{} was changed", before.place(at)), Some(at))
        } else if let Some(at) = ours.change(&theirs, 0..0, 0) {
            (format!("{} differs", before.place(at)), Some(at))
        } else if ours.index() != theirs.index() {
            let (is, should) = (theirs.index(), ours.index());
            let fault = format!("the index between its guards is {is:X?}, should be {should:X?}");
            (fault, None)
        } else {
            self.wrong.count(case, record, given as u32);
            record.copy_from_slice(theirs.record());
            return Ok(agreed(case, given, &theirs));
        };
        let head = describe(case, &fault, (given, &theirs), (wanted, &ours));
        let shown = shown(record, at.and_then(|at| before.record_byte(at)));
        Err(head + &describe_records(&shown, &before, &theirs, &ours))
    }

    /// Compares a call and demands that it succeeds; gives the bytes written.
    pub fn succeed(&mut self, case: &Case) -> Result<Vec<u8>, String> {
        let agreed = self.compare(case)?;
        if agreed.number == 0 {
            Ok(agreed.written)
        } else {
            Err(format!("both refused, {}: {}", agreed.number, input(case)))
        }
    }

    /// Compares a call that goes back and demands that it gives these bytes.
    pub fn come_back(&mut self, case: &Case, wanted: &[u8]) -> Result<(), String> {
        let written = self.succeed(case)?;
        if written != wanted {
            let (wanted, written) = (hex(wanted), hex(&written));
            return Err(format!(
                "round trip: {}\n  wanted  {wanted}\n  written {written}",
                input(case)
            ));
        }
        self.round_trips += 1;
        Ok(())
    }

    /// Counts a capture that was read in chunks.
    pub fn capture_read(&mut self) {
        self.captures += 1;
    }

    /// Counts an acknowledged command that was held against its plain form.
    pub fn command_acknowledged(&mut self) {
        self.acknowledged += 1;
    }

    /// The calls compared so far.
    pub fn total(&self) -> u64 {
        self.counts.iter().sum()
    }

    /// The deliveries among them.
    pub fn deliveries(&self) -> u64 {
        self.counts[function(&Call::Deliver)]
    }

    /// The calls compared for each function.
    pub fn counts(&self) -> impl Iterator<Item = (&'static str, u64)> + '_ {
        FUNCTIONS.into_iter().zip(self.counts)
    }

    /// The round trips that came back.
    pub fn round_trips(&self) -> u64 {
        self.round_trips
    }

    /// The captures that were read in chunks.
    pub fn captures(&self) -> u64 {
        self.captures
    }

    /// The acknowledged commands that were held against their plain forms.
    pub fn acknowledged(&self) -> u64 {
        self.acknowledged
    }

    /// The refusals with 5.
    pub fn wrong(&self) -> &Wrong {
        &self.wrong
    }
}

/// How many bytes of the room a call may have written.
fn written(case: &Case, result: u64) -> usize {
    match case.call.is_plain() {
        true => 0,
        false => count(result as u32),
    }
}

/// Which bytes of the record a call may have changed.
fn touched(case: &Case, result: u64, record: &[u8]) -> Range<usize> {
    let status = |place| slot(place) + 2;
    match (case.call, number(result as u32)) {
        (Call::Make { count, .. }, 0) => 0..slot(count as usize),
        (Call::Deliver, 0) => slot(0)..slot(lamps(record)),
        (Call::Deliver, 5) => status(0)..status(0) + 1,
        (Call::Sense { place, .. }, 0) => status(place as usize)..status(place as usize) + 2,
        (Call::Next { .. } | Call::End, 0..=5) => 0..reader::LENGTH,
        _ => 0..0,
    }
}

/// The result of a call on which both sides agreed.
fn agreed(case: &Case, result: u64, arena: &Arena) -> Agreed {
    let (count, [_, at, _]) = (written(case, result), arena.index());
    Agreed {
        result,
        number: number(result as u32),
        written: arena.room().iter().take(count).copied().collect(),
        at,
    }
}
