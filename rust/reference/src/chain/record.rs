//! The record as a whole: a header of six bytes and a slot for each lamp.

use crate::chain::lamp::{self, Slot, READ_OUT, SLOT};
use crate::Refusal;

/// The bytes before the first slot.
const HEADER: usize = 6;
/// The most lamps in a chain.
const MOST_LAMPS: usize = 1007;
/// All three flags of a sensor report.
const ALL_FAULTS: u32 = 7;

/// Where a lamp is in the chain; place 0 is nearest the host.
#[derive(Clone, Copy, Debug, PartialEq, Eq)]
pub struct Place(pub u32);

/// What RESET puts into setup and thresholds.
#[derive(Clone, Copy, Debug, PartialEq, Eq)]
pub struct Defaults {
    pub setup: u8,
    pub thresholds: [u8; 3],
}

/// A valid chain in lent memory.
pub struct Chain<'a> {
    pub(super) defaults: Defaults,
    pub(super) slots: &'a mut [Slot],
}

/// How many bytes the record of so many lamps has, for a count that is in
/// range.
pub fn length(count: usize) -> Option<usize> {
    (1..=MOST_LAMPS)
        .contains(&count)
        .then_some(HEADER + SLOT * count)
}

/// The slots of a valid chain; refuses any other memory with 11.
fn slots(memory: &[u8]) -> Result<&[Slot], Refusal> {
    let (header, rest) = memory.split_at_checked(HEADER).ok_or(Refusal::Chain)?;
    let count = usize::from(u16::from_be_bytes([header[0], header[1]]));
    length(count).ok_or(Refusal::Chain)?;
    let (slots, _) = rest.as_chunks();
    let slots = slots.get(..count).ok_or(Refusal::Chain)?;
    // Nearly every record is valid, so that leaving early would only cost time.
    let valid = |all, slot| all & lamp::is_valid(slot);
    let valid = slots.iter().fold(true, valid);
    valid.then_some(slots).ok_or(Refusal::Chain)
}

impl<'a> Chain<'a> {
    /// The chain in lent memory; refuses memory without a valid one with 11.
    pub fn open(memory: &'a mut [u8]) -> Result<Chain<'a>, Refusal> {
        let count = slots(memory)?.len();
        let (header, rest) = memory.split_at_mut(HEADER);
        let defaults = Defaults {
            setup: header[2],
            thresholds: [header[3], header[4], header[5]],
        };
        let slots = &mut rest.as_chunks_mut().0[..count];
        Ok(Chain { defaults, slots })
    }

    /// A sensor report: 13, then 10.
    pub fn sense(&mut self, place: Place, temperature: u8, faults: u32) -> Result<(), Refusal> {
        let slot = self.slots.get_mut(place.0 as usize);
        let slot = slot.ok_or(Refusal::Place)?;
        if faults > ALL_FAULTS {
            return Err(Refusal::Range);
        }
        lamp::sense(slot, temperature, faults as u8);
        Ok(())
    }

    /// The lamps in the order of their places, each read out.
    pub fn lamps(&self) -> impl Iterator<Item = [u8; READ_OUT]> + use<'_> {
        self.slots.iter().map(|slot| {
            let mut out = [0; READ_OUT];
            lamp::read_out(slot, &mut out);
            out
        })
    }
}

/// Makes a chain of fresh lamps: 11 for the count, then 9.
pub fn make(memory: &mut [u8], count: usize, defaults: Defaults) -> Result<(), Refusal> {
    let length = length(count).ok_or(Refusal::Chain)?;
    let record = memory.get_mut(..length).ok_or(Refusal::Room)?;
    let (header, rest) = record.split_at_mut(HEADER);
    header[..2].copy_from_slice(&(count as u16).to_be_bytes());
    header[2] = defaults.setup;
    header[3..].copy_from_slice(&defaults.thresholds);
    rest.as_chunks_mut().0.fill(lamp::fresh(defaults));
    Ok(())
}

/// A sensor report: 11, 13, then 10.
pub fn sense(memory: &mut [u8], place: Place, temperature: u8, faults: u32) -> Result<(), Refusal> {
    Chain::open(memory)?.sense(place, temperature, faults)
}

/// Reads out the lamp at a place: 11, 13, then 9.
pub fn read_out(memory: &[u8], place: Place, room: &mut [u8]) -> Result<usize, Refusal> {
    let slot = slots(memory)?.get(place.0 as usize);
    let slot = slot.ok_or(Refusal::Place)?;
    let out = room.first_chunk_mut().ok_or(Refusal::Room)?;
    lamp::read_out(slot, out);
    Ok(READ_OUT)
}
