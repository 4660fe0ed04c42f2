//! The text of a difference.

use super::{function, FUNCTIONS};
use crate::arena::Arena;
use crate::chains::{slot, SLOT};
use reference::case::{Call, Case};
use reference::wire::{checksums, count, number};
use std::fmt::Write;
use std::ops::Range;

/// The most slots of a record that a report shows.
const SHOWN: usize = 9;

/// What was called, what went wrong, and what both sides gave.
pub(super) fn describe(
    case: &Case,
    fault: &str,
    library: (u64, &Arena),
    reference: (u64, &Arena),
) -> String {
    let mut text = format!("{fault}: {}\n", input(case));
    for (side, (result, arena)) in [("library", library), ("reference", reference)] {
        let result = match case.call.is_plain() {
            true => format!("value {result:X}"),
            false => value_text(result as u32),
        };
        let room = hex(arena.room());
        let _ = writeln!(text, "  {side:9} {result}, room {room}");
    }
    text
}

/// A returned value: its number, the count or both checksums where the number has
/// them, and all of it.
pub fn value_text(value: u32) -> String {
    let above = match (number(value), checksums(value)) {
        (0, _) => format!(", count {}", count(value)),
        (_, Some(pair)) => format!(", checksums {}", hex(&pair)),
        _ => String::new(),
    };
    format!("number {}{above}, value {value:08X}", number(value))
}

/// The parts of a record that a report shows: the header, and the first slots
/// or the one with the difference.
pub(super) fn shown(record: &[u8], at: Option<usize>) -> Vec<Range<usize>> {
    let slots = record.len().saturating_sub(slot(0)).div_ceil(SLOT);
    let place = at.unwrap_or(0).saturating_sub(slot(0)) / SLOT;
    let places = if slots > SHOWN && place >= SHOWN {
        place..place + 1
    } else {
        0..slots.min(SHOWN)
    };
    let parts = places.map(|place| slot(place)..slot(place + 1));
    std::iter::once(0..slot(0))
        .chain(parts)
        .map(|part| part.start.min(record.len())..part.end.min(record.len()))
        .filter(|part| !part.is_empty())
        .collect()
}

/// Parts of the record before the call, and behind it on both sides.
pub(super) fn describe_records(
    parts: &[Range<usize>],
    before: &Arena,
    library: &Arena,
    reference: &Arena,
) -> String {
    let mut text = String::new();
    if !parts.is_empty() {
        let _ = writeln!(text, "  memory of {} bytes", before.record().len());
    }
    for part in parts {
        for (name, arena) in [
            ("before", before),
            ("library", library),
            ("reference", reference),
        ] {
            let bytes = hex(&arena.record()[part.clone()]);
            let _ = writeln!(text, "  record from {:5} {name:9} {bytes}", part.start);
        }
    }
    text
}

/// The function of a case and all that is given to it.
pub fn input(case: &Case) -> String {
    let name = FUNCTIONS[function(&case.call)];
    let numbers = match case.call {
        Call::Build { address, command } => format!(" address {address} command {command}"),
        Call::BuildCommand {
            command,
            cast,
            value,
        } => format!(" command {command} cast {cast} value {value}"),
        Call::BuildPwm {
            cast,
            value,
            modes,
            duties,
        } => format!(" cast {cast} value {value} modes {modes} duties {duties:?}"),
        Call::RecordLen { count } => format!(" count {count}"),
        Call::Make {
            count,
            setup,
            thresholds,
        } => format!(" count {count} setup {setup} thresholds {thresholds:?}"),
        Call::Sense {
            place,
            temperature,
            faults,
        } => format!(" place {place} temperature {temperature} faults {faults}"),
        Call::Lamp { place } => format!(" place {place}"),
        Call::Next { at } => format!(" at {at}"),
        _ => String::new(),
    };
    let (size, room, bytes) = (case.bytes.len(), case.room, hex(&case.bytes));
    format!("{name}{numbers} room {room} bytes ({size}) {bytes}")
}

/// Bytes in hex, with spaces between.
pub fn hex(bytes: &[u8]) -> String {
    let pairs: Vec<String> = bytes.iter().map(|byte| format!("{byte:02X}")).collect();
    pairs.join(" ")
}
