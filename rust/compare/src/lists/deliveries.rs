//! The telegrams of a list, their deliveries, and what they gave back.

use crate::chains::{answer_room, delivering, init_for};
use crate::check::{hex, input, value_text};
use crate::library::LIBRARY;
use crate::lists::{Start, Tally, FILL};
use crate::material::*;
use crate::random::Random;
use reference::wire::number;

/// A telegram of a list and the room for its answer.
#[derive(Clone)]
pub(super) struct Delivery {
    bytes: Vec<u8>,
    pub(super) room: usize,
    /// To which address the dissector accepts it, or the refusal.
    pub(super) address: Result<u32, u32>,
}

impl Delivery {
    /// Whether the dissector accepts it as an acknowledged command.
    pub(super) fn is_acknowledged(&self) -> bool {
        let number = self.bytes.get(2).map_or(0, |byte| u32::from(byte & 0x7F));
        self.address.is_ok() && acknowledged().any(|known| known.number == number)
    }
}

/// What a delivery gave back, and the room behind it.
#[derive(Clone, PartialEq, Eq)]
pub(super) struct Given {
    pub(super) result: u32,
    pub(super) room: Vec<u8>,
}

/// A list for a chain: telegrams for its lamps, for nobody, and refused ones.
pub(super) fn any_list(start: &Start, length: usize, random: &mut Random) -> Vec<Delivery> {
    let favourites = [0; 4].map(|_| start.first + random.below(start.count) as u32);
    let mut list = Vec::new();
    while list.len() < length {
        let any = start.first + random.below(start.count) as u32;
        let bytes = match random.below(10) {
            0 => one_lamp(lamp(random), random),
            1 | 2 => refused(start, random),
            3 => one_lamp(any, random),
            _ => one_lamp(random.pick(&favourites), random),
        };
        let room = answer_room(random);
        let address = dissected(&bytes);
        if address != Err(5) {
            list.push(Delivery {
                bytes,
                room,
                address,
            });
        }
    }
    list
}

/// A command for one lamp that is no init; RESET less often than the others.
fn one_lamp(address: u32, random: &mut Random) -> Vec<u8> {
    let mut known = random.pick(&KNOWN);
    while known.is_init() || known.number == 0 && random.below(4) > 0 {
        known = random.pick(&KNOWN);
    }
    fitting(address, known.number, &random.bytes(known.payload))
}

/// A telegram that the dissector refuses with a number other than 5.
fn refused(start: &Start, random: &mut Random) -> Vec<u8> {
    loop {
        let mut bytes = match random.below(5) {
            0 => good(random),
            1 => init_for(start.count, random),
            2 => fitting(0, random.between(2, 3), &random.bytes(2)),
            _ => one_lamp(start.first, random),
        };
        for _ in 0..random.below(3) {
            damage(&mut bytes, random);
        }
        if matches!(dissected(&bytes), Err(number) if number != 5) {
            return bytes;
        }
    }
}

/// To which one-lamp address the library's dissector accepts a telegram, or
/// the refusal.
fn dissected(bytes: &[u8]) -> Result<u32, u32> {
    let mut room = [0; 12];
    match number((LIBRARY.dissect)(bytes, &mut room)) {
        0 => Ok(u32::from(room[2]) << 8 | u32::from(room[3])),
        number => Err(number),
    }
}

/// Delivers a telegram to the library.
pub(super) fn deliver(record: &mut [u8], delivery: &Delivery, tally: &mut Tally) -> Given {
    let mut room = vec![FILL; delivery.room];
    let result = (LIBRARY.deliver)(record, &delivery.bytes, &mut room);
    tally.deliveries += 1;
    Given { result, room }
}

/// Demands that a telegram gave the same both times.
pub(super) fn same(
    one: &Given,
    other: &Given,
    delivery: &Delivery,
    what: &str,
) -> Result<(), String> {
    if one == other {
        return Ok(());
    }
    let text = telegram_text(delivery);
    let line = |given: &Given| {
        let (value, room) = (value_text(given.result), hex(&given.room));
        format!("{value}, room {room}")
    };
    let (one, other) = (line(one), line(other));
    Err(format!(
        "{what}: {text}\n  as listed {one}\n  otherwise {other}"
    ))
}

/// A telegram with its room.
pub(super) fn telegram_text(delivery: &Delivery) -> String {
    input(&delivering(&delivery.bytes, delivery.room))
}
