//! The acknowledged commands of request 02: compared with the second
//! implementation, and on the library alone held against their plain forms.

use crate::chain_suites::numbered;
use crate::chains::*;
use crate::check::{hex, Checker};
use crate::library::LIBRARY;
use crate::lists::fields;
use crate::material::*;
use crate::random::Random;
use crate::suites::{Outcome, Suite};
use reference::case::Call;

/// The sets that every run compares.
pub const ACKNOWLEDGED_SUITES: [Suite; 5] = [
    every_state,
    any_chain,
    every_value,
    every_answer,
    which_are_either,
];

/// Temperatures at the ends of a byte and between them.
const TEMPERATURES: [u8; 6] = [0x00, 0x01, 0x6B, 0x7F, 0x80, 0xFF];
/// The lamps of the chain whose every state is tried.
const LAMPS: usize = 3;
/// Lamps of a chain, how many such chains there are, and the commands that each
/// gets.
const CHAINS: [(usize, usize, usize); 6] = [
    (1, 500, 20),
    (2, 1_000, 20),
    (9, 1_000, 30),
    (33, 300, 30),
    (300, 30, 60),
    (1007, 15, 60),
];

/// An acknowledged command for one address, and what it carries.
struct Order {
    known: Known,
    address: u32,
    payload: Vec<u8>,
}

impl Order {
    /// With any payload of the right size.
    fn any(known: Known, address: u32, random: &mut Random) -> Order {
        Order {
            known,
            address,
            payload: random.bytes(known.payload),
        }
    }

    /// The telegram.
    fn bytes(&self) -> Vec<u8> {
        fitting(self.address, self.known.number, &self.payload)
    }

    /// The telegram of its plain form.
    fn plain(&self) -> Vec<u8> {
        fitting(self.address, self.known.plain(), &self.payload)
    }
}

/// What the library says of a lamp: state, flags, and what an answer tells.
struct Lamp {
    state: u8,
    flags: u8,
    told: [u8; 2],
}

impl Lamp {
    /// The lamp at a place.
    fn at(record: &[u8], place: usize) -> Result<Lamp, String> {
        let fields = fields(record, place)?;
        let (state, com, flags) = (fields[2], fields[3], fields[4]);
        Ok(Lamp {
            state,
            flags,
            told: [fields[5], state << 6 | com << 4 | flags],
        })
    }
}

/// Each of the seven with each of the four states, the 32 sets of flags and both
/// values of COM, which are all status bytes, and with some temperatures.
fn every_state(check: &mut Checker, random: &mut Random) -> Outcome {
    let mut record = numbered(check, random, LAMPS)?;
    for known in acknowledged() {
        for status in 0..=255 {
            for temperature in TEMPERATURES {
                for place in 0..LAMPS {
                    // Members of groups 0 to 7.
                    let fields = [&[status, temperature], &random.bytes(4)[..], &[0x00, 0xFF]];
                    let fields = [fields.concat(), random.bytes(6)].concat();
                    record[slot(place) + 2..slot(place + 1)].copy_from_slice(&fields);
                }
                every_cast(check, random, &record, known)?;
            }
        }
    }
    Ok(())
}

/// One of the seven to each lamp, to nobody, to everyone, to a group of the lamps
/// and to another.
fn every_cast(check: &mut Checker, random: &mut Random, record: &[u8], known: Known) -> Outcome {
    let lamps = (0..LAMPS).filter_map(|place| address_at(record, place));
    for address in lamps.chain([nobody(record)]) {
        let order = Order::any(known, address, random);
        acknowledge(
            check,
            &mut record.to_vec(),
            &order,
            answer_room(random).max(12),
        )?;
    }
    let (own, other) = (random.between(0, 7), random.between(8, 14));
    for address in [0, 0x3F0 + own, 0x3F0 + other] {
        let bytes = Order::any(known, address, random).bytes();
        let agreed = check.compare_on(&mut record.to_vec(), &delivering(&bytes, 12))?;
        if agreed.number != 7 {
            return Err(format!("not 7 but {}: {}", agreed.number, hex(&bytes)));
        }
    }
    Ok(())
}

/// The place of the first lamp with an address.
fn place_of(record: &[u8], address: u32) -> Option<usize> {
    (0..lamps(record)).find(|&place| address_at(record, place) == Some(address))
}

/// An address that no lamp of a short chain has.
fn nobody(record: &[u8]) -> u32 {
    let mut all = 1..=0x3EF;
    let free = all.find(|&address| place_of(record, address).is_none());
    free.expect("a chain with fewer lamps than addresses")
}

/// Commands to chains that sensor reports, changes from outside and other commands
/// went over, also with lamps of the same address.
fn any_chain(check: &mut Checker, random: &mut Random) -> Outcome {
    let seven: Vec<Known> = acknowledged().collect();
    for (count, times, commands) in CHAINS {
        for _ in 0..times {
            let mut record = numbered(check, random, count)?;
            for _ in 0..commands {
                unsettle(check, random, &mut record)?;
                let address = somebody(&record, random);
                let order = Order::any(random.pick(&seven), address, random);
                acknowledge(check, &mut record, &order, 12)?;
            }
        }
    }
    Ok(())
}

/// A sensor report, a change from outside, another command, or nothing.
fn unsettle(check: &mut Checker, random: &mut Random, record: &mut [u8]) -> Outcome {
    let case = match random.below(4) {
        0 => {
            disturb(record, random);
            return Ok(());
        }
        1 => {
            let place = place(lamps(record), random) as u32;
            sensing(place, random.byte(), random.between(0, 7))
        }
        2 => delivering(&command_for(record, random), 12),
        _ => return Ok(()),
    };
    check.compare_on(record, &case).map(|_| ())
}

/// A command to one lamp or to nobody. Both sides agree on it; the library leaves
/// what it leaves after the plain form, changes no flag, and answers with what it
/// then says of the lamp.
fn acknowledge(check: &mut Checker, record: &mut [u8], order: &Order, room: usize) -> Outcome {
    let before = record.to_vec();
    let agreed = check.compare_on(record, &delivering(&order.bytes(), room))?;
    let mut plainly = before.clone();
    let done = (LIBRARY.deliver)(&mut plainly, &order.plain(), &mut [0; 12]);
    let wanted = answer(&before, record, order)?;
    let fault = if (agreed.number, done) != (0, 0) {
        "it is not done, or its plain form is not".to_string()
    } else if *record != plainly[..] {
        "it leaves another record than its plain form".to_string()
    } else if agreed.written != wanted {
        let (is, should) = (hex(&agreed.written), hex(&wanted));
        format!("the answer is ({is}), should be ({should})")
    } else {
        check.command_acknowledged();
        return Ok(());
    };
    Err(told(&fault, order, &before))
}

/// The answer that the library's readings of the lamp before and after ask for:
/// none from nobody and from a lamp that was in UNINITIALIZED.
fn answer(before: &[u8], after: &[u8], order: &Order) -> Result<Vec<u8>, String> {
    let Some(place) = place_of(before, order.address) else {
        return Ok(Vec::new());
    };
    let (was, is) = (Lamp::at(before, place)?, Lamp::at(after, place)?);
    if was.flags != is.flags {
        return Err(told("a flag was changed", order, before));
    }
    Ok(match was.state {
        0 => Vec::new(),
        _ => fitting(order.address, order.known.number, &is.told),
    })
}

/// The text of a fault.
fn told(fault: &str, order: &Order, before: &[u8]) -> String {
    let shown = &before[..before.len().min(slot(LAMPS))];
    let (bytes, shown) = (hex(&order.bytes()), hex(shown));
    format!("acknowledged command {bytes}: {fault}\n  record before it {shown}")
}

/// Every value of 2D's two bytes, delivered as a mask and dissected both ways, and
/// every setup byte of 6D.
fn every_value(check: &mut Checker, random: &mut Random) -> Outcome {
    let mut record = numbered(check, random, 1)?;
    let address = address_at(&record, 0).unwrap_or(1);
    let mut set = |check: &mut Checker, number, payload: &[u8]| {
        let known = acknowledged().find(|known| known.number == number);
        let order = Order {
            known: known.ok_or("no such command")?,
            address,
            payload: payload.to_vec(),
        };
        acknowledge(check, &mut record, &order, 12)
    };
    for value in 0..=0xFFFF_u16 {
        let word = value.to_be_bytes();
        set(check, SETMULT_SR, &word)?;
        let bytes = fitting(lamp(random), SETMULT_SR, &word);
        let named = check.succeed(&reading(Call::Dissect, &bytes, 12))?;
        let answered = check.succeed(&reading(Call::DissectAnswer, &bytes, 12))?;
        if named[5..] != word || answered[4..] != word {
            return Err(format!("other values than those of {}", hex(&bytes)));
        }
    }
    for byte in 0..=255 {
        set(check, SETSETUP_SR, &[byte])?;
    }
    Ok(())
}

/// Answers to each of the seven with every status byte, of every size, and from
/// every class of address, which the raw builder builds back where they are accepted.
fn every_answer(check: &mut Checker, random: &mut Random) -> Outcome {
    for known in acknowledged() {
        for status in 0..=255 {
            let (address, payload) = (lamp(random), [random.byte(), status]);
            let answer = fitting(address, known.number, &payload);
            let named = check.succeed(&reading(Call::DissectAnswer, &answer, 12))?;
            let build = building(address, known.number, &named[4..], 12);
            check.come_back(&build, &answer)?;
        }
        for (size, address) in SIZES
            .iter()
            .flat_map(|size| ADDRESSES.map(|at| (*size, at)))
        {
            for room in 0..=8 {
                let answer = fitting(address, known.number, &random.bytes(size));
                check.compare(&reading(Call::DissectAnswer, &answer, room))?;
            }
        }
    }
    Ok(())
}

/// Every number, size and class of address: 2D with two bytes to one lamp, and
/// nothing else, is accepted as a command and as an answer.
fn which_are_either(check: &mut Checker, random: &mut Random) -> Outcome {
    for number in 0..128 {
        for size in SIZES {
            for address in ADDRESSES {
                let bytes = fitting(address, number, &random.bytes(size));
                let command = check.compare(&reading(Call::Dissect, &bytes, 16))?;
                let answer = check.compare(&reading(Call::DissectAnswer, &bytes, 16))?;
                let one_lamp = (1..=0x3EF).contains(&address);
                let wanted = number == SETMULT_SR && size == 2 && one_lamp;
                if ((command.number, answer.number) == (0, 0)) != wanted {
                    return Err(format!("either, or not: {}", hex(&bytes)));
                }
            }
        }
    }
    Ok(())
}
