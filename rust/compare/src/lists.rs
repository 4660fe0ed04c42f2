//! Demand 3 of document 01, "Lists of deliveries", tried on the library alone:
//! each lamp of a chain does what it would do without the others, and
//! neighbours in the list may trade places.
//!
//! - [`deliveries`]: the telegrams of a list, and what they gave back.

mod deliveries;

use crate::chains::{defaults, slot};
use crate::check::hex;
use crate::library::LIBRARY;
use crate::material::fitting;
use crate::random::Random;
use deliveries::{any_list, deliver, same, telegram_text, Delivery, Given};
use reference::wire::{count, number};
use std::collections::BTreeSet;

/// What an unwritten byte of a room or behind a record holds.
const FILL: u8 = 0x5A;
/// The most lamps of a chain that are all tried alone.
const ALL: usize = 9;

/// Lamps of a chain, how many lists it gets, and the most telegrams in one.
const LISTS: [(usize, usize, usize); 7] = [
    (1, 2_000, 40),
    (2, 5_000, 40),
    (3, 5_000, 40),
    (9, 5_000, 60),
    (40, 600, 200),
    (300, 80, 400),
    (1007, 40, 400),
];

/// What was tried.
#[derive(Default)]
pub struct Tally {
    /// Deliveries to the library.
    pub deliveries: u64,
    /// Lists given to a whole chain.
    pub lists: u64,
    /// Lists of own telegrams given to a lone lamp.
    pub lone: u64,
    /// Pairs that traded places.
    pub trades: u64,
    /// Telegrams that were nobody's.
    pub nobodys: u64,
    /// Acknowledged commands of lists that a lamp answered.
    pub acknowledged: u64,
}

/// The record with which a list begins: made, then numbered by one init.
struct Start {
    count: usize,
    first: u32,
    init: u32,
    defaults: [u8; 4],
}

/// Tries lists on chains of every size.
pub fn try_lists(random: &mut Random) -> Result<Tally, String> {
    let mut tally = Tally::default();
    for (count, times, most) in LISTS {
        for _ in 0..times {
            let start = Start::any(count, random);
            let length = random.below(most + 1);
            let list = any_list(&start, length, random);
            start
                .try_list(&list, random, &mut tally)
                .map_err(|fault| report(&start, &list, &fault))?;
        }
    }
    Ok(tally)
}

impl Start {
    /// A chain of so many lamps, numbered from anywhere.
    fn any(count: usize, random: &mut Random) -> Start {
        let end = 0x3F0 - count as u32;
        let any = random.between(1, end);
        Start {
            count,
            first: random.pick(&[1, any, any, end]),
            init: random.between(2, 3),
            defaults: defaults(random),
        }
    }

    /// The same with one lamp, which gets the address of a place.
    fn alone(&self, place: usize) -> Start {
        Start {
            count: 1,
            first: self.first + place as u32,
            ..*self
        }
    }

    /// Makes the record and numbers its lamps.
    fn record(&self, tally: &mut Tally) -> Result<Vec<u8>, String> {
        let mut record = vec![FILL; slot(self.count) + 5];
        let [setup, t0, t1, t2] = self.defaults;
        let made = (LIBRARY.make)(&mut record, self.count as u32, setup, t0, t1, t2);
        let init = fitting(self.first, self.init, &[]);
        let numbered = (LIBRARY.deliver)(&mut record, &init, &mut [FILL; 12]);
        tally.deliveries += 1;
        if [made, numbered].map(number) != [0, 0] {
            return Err("the chain is not made and numbered".to_string());
        }
        Ok(record)
    }

    /// The place of a lamp with an address, if init gave it to one.
    fn place(&self, address: u32) -> Option<usize> {
        let place = address.checked_sub(self.first)? as usize;
        (place < self.count).then_some(place)
    }

    /// The place whose own telegram this is, if it is somebody's.
    fn owner(&self, delivery: &Delivery) -> Option<usize> {
        delivery
            .address
            .ok()
            .and_then(|address| self.place(address))
    }

    /// Tries one list: whole, each lamp alone, and some trades.
    fn try_list(
        &self,
        list: &[Delivery],
        random: &mut Random,
        tally: &mut Tally,
    ) -> Result<(), String> {
        let mut record = self.record(tally)?;
        let mut given = Vec::new();
        for delivery in list {
            given.push(self.try_delivery(&mut record, delivery, tally)?);
        }
        tally.lists += 1;
        for place in self.places(list, random) {
            self.try_alone(place, list, &record, &given, tally)?;
        }
        let pairs: Vec<usize> = (1..list.len())
            .filter(|&at| may_trade(&list[at - 1], &list[at]))
            .collect();
        for _ in 0..pairs.len().min(3) {
            self.try_trade(random.pick(&pairs), list, &record, &given, tally)?;
        }
        Ok(())
    }

    /// Delivers one telegram; what is nobody's must change nothing.
    fn try_delivery(
        &self,
        record: &mut [u8],
        delivery: &Delivery,
        tally: &mut Tally,
    ) -> Result<Given, String> {
        if self.owner(delivery).is_some() {
            let given = deliver(record, delivery, tally);
            let answered = count(given.result) > 0;
            tally.acknowledged += u64::from(delivery.is_acknowledged() && answered);
            return Ok(given);
        }
        let before = record.to_vec();
        let given = deliver(record, delivery, tally);
        let wanted = match delivery.address {
            _ if delivery.room < 12 => 9,
            Ok(_) => 0,
            Err(refusal) => refusal,
        };
        if record != before || given.result != wanted || given.room != vec![FILL; delivery.room] {
            return Err(format!(
                "a telegram that is nobody's: {}\n  wanted {wanted}, given {}, room {}, record {}",
                telegram_text(delivery),
                given.result,
                hex(&given.room),
                if *record == before { "kept" } else { "changed" }
            ));
        }
        tally.nobodys += 1;
        Ok(given)
    }

    /// The places that are tried alone: all of a short chain, else the ends and
    /// those that got a telegram.
    fn places(&self, list: &[Delivery], random: &mut Random) -> BTreeSet<usize> {
        if self.count <= ALL {
            return (0..self.count).collect();
        }
        let owners = list.iter().filter_map(|delivery| self.owner(delivery));
        let ends = [0, self.count - 1, random.below(self.count)];
        owners.chain(ends).collect()
    }

    /// Gives a lamp its own telegrams alone: its answers and its fields are
    /// those that it has in the chain.
    fn try_alone(
        &self,
        place: usize,
        list: &[Delivery],
        record: &[u8],
        given: &[Given],
        tally: &mut Tally,
    ) -> Result<(), String> {
        let mut lone = self.alone(place).record(tally)?;
        for (delivery, given) in list.iter().zip(given) {
            if self.owner(delivery) == Some(place) {
                let alone = deliver(&mut lone, delivery, tally);
                same(
                    given,
                    &alone,
                    delivery,
                    &format!("the lamp at place {place} alone"),
                )?;
            }
        }
        let (ours, theirs) = (fields(record, place)?, fields(&lone, 0)?);
        if ours != theirs {
            let (ours, theirs) = (hex(&ours), hex(&theirs));
            return Err(format!(
                "the lamp at place {place} ends otherwise\n  in the chain {ours}\n  alone        {theirs}"
            ));
        }
        tally.lone += 1;
        Ok(())
    }

    /// Lets a telegram trade places with the one before it: every result and
    /// the record at the end are as before.
    fn try_trade(
        &self,
        at: usize,
        list: &[Delivery],
        record: &[u8],
        given: &[Given],
        tally: &mut Tally,
    ) -> Result<(), String> {
        let mut order: Vec<usize> = (0..list.len()).collect();
        order.swap(at - 1, at);
        let mut traded = self.record(tally)?;
        for number in order {
            let again = deliver(&mut traded, &list[number], tally);
            let what = format!("telegrams {} and {at} traded", at - 1);
            same(&given[number], &again, &list[number], &what)?;
        }
        if traded != record {
            let differs = traded.iter().zip(record).position(|(new, old)| new != old);
            return Err(format!(
                "telegrams {} and {at} traded: record byte {differs:?} differs",
                at - 1
            ));
        }
        tally.trades += 1;
        Ok(())
    }
}

/// Whether two neighbours may trade places: both accepted, for different
/// addresses.
fn may_trade(one: &Delivery, other: &Delivery) -> bool {
    matches!((one.address, other.address), (Ok(one), Ok(other)) if one != other)
}

/// Every field of the lamp at a place, as the library reads it out.
pub(crate) fn fields(record: &[u8], place: usize) -> Result<Vec<u8>, String> {
    let mut room = vec![FILL; 18];
    match (LIBRARY.lamp)(record, place as u32, &mut room) {
        0x1200 => Ok(room),
        other => Err(format!(
            "the lamp at place {place} is not read out: {other}"
        )),
    }
}

/// The text of a list that went wrong.
fn report(start: &Start, list: &[Delivery], fault: &str) -> String {
    let mut text = format!(
        "demand 3 on the library alone: {fault}\n  {} lamps, init {:02X} from {:03X}, defaults {}\n",
        start.count,
        start.init,
        start.first,
        hex(&start.defaults)
    );
    for (number, delivery) in list.iter().enumerate() {
        text += &format!("  {number:3} {}\n", telegram_text(delivery));
    }
    text
}
