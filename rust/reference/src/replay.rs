//! The replay of a script or a capture on a fresh chain, written from
//! docs/TOOL.md.
//!
//! - [`arguments`]: how the program is called.
//! - [`program`]: what it reads from, and its exit.
//! - [`ending`]: how it ends, and what it then says.
//! - [`pieces`]: input cut into pieces of whole lines.
//! - [`script`]: what a line says.
//! - [`page`]: output, gathered before it is written.
//! - [`words`]: the names of things.
//! - [`text`] and [`json`]: the two forms of output.

pub mod arguments;
mod ending;
pub(crate) mod json;
pub(crate) mod page;
mod pieces;
pub mod program;
mod script;
#[cfg(test)]
mod tests;
pub(crate) mod text;
pub(crate) mod words;

use crate::answer::{self, Reply};
use crate::capture::{self, Stand};
use crate::chain::lamp::READ_OUT;
use crate::chain::{self, Chain, Defaults};
use crate::command::{Order, Pwm};
use crate::telegram::{Telegram, LONGEST};
use crate::Refusal;
use page::Page;
use pieces::Pieces;
use script::{Line, Report, Sent};
use std::io::{Read, Write};

pub use ending::{errors, status, Ending, Failure, Note, Stop};

/// The chain to make, and what to print.
#[derive(Clone, Copy, Debug, PartialEq, Eq)]
pub struct Options {
    pub lamps: u32,
    pub defaults: Defaults,
    /// Whether the lamps alone are printed.
    pub quiet: bool,
    pub json: bool,
    /// Whether a raw capture is replayed, and no script.
    pub raw: bool,
}

/// Does a script line by line, or a capture telegram by telegram, and prints it,
/// then the lamps.
pub fn replay(
    options: &Options,
    input: impl Read,
    mut output: impl Write,
) -> Result<Ending, Failure> {
    let lamps = options.lamps as usize;
    let mut record = vec![0; chain::length(lamps).unwrap_or(0)];
    chain::make(&mut record, lamps, options.defaults).map_err(Failure::Chain)?;
    let mut replay = Replay {
        chain: Chain::open(&mut record).map_err(Failure::Chain)?,
        print: match (options.quiet, options.json) {
            (true, _) => Print::Nothing,
            (false, false) => Print::Text,
            (false, true) => Print::Json,
        },
        raw: options.raw,
        page: Page::default(),
        ending: Ending::default(),
    };
    let ended = match options.raw {
        false => replay.script(input, &mut output),
        true => replay.capture(input, &mut output),
    };
    if ended.is_ok() {
        replay.lamps(options, &mut output)?;
    }
    replay.page.write(&mut output).map_err(Failure::Output)?;
    output.flush().map_err(Failure::Output)?;
    ended.map(|()| replay.ending)
}

/// What is printed of each line.
#[derive(Clone, Copy)]
enum Print {
    Nothing,
    Text,
    Json,
}

/// Where a telegram or a report stands in what is replayed.
#[derive(Clone, Copy)]
struct Mark {
    name: &'static str,
    number: u64,
}

impl Mark {
    /// In a line of a script.
    fn line(number: u64) -> Mark {
        let name = "line";
        Mark { name, number }
    }

    /// At a position of a capture.
    fn position(number: u64) -> Mark {
        let name = "position";
        Mark { name, number }
    }
}

/// A telegram that was done, and the answer to it.
struct Exchange {
    order: Order,
    /// The answer that it may be itself, where nobody knows who sent it.
    either: Option<Reply>,
    answer: Option<(Sent, Reply)>,
}

/// A lamp's fields.
struct Fields {
    address: u16,
    state: u8,
    com: u8,
    flags: u8,
    temperature: u8,
    thresholds: [u8; 3],
    setup: u8,
    groups: u16,
    pwm: Pwm,
}

impl Fields {
    /// The fields of a lamp that is read out.
    fn of(
        [a1, a0, state, com, flags, temperature, t0, t1, t2, setup, g1, g0, pwm @ ..]: [u8;
            READ_OUT],
    ) -> Fields {
        Fields {
            address: u16::from_be_bytes([a1, a0]),
            state,
            com,
            flags,
            temperature,
            thresholds: [t0, t1, t2],
            setup,
            groups: u16::from_be_bytes([g1, g0]),
            pwm: Pwm::of_bytes(pwm),
        }
    }
}

/// A replay under way.
struct Replay<'a> {
    chain: Chain<'a>,
    print: Print,
    /// Whether lamps may have sent a telegram too.
    raw: bool,
    page: Page,
    ending: Ending,
}

impl Replay<'_> {
    /// Does all the lines.
    fn script(&mut self, input: impl Read, output: &mut impl Write) -> Result<(), Failure> {
        let mut pieces = Pieces::new(input);
        let mut number = 0;
        while let Some(mut text) = pieces.next().map_err(Failure::Input)? {
            while !text.is_empty() {
                number += 1;
                let mark = Mark::line(number);
                match Line::take(&mut text).ok_or(Failure::Line(number))? {
                    Line::Nothing => {}
                    Line::Telegram(sent) => self.telegram(mark, &sent),
                    Line::Sensor(report) => self.sensor(mark, &report),
                }
                self.page.spill(output).map_err(Failure::Output)?;
            }
        }
        Ok(())
    }

    /// Does all the telegrams of a capture, and tells where it stopped.
    fn capture(&mut self, mut input: impl Read, output: &mut impl Write) -> Result<(), Failure> {
        let mut run = Vec::new();
        input.read_to_end(&mut run).map_err(Failure::Input)?;
        let reading = capture::read(&run, 0, true);
        let mut position = 0;
        for telegram in reading.telegrams {
            self.telegram(Mark::position(position), &Sent::of(telegram));
            position += telegram.len() as u64;
            self.page.spill(output).map_err(Failure::Output)?;
        }
        if let Stand::Stopped(refusal) = reading.stand {
            self.stop(Stop { position, refusal });
        }
        Ok(())
    }

    /// Tells where the capture stopped, in the output or else in a note.
    fn stop(&mut self, stop: Stop) {
        self.ending.refused += 1;
        match self.print {
            Print::Nothing => self.ending.note(Note::Stopped(stop)),
            Print::Text => text::stopped(&mut self.page, stop),
            Print::Json => json::stopped(&mut self.page, stop),
        }
    }

    /// Delivers a telegram and prints what came of it.
    fn telegram(&mut self, mark: Mark, sent: &Sent) {
        let refused = match self.print {
            Print::Nothing => self.deliver(sent).is_err(),
            Print::Text => {
                let outcome = self.exchange(sent);
                text::telegram(&mut self.page, mark, sent, &outcome);
                outcome.is_err()
            }
            Print::Json => {
                let outcome = self.exchange(sent);
                json::telegram(&mut self.page, mark, sent, &outcome);
                outcome.is_err()
            }
        };
        self.ending.refused += u64::from(refused);
    }

    /// Delivers a telegram; notes that it may be an answer.
    fn deliver(&mut self, sent: &Sent) -> Result<(), Refusal> {
        let telegram = self.chain.hear(sent.bytes())?;
        self.chain.take(&telegram, &mut [0; LONGEST])?;
        if self.raw && answer::heading(&telegram).is_ok() {
            self.ending.note(Note::Either);
        }
        Ok(())
    }

    /// Delivers a telegram and names it and its answer.
    fn exchange(&mut self, sent: &Sent) -> Result<Exchange, Refusal> {
        let telegram = self.chain.hear(sent.bytes())?;
        let order = Order::of_telegram(&telegram)?;
        let mut room = [0; LONGEST];
        let count = self.chain.take(&telegram, &mut room)?;
        let either = self.raw.then(|| Reply::of_telegram(&telegram));
        let either = either.and_then(Result::ok);
        let mut answer = None;
        if count > 0 {
            let sent = Sent::of(&room[..count]);
            let reply = Reply::of_telegram(&Telegram::parse(sent.bytes())?)?;
            answer = Some((sent, reply));
        }
        Ok(Exchange {
            order,
            either,
            answer,
        })
    }

    /// Does a sensor report and prints what came of it.
    fn sensor(&mut self, mark: Mark, report: &Report) {
        let (place, faults) = (report.place, report.faults);
        let outcome = self.chain.sense(place, report.temperature, faults);
        self.ending.refused += u64::from(outcome.is_err());
        match self.print {
            Print::Nothing => {}
            Print::Text => text::sensor(&mut self.page, mark, report, outcome),
            Print::Json => json::sensor(&mut self.page, mark, report, outcome),
        }
    }

    /// Prints the lamps.
    fn lamps(&mut self, options: &Options, output: &mut impl Write) -> Result<(), Failure> {
        if !options.json {
            text::head(&mut self.page, options.quiet);
        }
        for (place, lamp) in (0..).zip(self.chain.lamps()) {
            let fields = Fields::of(lamp);
            match options.json {
                false => text::lamp(&mut self.page, place, &fields),
                true => json::lamp(&mut self.page, place, &fields),
            }
            self.page.spill(output).map_err(Failure::Output)?;
        }
        Ok(())
    }
}
