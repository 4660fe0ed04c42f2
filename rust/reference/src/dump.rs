//! The listing of a raw capture, written from docs/TOOL.md.
//!
//! - [`arguments`]: how the program is called.
//! - [`fault`]: what is told of a refused telegram.
//! - [`text`] and [`json`]: the two forms of output.

pub mod arguments;
mod fault;
mod json;
#[cfg(test)]
mod tests;
mod text;

use crate::answer::Reply;
use crate::capture::{self, Stand};
use crate::command::Order;
use crate::replay::page::Page;
use crate::replay::{Ending, Failure};
use crate::telegram::Telegram;
use crate::Refusal;
use fault::Fault;
use std::io::{Read, Write};

/// What to print.
#[derive(Clone, Copy, Debug, PartialEq, Eq)]
pub struct Options {
    pub json: bool,
    /// Whether the last line alone is printed.
    pub quiet: bool,
}

/// What a telegram says.
enum Meaning {
    Command(Order),
    Answer(Reply),
    /// Nothing in it tells which of the two it is.
    Either(Order, Reply),
    /// Why it is no command, and why no answer.
    Neither(Refusal, Refusal),
}

impl Meaning {
    /// Takes a telegram as a command and as an answer.
    fn of(bytes: &[u8]) -> Meaning {
        let telegram = Telegram::parse(bytes);
        let order = telegram.and_then(|telegram| Order::of_telegram(&telegram));
        let reply = telegram.and_then(|telegram| Reply::of_telegram(&telegram));
        match (order, reply) {
            (Ok(order), Ok(reply)) => Meaning::Either(order, reply),
            (Ok(order), Err(_)) => Meaning::Command(order),
            (Err(_), Ok(reply)) => Meaning::Answer(reply),
            (Err(as_command), Err(as_answer)) => Meaning::Neither(as_command, as_answer),
        }
    }
}

/// The telegrams that were read, by what they say.
#[derive(Default)]
struct Tally {
    commands: u64,
    answers: u64,
    either: u64,
    neither: u64,
}

impl Tally {
    fn count(&mut self, meaning: &Meaning) {
        *match meaning {
            Meaning::Command(_) => &mut self.commands,
            Meaning::Answer(_) => &mut self.answers,
            Meaning::Either(..) => &mut self.either,
            Meaning::Neither(..) => &mut self.neither,
        } += 1;
    }

    fn telegrams(&self) -> u64 {
        self.commands + self.answers + self.either + self.neither
    }
}

/// What the last line tells.
struct Last {
    position: u64,
    tally: Tally,
    /// What stopped the reading, if anything did.
    refusal: Option<Refusal>,
    quiet: bool,
}

/// How things are printed.
struct Form {
    telegram: fn(&mut Page, u64, &[u8], &Meaning),
    fault: fn(&mut Page, u64, &Fault),
    last: fn(&mut Page, &Last),
}

static TEXT: Form = Form {
    telegram: text::telegram,
    fault: text::fault,
    last: text::last,
};
static JSON: Form = Form {
    telegram: json::telegram,
    fault: json::fault,
    last: json::last,
};

/// Lists a capture, telegram by telegram; at most one is refused.
pub fn dump(
    options: &Options,
    mut input: impl Read,
    mut output: impl Write,
) -> Result<Ending, Failure> {
    let mut run = Vec::new();
    input.read_to_end(&mut run).map_err(Failure::Input)?;
    let form = if options.json { &JSON } else { &TEXT };
    let (mut page, mut tally, mut position) = (Page::default(), Tally::default(), 0);
    let reading = capture::read(&run, 0, true);
    for bytes in reading.telegrams {
        let meaning = Meaning::of(bytes);
        tally.count(&meaning);
        if !options.quiet {
            (form.telegram)(&mut page, position, bytes, &meaning);
        }
        position += bytes.len() as u64;
        page.spill(&mut output).map_err(Failure::Output)?;
    }
    let refusal = match reading.stand {
        Stand::Stopped(refusal) => Some(refusal),
        Stand::Open | Stand::Ended => None,
    };
    if let Some(refusal) = refusal.filter(|_| !options.quiet) {
        let fault = Fault::of(refusal, reading.left);
        (form.fault)(&mut page, position, &fault);
    }
    let last = Last {
        position,
        tally,
        refusal,
        quiet: options.quiet,
    };
    (form.last)(&mut page, &last);
    page.write(&mut output).map_err(Failure::Output)?;
    output.flush().map_err(Failure::Output)?;
    Ok(Ending {
        refused: u64::from(refusal.is_some()),
        notes: Vec::new(),
    })
}
