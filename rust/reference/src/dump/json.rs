//! A listing as JSON.

use crate::answer::Reply;
use crate::dump::fault::Fault;
use crate::dump::{Last, Meaning};
use crate::replay::json::{answered, bytes, checksums, command, name, number, refusal};
use crate::replay::page::Page;
use crate::replay::words;

/// A telegram: its position, its bytes and what they say.
pub fn telegram(page: &mut Page, position: u64, telegram: &[u8], meaning: &Meaning) {
    heading(page, position, telegram);
    match meaning {
        Meaning::Command(order) => {
            command(page, order);
            page.text("}\n");
        }
        Meaning::Answer(reply) => {
            page.text(",\"number\":0");
            answer(page, reply);
        }
        Meaning::Either(order, reply) => {
            command(page, order);
            answer(page, reply);
        }
        Meaning::Neither(as_command, as_answer) => {
            number(page, ",\"number\":0,\"as_command\":", as_command.number());
            number(page, ",\"as_answer\":", as_answer.number());
            page.text("}\n");
        }
    }
}

/// What an answer says, which ends the line.
fn answer(page: &mut Page, reply: &Reply) {
    let answers = words::command(reply.answer().name());
    name(page, ",\"answers\":\"", answers);
    answered(page, reply);
}

/// A refused telegram.
pub fn fault(page: &mut Page, position: u64, fault: &Fault) {
    heading(page, position, fault.bytes);
    refusal(page, fault.refusal);
    if let Some(expected) = fault.expected() {
        name(page, ",\"expected\":\"", &expected);
    }
    page.text("}\n");
}

/// The last line: where the reading ended or stopped, and what was read.
pub fn last(page: &mut Page, last: &Last) {
    let key = match last.refusal {
        None => "{\"ended\":",
        Some(_) => "{\"stopped\":",
    };
    number(page, key, last.position);
    number(page, ",\"telegrams\":", last.tally.telegrams());
    if !last.quiet {
        number(page, ",\"commands\":", last.tally.commands);
        number(page, ",\"answers\":", last.tally.answers);
        number(page, ",\"either\":", last.tally.either);
        number(page, ",\"neither\":", last.tally.neither);
    }
    let refused = last.refusal.map_or(0, |refusal| refusal.number());
    number(page, ",\"number\":", refused);
    checksums(page, last.refusal);
    page.text("}\n");
}

/// The position and the bytes, which start the line.
fn heading(page: &mut Page, position: u64, telegram: &[u8]) {
    number(page, "{\"position\":", position);
    bytes(page, ",\"bytes\":\"", telegram);
}
